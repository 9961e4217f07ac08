# perl feed.pl TABLE.pl ROUNDS: M7's rules for lines (01, part 6) over macros
# that are written as substitutions. It feeds the lines of standard input in
# turn, ROUNDS times from a fresh state, and prints what becomes of each with
# its passes; the last line is best and median of the rounds, in microseconds of
# processor time.
use strict;
use warnings;
use File::Spec;
use Time::HiRes qw(clock_gettime CLOCK_PROCESS_CPUTIME_ID);

our (@macros, %entry, %pointer, %value);

# Stores a text on a stack whose pointer moves by a step before.
sub store {
    my ($stack, $text, $step) = @_;
    $pointer{$stack} += $step;
    die "34\n" if $pointer{$stack} > 20;
    $pointer{$stack} = 1 if $pointer{$stack} < 1;
    die "33\n" if length $text > 100;
    $entry{$stack}[ $pointer{$stack} ] = $text;
    return '';
}

sub entry { my ($stack) = @_; return $entry{$stack}[ $pointer{$stack} ] // '' }

sub moved_entry {
    my ($stack, $step) = @_;
    $pointer{$stack} += $step;
    $pointer{$stack} = 1 if $pointer{$stack} < 1;
    return entry($stack);
}

sub fresh {
    %entry = ();
    $pointer{$_} = $value{$_} = 1 for 'a' .. 'z';
}

# Passes begin with the newest macro; after one that occurred, again with it.
sub feed {
    my ($line, $budget) = @_;
    local $_ = $line;
    my ($passes, $next, %closed) = (0, $#macros);
    while (1) {
        die "control lines are not written here\n" if substr($_, 0, 1) eq '$';
        $next-- while $next >= 0 && $closed{$next};
        return "$passes $_" if $next < 0;
        return "$passes ! 31" if $passes == $budget;
        $passes++;
        my ($symbol, $pass) = @{ $macros[$next] };
        if ($pass->()) {
            return "$passes ! 32" if length > 1054;
            $closed{$next} = 1 if $symbol eq '<';
            $next = $#macros;
        } else {
            $next--;
        }
    }
}

my ($table, $rounds) = @ARGV;
do File::Spec->rel2abs($table) or die "$table: $@$!";
chomp(my @lines = <STDIN>);
$SIG{ALRM} = sub { print "stopped after 20 seconds\n"; exit 0 };
my (@times, @out);
for (1 .. $rounds) {
    fresh();
    alarm 20;
    my $begun = clock_gettime(CLOCK_PROCESS_CPUTIME_ID);
    @out = map { feed($_, 10000) } @lines;
    push @times, (clock_gettime(CLOCK_PROCESS_CPUTIME_ID) - $begun) * 1e6;
}
alarm 0;
@times = sort { $a <=> $b } @times;
print "$_\n" for @out, "$times[0] $times[@times / 2]";
