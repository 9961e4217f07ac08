# The table of the manual's section 10, oldest first.
use strict;
use warnings;
our (@macros, %entry, %pointer, %value);
@macros = (
    ['=', sub { s/([^;{}])\z/$1;/g }],
    ['=', sub { s/do ([0-9]+) ([A-Za-z0-9]+)=([0-9]+),([0-9]+)\z/store('a', $1, 0) . "for($2=$3;$2<=$4;$2++){"/ge }],
    ['=', sub { s/do ([0-9]+) ([A-Za-z0-9]+)=([0-9]+),([0-9]+),([0-9]+)\z/store('a', $1, 0) . "for($2=$3;$2<=$4;$2=$2+$5){"/ge }],
    ['=', sub { s/\A[ 0-9]+//g }],
    ['=', sub { my $a = entry('a'); s/\A\Q$a\E +continue/}/g }],
    ['=', sub { my $a = entry('a'); s/\A \Q$a\E +continue/}/g }],
    ['=', sub { s/  / /g }],
    ['=', sub { s/\t/ /g }],
);
1;
