# The table of the manual's section 10, newest first. sed has no stack: where macros 5 and 6 ask for
# the label that the last `do` stored, any label is taken, and nothing is stored.
:a
s/\t/ /g
ta
s/  / /g
ta
s/^ [0-9]\{1,\} \{1,\}continue/}/
ta
s/^[0-9]\{1,\} \{1,\}continue/}/
ta
s/^[ 0-9]\{1,\}//
ta
s/do \([0-9]\{1,\}\) \([A-Za-z0-9]\{1,\}\)=\([0-9]\{1,\}\),\([0-9]\{1,\}\),\([0-9]\{1,\}\)$/for(\2=\3;\2<=\4;\2=\2+\5){/
ta
s/do \([0-9]\{1,\}\) \([A-Za-z0-9]\{1,\}\)=\([0-9]\{1,\}\),\([0-9]\{1,\}\)$/for(\2=\3;\2<=\4;\2++){/
ta
s/\([^;{}]\)$/\1;/
ta
