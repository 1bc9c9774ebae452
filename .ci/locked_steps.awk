# Reads what objdump prints of tests/steps.c, and behind it valgrind's trace of the instructions that ran. Each call of
# `mark` ends a try or a release; the locked instructions between two of them are counted, those of a try and of its
# release on one line.
function bare(address) { sub(/^0+/, "", address); sub(/[:,].*/, "", address); return address }
/ <mark>:$/ { mark = bare($1) }
/^ *[0-9a-f]+:\t(lock |xchg .*\()/ { locked[bare($1)] }
/^I / && bare($2) == mark { if (marks++) printf "%d%s", steps, marks % 2 ? "\n" : " "; steps = 0 }
/^I / && bare($2) in locked { steps++ }
