#!/usr/bin/env bash
# Times the calls on what running workers share, alone and with four threads.
#
# Each row: the call, the threads that make it at the same time, the millions of calls a second of
# all threads together, the nanoseconds of one call in one thread, those of the plain form, both
# the least of three runs, and their ratio. The plain form of a step on a word is one of a counter,
# alone, and that of a push with its pop, and of a theft, is a push with its pop on a vector.
# `push_pop` is one push and one pop, by the owner of a deque of its own; `steal` is one try on a
# deque that all threads share and that is full at the start.
. "$(dirname "$0")/workspace.sh"

build words_time
echo "call threads millions/s ns plain ratio"
for ((i = 0; i < 3; i++)); do
    "$program"
done | awk '
{
    row = $1 " " $2;
    if (!(row in call)) { rows[n++] = row; call[row] = $3 / $5; plain[row] = $4 / $5; }
    if ($3 / $5 < call[row]) call[row] = $3 / $5;
    if ($4 / $5 < plain[row]) plain[row] = $4 / $5;
}
END {
    for (i = 0; i < n; i++) {
        row = rows[i]; split(row, words, " ");
        printf "%s %.1f %.1f %.1f %.1f\n", row, words[2] * 1000 / call[row], call[row], plain[row],
            call[row] / plain[row];
    }
}'
