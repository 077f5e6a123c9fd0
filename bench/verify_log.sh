#!/usr/bin/env bash
# Times `verify` on the logs that `prove` prints, against the reader of logs on the same logs.
#
# Each row: the size, the number of records, the kilobytes of the log, the milliseconds of `verify`
# on the instance and the answer, those of a program that reads the log and parses it, their ratio,
# and the nanoseconds of `verify` for a byte of the log. Each time is the least of five runs. There
# are always eleven orders, of one colour and of weights 21 to 31, so that the logs grow with the
# one size: the more orders a slab holds, the more paths there are. The last row is a log of 250 MB
# whose lines are right and whose records are not all that is wanted; it ends with what `verify`
# says.
#
# Words: the nodes that `prove` may close, by default 2000000.
. "$(dirname "$0")/workspace.sh"

nodes=${1:-2000000}
product
build parse_time
cd "$scratch"

# A row for an instance and its answer, whose log begins at the fourth line.
row() {
    cat instance answer >input
    tail -n +4 answer >log
    "$program" 11 <log
    local verify parse
    verify=$(least_time 5 input "$product" verify)
    parse=$(least_time 5 log "$program" 11)
    awk -v name="$1" -v records="$(sed -n '1s/log 1 //p' log)" -v bytes="$(wc -c <log)" \
        -v a="$verify" -v b="$parse" 'BEGIN {
        printf "%s %d %d %.0f %.0f %.2f %.1f", name, records, bytes / 1000, a * 1000, b * 1000, \
            (b > 0 ? a / b : 0), a * 1e9 / bytes;
    }'
}

# Eleven orders on slabs of one size.
write_instance() {
    echo "1 $1"
    echo 1
    echo 11
    for weight in 21 22 23 24 25 26 27 28 29 30 31; do echo "$weight 1"; done
}

echo "size records KB verify parse_log ratio ns/byte"
for size in 48 54 62 70 80 350; do
    write_instance "$size" >instance
    "$product" prove --nodes "$nodes" <instance >answer || true
    [ "$(head -1 answer)" = optimal ] || { echo "$size: $(head -1 answer)"; continue; }
    [ "$("$product" verify < <(cat instance answer))" = "verified $(sed -n 2p answer)" ]
    row "$size"
    echo
done

# 250 MB of right lines: all paths that count up in nine numbers, closed as leaves or split.
{
    printf 'optimal\n'
    sed -n '2,3p' answer
    awk -v bytes=250000000 'BEGIN {
        so_far = 0; records = 0;
        while (so_far < bytes) {
            path = ""; rest = records;
            for (j = 0; j < 9; j++) { path = " " rest % 9 + 1 path; rest = int(rest / 9); }
            line = (records % 2 ? "S 9" : "L 9") path;
            print line > "body";
            so_far += length(line) + 1; records++;
        }
        print "log 1 " records;
    }'
} >head
cat head body <(echo end) >answer
rm body
row "$size"
echo " $("$product" verify <input || true)"
