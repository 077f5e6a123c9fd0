#!/usr/bin/env bash
# Times the reader of logs on logs of 10, 20, 50 and 100 MB against `wc -lw` on the same file.
#
# Each row: the size in MB, the number of records, the seconds of a program that reads the file and
# parses it, the seconds of `wc -lw`, and their ratio; each time is the least of three runs.
. "$(dirname "$0")/workspace.sh"

build parse_time
cd "$scratch"

# A log with so many bytes or a few more: paths of 60 numbers that count up, with all four kinds.
write_log() {
    awk -v bytes="$1" '
    BEGIN {
        tail = ""; for (j = 0; j < 53; j++) tail = tail " " (j * 37) % 100 + 1;
        prices = ""; for (j = 0; j < 40; j++) prices = prices " " (j % 3 - 1) * 60 * 12345;
        length_so_far = 0; records = 0;
        while (length_so_far < bytes) {
            path = ""; rest = records;
            for (j = 0; j < 7; j++) { path = " " rest % 90 + 10 path; rest = int(rest / 90); }
            path = path tail;
            kind = records % 4;
            if (kind == 0) line = "S 60" path;
            else if (kind == 1) line = "P 60" path prices;
            else if (kind == 2) line = "D 60" path path;
            else line = "L 60" path;
            print line > "body";
            length_so_far += length(line) + 1; records++;
        }
        print "log 1 " records;
    }' >head
    { cat head body; echo end; } >log
    rm body
}

echo "MB records parse_log wc ratio"
for megabytes in 10 20 50 100; do
    write_log $((megabytes * 1000000))
    "$program" 100 <log
    parse=$(least_time 3 log "$program" 100)
    count=$(least_time 3 log wc -lw)
    echo "$megabytes $(sed 's/log 1 //' head) $parse $count $(ratio "$parse" "$count")"
done
