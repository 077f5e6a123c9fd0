#!/usr/bin/env bash
# Time and memory of `verify` for logs of about 200 MB, nearly all of whose records are of one kind,
# and of `prove` and `verify` for a log that `prove` prints.
#
# A row for each: the kind (`leaves`, `prices`, `dominated`; then `proved`); the megabytes of the
# input; its records, in thousands; the seconds and the megabytes of `verify`; the megabytes that
# the text takes with 8 bytes for each price, 2 for each number of a path and 100 for each record;
# and the ratio of the two. With `proved` the seconds and megabytes of `prove` come last.
#
# The instances are made so that each record is sound and the answer accepted:
#   leaves     six orders fill a slab each, and twelve others have one colour and all fit together:
#              every path of the tree has its record
#   prices     144 orders of weight 1, each with a colour of its own, eight to a slab: a plan loses
#              nothing, and each path of 11 numbers is closed by prices that are all 0
#   dominated  the same orders: of the paths of 12 numbers whose groups weigh alike the first is
#              closed by prices, and all others name it
#   proved     28 drawn orders, whose log has records of all kinds
. "$(dirname "$0")/workspace.sh"

build_maker
product

# Writes the instance and the answer of a kind. The tree is walked as the format wants the records:
# a path before those that go on with it. `numbers` has the path, `load` what each group holds.
write_kind() {
    awk -v kind="$1" '
        function text(depth,    i, line) {
            line = "";
            for (i = 0; i < depth; i++) line = line " " numbers[i] + 1;
            return line;
        }
        function shape(groups,    i, count, key) {
            split("", count);
            for (i = 0; i < groups; i++) count[load[i]]++;
            key = "";
            for (i = 1; i <= room; i++) key = key " " (count[i] + 0);
            return key;
        }
        function close_by_prices(depth,    i, line) {
            return "P " depth text(depth) (depth < orders ? zeros[orders - depth] : "");
        }
        function put(line) { records++; print line > log_file; }
        function walk(depth, groups,    group, last) {
            if (depth == bottom) {
                if (kind == "leaves") put("L " depth text(depth));
                else if (kind == "prices") put(close_by_prices(depth));
                else if (shape(groups) in first) put("D " depth text(depth) first[shape(groups)]);
                else {
                    first[shape(groups)] = text(depth);
                    put(close_by_prices(depth));
                }
                return;
            }
            put("S " depth text(depth));
            last = groups;
            for (group = depth < heavy ? last : heavy; group <= last; group++) {
                if (group < groups && load[group] == room) continue;
                numbers[depth] = group;
                load[group]++;
                walk(depth + 1, group == groups ? groups + 1 : groups);
                load[group]--;
            }
        }
        BEGIN {
            log_file = "/dev/stderr";
            heavy = kind == "leaves" ? 6 : 0;
            orders = kind == "leaves" ? 18 : 144;
            room = kind == "leaves" ? orders : 8;
            bottom = kind == "leaves" ? orders : kind == "prices" ? 11 : 12;
            for (i = 1; i <= orders; i++) zeros[i] = zeros[i - 1] " 0";
            if (kind == "leaves") {
                print "1 1000\n1\n" orders;
                for (i = 0; i < heavy; i++) print 1000, 1;
                for (i = orders - heavy; i > 0; i--) print i, 1;
                loss = 922;
            } else {
                print "1 8\n" orders "\n" orders;
                for (i = 1; i <= orders; i++) print 1, i;
                loss = 0;
            }
            print "optimal\nloss", loss;
            line = "plan";
            for (i = 0; i < orders; i++)
                line = line " " 1 + (kind == "leaves" ? (i < heavy ? i : heavy) : int(i / 8));
            print line;
            walk(0, 0);
            print records > "/dev/fd/3";
        }' 2>"$scratch/log" 3>"$scratch/records" >"$scratch/head"
    {
        cat "$scratch/head"
        echo "log 1 $(cat "$scratch/records")"
        cat "$scratch/log"
        echo end
    } >"$scratch/input"
    rm "$scratch/log"
}

# Seconds and kilobytes of a command that reads a file; what it writes goes to $scratch/found.
measured() {
    local file=$1
    shift
    /usr/bin/time -f '%e %M' -o "$scratch/time" "$@" <"$file" >"$scratch/found" || true
    tail -n 1 "$scratch/time"
}

# The row of a kind, for the input that stands in $scratch/input, with the words of `verify`.
row() {
    local kind=$1 verified
    shift
    verified=$(measured "$scratch/input" "$product" verify "$@")
    grep -q '^verified' "$scratch/found" || { cat "$scratch/found" >&2; exit 1; }
    awk -v kind="$kind" -v verified="$verified" -v bytes="$(wc -c <"$scratch/input")" '
        NR == 3 { orders = $1 }
        $1 == "S" || $1 == "L" { records++; numbers += $2; }
        $1 == "P" { records++; numbers += $2; prices += orders - $2; }
        $1 == "D" { records++; numbers += 2 * $2; }
        END {
            split(verified, v, " ");
            aim = (bytes + 8 * prices + 2 * numbers + 100 * records) / 1e6;
            printf "%s %.0f %.0f %.1f %.0f %.0f %.2f", kind, bytes / 1e6, records / 1e3, v[1],
                v[2] * 1024 / 1e6, aim, v[2] * 1024 / 1e6 / aim;
        }' "$scratch/input"
}

echo "kind MB records_k s_verify MB_verify MB_aim ratio s_prove MB_prove"
write_kind leaves
row leaves
echo
write_kind prices
row prices --colours 8
echo
write_kind dominated
row dominated --colours 8
echo
"$maker" 15 28 30 45 >"$scratch/instance"
proved=$(measured "$scratch/instance" "$product" prove --nodes 10000000)
cat "$scratch/instance" "$scratch/found" >"$scratch/input"
row proved
echo "$proved" | awk '{ printf " %.1f %.0f\n", $1, $2 * 1024 / 1e6 }'
