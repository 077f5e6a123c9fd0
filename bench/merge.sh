#!/usr/bin/env bash
# Times `merge`, which makes one log of the pieces of four workers by a tree of their paths, against
# sorts of the same records by path.
#
# First a line with the number of processors and the load. Then each row: the orders of an instance,
# its sizes, its seed, and how many colours a slab may carry; the records of its whole search, and
# how many pieces have one; how many stretches of rising paths the pieces have, one piece behind the
# other; how many numbers a path has on average; in milliseconds the search, by workers that take
# turns on one thread, `merge`, the library's stable sort and its unstable one; the ratio of `merge`
# to each sort; and `same` where all three gave as many records as the pieces have, in one order of
# paths, else `other`. An instance whose search has no end within the budget has `-` in place of
# all that.
#
# `merge` and the sorts begin with the pieces, and end with one list of the records. They get copies
# of the pieces, which are made before, and take turns; each time but that of the search is the
# least of three calls. The last row takes up to 1.5 GB.
#
# The word is how many nodes a search may close, by default 2000000.
. "$(dirname "$0")/workspace.sh"

nodes=${1:-2000000}
build_maker
build merge_time

echo "processors $(nproc), load $(cut -d' ' -f1 /proc/loadavg)"
echo "orders sizes seed colours records pieces stretches length ms_search ms_merge ms_stable" \
    "ms_unstable ratio_stable ratio_unstable order"
while read -r colours seed orders sizes; do
    # shellcheck disable=SC2086
    "$maker" "$seed" "$orders" $sizes >"$scratch/instance"
    { "$program" "$colours" "$nodes" <"$scratch/instance" || echo "-"; } |
        awk -v row="$orders ${sizes// /,} $seed $colours" '
            NF == 1 { print row, "- - - - - - - - - - -"; next; }
            {
                printf "%s %d %d %d %.1f %.0f %.2f %.2f %.2f %.1f %.1f %s\n", row, $1, $2, $3,
                    $4 / $1, $5 / 1e6, $6 / 1e6, $7 / 1e6, $8 / 1e6, $6 / $7, $6 / $8, $9;
            }'
done <<'END'
2 2 22 20 33 44
1 3 60 20 33 44
2 1 27 20 33 44
1 9 70 20 33 44
END
