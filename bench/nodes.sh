#!/usr/bin/env bash
# What a node of the search takes: one worker over a small hand, from what first fit loses.
#
# First a row for each instance: its orders, its sizes (`drill` for the generator of `drill`), the
# loss of first fit and the least one found, the nodes and whether they are all (1) or the budget
# ended the run (0); how many of them are leaves, closed by the ascent's prices, closed after a
# sweep, dominated, and split; the part of those that ask for prices (all but leaves) whose live key
# an earlier one had; then in microseconds a node: the whole run; prices alone; the groups of the
# path; live keys; dead losses; children; the copy of the path that is noted; and the ratio of the
# whole to prices alone. Prices and the others are those of the same nodes, called once more; the
# copies that nodes make of their own path are in that of the groups.
#
# What the ascent and a sweep are worth is a function of the live key, but for 60 times the dead
# loss: so the part of known keys is how often worths that were kept by live key would be found.
#
# Then what a search of the store takes, of 65,536 entries whose keys have forty groups: keys that
# differ from their first groups on, and keys that differ in the last two alone; how many are found,
# with nanoseconds a search, of keys that are there and of others.
#
# Last small instances, searched to their end: the orders and sizes, how many instances, how many
# came to their end, the nodes on average, how many found less than first fit, and for how many the
# least loss is that of the plan that `solve` calls optimal.
#
# Each time is the least of three runs. The word is how many nodes a worker closes, by default
# 20000; with 1024 orders it is a two-hundredth of that.
. "$(dirname "$0")/workspace.sh"

nodes=${1:-20000}
build make_instance
maker=$program
build store_time
finder=$program
build nodes_time

# The row of the instance that these words make, from so many nodes, with the least times.
row() {
    local count=$1 i
    shift
    "$maker" "$@" >"$scratch/instance"
    for i in 1 2 3; do "$program" "$count" <"$scratch/instance"; done | awk '
        {
            counts = $1;
            for (i = 2; i <= 11; i++) counts = counts " " $i;
            for (i = 12; i <= 18; i++) if (NR == 1 || $i < least[i]) least[i] = $i;
        }
        END {
            printf "%s", counts;
            for (i = 12; i <= 18; i++) printf " %.0f", least[i];
            print "";
        }'
}

echo "orders sizes seed first_fit least nodes whole leaves ascent sweep dominated split known" \
    "us_node prices groups keys dead children copies ratio"
for orders in 40 111 1024; do
    for sizes in drill "20 33 44"; do
        count=$nodes
        [ "$orders" -lt 1024 ] || count=$((nodes / 200))
        for seed in 1 2 3; do
            # shellcheck disable=SC2086
            row "$count" "$seed" "$orders" ${sizes#drill} |
                awk -v sizes="${sizes// /,}" -v seed="$seed" '{
                    printf "%d %s %d", $1, sizes, seed;
                    for (i = 2; i <= 10; i++) printf " %d", $i;
                    printf " %.2f", ($4 > $6 ? $11 / ($4 - $6) : 0);
                    for (i = 12; i <= 18; i++) printf " %.2f", $i / 1000 / $4;
                    printf " %.2f\n", $12 / $13;
                }'
        done
    done
done

echo "keys entries groups found ns_there others_found ns_away"
"$finder" | awk '{ printf "%s %d %d %d %.0f %d %.0f\n", $1, $2, $3, $4, $5 / $2, $6, $7 / $2 }'

product
echo "orders sizes instances whole nodes_mean improved same"
for orders in 4 6 8 10 12; do
    for sizes in "20 33 44" "30 45"; do
        for seed in 1 2 3 4 5 6 7 8 9 10; do
            # shellcheck disable=SC2086
            "$maker" "$seed" "$orders" $sizes >"$scratch/instance"
            loss=$("$product" solve --nodes 1000000000 <"$scratch/instance" |
                awk '/^optimal$/ { optimal = 1 } optimal && /^loss / { print $2 }')
            echo "$("$program" 1000000 <"$scratch/instance") ${loss:--}"
        done | awk -v orders="$orders" -v sizes="${sizes// /,}" '
            { whole += $5; nodes += $4; improved += $3 < $2; same += $5 == 1 && $3 == $19 }
            END { print orders, sizes, NR, whole, nodes / NR, improved + 0, same + 0 }'
    done
done
