#!/usr/bin/env bash
# What makes the start of a search: what first fit, the better of both greedy plans, moves on pairs
# and the walk leave of the loss, and what they take.
#
# First the instances of the generator of `drill` with 40 to 1024 orders, a row for each: the
# orders, the seed, the loss of the first-fit plan, of the better greedy plan, after the moves, and
# after the walk with the moves behind it; the milliseconds of first fit, of the moves, and of the
# walk with the moves behind it; and the time of both together over that of first fit.
#
# Then families with few sizes, ten instances of 111 orders each, weights up to 22 and 20 colours, a
# row for each family: its sizes; the means of the losses in the same columns, with the least and
# the greatest after the moves and after the walk; and the means of the times, with the longest
# walk.
#
# Last what the product takes for 1024 orders of the generator with no node, reading and printing
# included: the seed, the loss, and seconds.
#
# Each time is the least of three runs. The word is the number of moves and steps, by default 1000.
. "$(dirname "$0")/workspace.sh"

moves=${1:-1000}
build_maker
build starts_time

# The row of the instance that these words make, with the least times.
row() {
    local i
    "$maker" "$@" >"$scratch/instance"
    for i in 1 2 3; do "$program" "$moves" <"$scratch/instance"; done | awk '
        {
            losses = $1 " " $2 " " $3 " " $4 " " $5;
            for (i = 6; i <= 8; i++) if (NR == 1 || $i < least[i]) least[i] = $i;
        }
        END { print losses, least[6] / 1e6, least[7] / 1e6, least[8] / 1e6 }'
}

echo "orders seed first_fit greedy pairs walk ms_first_fit ms_pairs ms_walk ratio"
for orders in 40 80 111 200 400 600 800 1024; do
    for seed in 1 2 3; do
        row "$seed" "$orders" | awk -v seed="$seed" '{
            printf "%d %d %d %d %d %d %.3f %.3f %.3f %.1f\n", $1, seed, $2, $3, $4, $5, $6, $7, $8,
                ($7 + $8) / $6;
        }'
    done
done

echo "sizes first_fit greedy pairs pairs_least pairs_most walk walk_least walk_most" \
    "ms_first_fit ms_pairs ms_walk ms_longest_walk"
for sizes in "30 45" "20 33 44" "17 24 44"; do
    for seed in 1 2 3 4 5 6 7 8 9 10; do
        # shellcheck disable=SC2086
        row "$seed" 111 $sizes
    done | awk -v sizes="${sizes// /,}" '
        {
            for (i = 2; i <= 8; i++) {
                sum[i] += $i;
                if (NR == 1 || $i < least[i]) least[i] = $i;
                if (NR == 1 || $i > most[i]) most[i] = $i;
            }
        }
        END {
            for (i = 2; i <= 8; i++) mean[i] = sum[i] / NR;
            printf "%s %.1f %.1f %.1f %d %d %.1f %d %d %.3f %.3f %.3f %.3f\n", sizes, mean[2],
                mean[3], mean[4], least[4], most[4], mean[5], least[5], most[5], mean[6], mean[7],
                mean[8], most[8];
        }'
done

product
echo "orders seed loss seconds"
for seed in 1 2 3; do
    "$maker" "$seed" 1024 >"$scratch/instance"
    loss=$({ "$product" solve --nodes 0 <"$scratch/instance" || true; } | sed -n 's/^loss //p')
    echo 1024 "$seed" "$loss" \
        "$(least_time 3 "$scratch/instance" "$product" solve --nodes 0)"
done
