#!/usr/bin/env bash
# Times the tables of least slacks for two colours a slab against a plain knapsack over all orders.
#
# Each row: the number of orders, the largest size, the depth of the node, the groups of its path;
# then in microseconds: making the tables of the orders that are left, the first slacks of the
# groups, the greedy ascent over these orders, and the plain knapsack; and the ratio of the first
# three together to the last. All are timed in one run of one program, each as the least of many.
# The plain knapsack takes all orders once, colour by colour, with a table for all loads for each
# number of colours. The instances are those of make_instance, with weights up to half the largest
# size and about two orders of each colour, for a mill of four sizes.
. "$(dirname "$0")/workspace.sh"

build_maker
# An instance for each row.
{
    for _ in 1 2 3; do on_four_sizes 40 20 44; done
    for _ in 1 2 3; do on_four_sizes 111 60 44; done
    for _ in 1 2 3; do on_four_sizes 1024 500 44; done
    on_four_sizes 40 20 20000
    for _ in 1 2; do on_four_sizes 111 60 20000; done
} >"$scratch/instances"
build slacks_time
echo "orders size depth groups make first ascent plain ratio"
"$program" <"$scratch/instances" | awk '{
    make = $5 / 1000; first = $6 / 1000; ascent = $7 / 1000; plain = $8 / 1000;
    printf "%d %d %d %d %.1f %.1f %.1f %.1f %.1f\n", $1, $2, $3, $4, make, first, ascent, plain,
        (make + first + ascent) / plain;
}'
