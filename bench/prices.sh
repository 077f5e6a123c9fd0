#!/usr/bin/env bash
# Times prices at a node against a plain knapsack over all orders.
#
# Each row: the number of orders, the largest size, the most colours of a slab, the depth of the
# node on the first-fit path, the groups there; then in microseconds: the ascent, the ascent with
# one sweep and what the prices are worth then, and the plain knapsack; and the ratios of the first
# two to the last. All are timed in one run of one program: the plain knapsack as the least of ten,
# the others as the least of as many as half a second has room for, of two at least and 1,001 at
# most. With 1,024 orders and size 20,000 only slabs of one and two colours are timed.
# The last row, which begins with `walk`, has a number of nodes and the mean of ascent with sweep
# over them: the first 400 nodes of a depth-first walk, with 111 orders, size 44 and two colours a
# slab. The walk splits those nodes that may lead to a plan better than that of first fit.
# The plain knapsack takes all orders once, colour by colour, with a table for all loads for each
# number of colours. The instances are those of make_instance, with weights up to half the largest
# size and about two orders of each colour, for a mill of four sizes.
. "$(dirname "$0")/workspace.sh"

build_maker
{
    for size in 44 20000; do
        on_four_sizes 40 20 "$size"
        on_four_sizes 111 60 "$size"
        on_four_sizes 1024 500 "$size"
    done
    # That of the walk.
    on_four_sizes 111 60 44
} >"$scratch/instances"
build prices_time
echo "orders size p depth groups ascent both plain ratio_ascent ratio_both"
"$program" <"$scratch/instances" | awk '
    $1 == "walk" { printf "walk %d %.1f\n", $2, $3 / 1000 / $2; next }
    {
        ascent = $6 / 1000; both = $7 / 1000; plain = $8 / 1000;
        printf "%d %d %d %d %d %.1f %.1f %.1f %.1f %.1f\n", $1, $2, $3, $4, $5, ascent, both, plain,
            ascent / plain, both / plain;
    }'
