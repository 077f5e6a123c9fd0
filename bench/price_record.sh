#!/usr/bin/env bash
# Times the judging of one record of prices against a plain knapsack over all orders.
#
# Each row: the number of orders, the largest size, the most colours of a slab, the depth of the
# record's path, the groups of that path, the microseconds of judging the record, those of the plain
# knapsack, and their ratio. Both are timed in one run of one program, each as the least of many.
# The plain knapsack takes all orders once, colour by colour, with a table for all loads for each
# number of colours. A record is judged by one such knapsack over the later orders, for validity,
# and one for each different live group. Its time is that of a log which splits the paths above it
# less that of the same log without it. The instances are those of make_instance, with weights up to
# 22 and 20 colours on size 44, and weights up to 100 and 100 colours on size 1000.
. "$(dirname "$0")/workspace.sh"

build_maker
# An instance for each row.
{
    for _ in 1 2 3; do in_rank 1 111 --heaviest 22 --colours 20 44; done
    for _ in 1 2 3; do in_rank 1 1024 --heaviest 100 --colours 100 1000; done
} >"$scratch/instances"
build price_time
echo "orders size p depth groups record plain ratio"
"$program" <"$scratch/instances" | awk '{
    record = ($7 - $6) / 1000; plain = $8 / 1000;
    printf "%d %d %d %d %d %.1f %.1f %.2f\n", $1, $2, $3, $4, $5, record, plain, record / plain;
}'
