#!/usr/bin/env bash
# How far the search gets: of twenty instances each, how many have a best plan within the budget.
#
# A row for each family of sizes, number of colours that a slab may carry and number of orders: the
# sizes (`drill` for those of the generator of `drill`), the colours, the orders; how many of the
# twenty are optimal, and of these how many at loss 0, and how many at the first node; the mean loss
# of all twenty plans; and of the optimal ones the mean and the greatest number of nodes. Then the
# milliseconds of processor time of an optimal and of a feasible one, reading and printing included,
# on average.
#
# Instances have weights up to 22 and 20 colours, and the seeds 1 to 20. The words are options of
# `prove`, if any, such as `--nodes 100000`.
. "$(dirname "$0")/workspace.sh"

build_maker
product

echo "sizes colours orders optimal loss_0 one_node mean_loss nodes most_nodes ms_optimal" \
    "ms_feasible"
for sizes in "drill" "20 33 44" "30 45"; do
    for colours in 1 2; do
        for orders in 10 12 14 16 20 30 40; do
            for seed in $(seq 20); do
                # shellcheck disable=SC2086
                "$maker" "$seed" "$orders" ${sizes#drill} >"$scratch/instance"
                took=$({ TIMEFORMAT=%U; time "$product" prove --colours "$colours" "$@" \
                    <"$scratch/instance" >"$scratch/answer" || true; } 2>&1)
                awk -v took="$took" '
                    NR == 1 { kind = $1 }
                    $1 == "loss" { loss = $2 }
                    $1 == "log" { nodes = $3 }
                    END { print kind, loss, nodes + 0, took * 1000 }' "$scratch/answer"
            done | awk -v sizes="${sizes// /,}" -v colours="$colours" -v orders="$orders" '
                {
                    loss += $2;
                    if ($1 == "optimal") {
                        optimal++;
                        if ($2 == 0) none++;
                        if ($3 == 1) one++;
                        nodes += $3;
                        if ($3 > most) most = $3;
                        proved += $4;
                    } else {
                        stopped++;
                        spent += $4;
                    }
                }
                function mean(sum, count, digits) {
                    return count > 0 ? sprintf("%." digits "f", sum / count) : "-";
                }
                END {
                    print sizes, colours, orders, optimal + 0, none + 0, one + 0,
                        mean(loss, NR, 1), mean(nodes, optimal, 0), most + 0,
                        mean(proved, optimal, 2), mean(spent, stopped, 1);
                }'
        done
    done
done
