#!/usr/bin/env bash
# What more workers are worth: nodes a second of `solve` with one, two and four of them; and what a
# worker costs that has nothing to do.
#
# First a line with the number of processors and the load. Then a row for each instance: its orders,
# its sizes, its seed; the loss that is left; `same` where two and four workers leave as much; for
# each number of workers the nodes a second; and for two and for four the ratio of these to the
# nodes a second of one. All calls close as many nodes, as many as the budget has; an instance that
# is solved before has `-` in place of its numbers. A time is what the call takes beyond one with
# `--nodes 0`, which reads, moves and prints alone, and the least of three, made by turns.
#
# The search starts from the plan that moves leave, so that all calls search below one loss. Where
# one call finds a better plan than another it closes other paths, and their nodes are other nodes:
# with `--moves 0`, 40 orders and sizes 30 and 45, four workers came down to 58 where one was still
# at 88, and their nodes took twice the instructions. Rows that aren't `same` say little.
#
# The last row is of a search whose first node takes seconds, while all other workers have nothing
# to do: its seconds with one worker and with four on one processor, the ratio of both, and the
# seconds of processor time that four workers take on all processors, over their time.
#
# The words are the budgets for 40 and for 111 orders, by default 200000 and 50000.
. "$(dirname "$0")/workspace.sh"

budget_of_40=${1:-200000}
budget_of_111=${2:-50000}
build_maker
product

# The seconds that a call of `solve` with these words takes on the instance.
seconds() {
    local TIMEFORMAT=%R
    { time "$product" solve "$@" <"$scratch/instance" >"$scratch/answer" || true; } 2>&1
}

# One call with this budget and so many workers: the workers, the seconds, and the loss or - where
# the search came to its end before the budget was spent.
call() {
    local took
    took=$(seconds --nodes "$1" --workers "$2")
    if grep -q '^feasible$' "$scratch/answer"; then
        echo "$2 $took $(sed -n 's/^loss //p' "$scratch/answer")"
    else
        echo "$2 $took -"
    fi
}

echo "processors $(nproc), load $(cut -d' ' -f1 /proc/loadavg)"
echo "orders sizes seed loss plans one two four ratio_two ratio_four"
for orders in 40 111; do
    nodes=$((orders == 40 ? budget_of_40 : budget_of_111))
    for sizes in "20 33 44" "30 45"; do
        for seed in 1 2 3; do
            # shellcheck disable=SC2086
            "$maker" "$seed" "$orders" $sizes >"$scratch/instance"
            for _ in 1 2 3; do
                echo "0 $(seconds --nodes 0)"
                for workers in 1 2 4; do call "$nodes" "$workers"; done
            done | awk -v nodes="$nodes" -v row="$orders ${sizes// /,} $seed" '
                !($1 in least) || $2 < least[$1] { least[$1] = $2 }
                $1 > 0 && $3 == "-" { early = 1 }
                $1 == 1 { loss = $3 }
                $1 > 1 && $3 != loss { other = 1 }
                function per_second(workers) {
                    return least[workers] > least[0] ? nodes / (least[workers] - least[0]) : 0;
                }
                END {
                    if (early || per_second(1) == 0) { print row, "- - - - - - -"; exit; }
                    printf "%s %s %s %.0f %.0f %.0f %.2f %.2f\n", row, loss,
                        other ? "other" : "same", per_second(1), per_second(2), per_second(4),
                        per_second(2) / per_second(1), per_second(4) / per_second(1);
                }'
        done
    done
done

# Seconds from the call to its end, and of processor time, of a first node with so many workers, on
# the processors that are named.
first_node() {
    {
        TIMEFORMAT='%R %U %S'
        time taskset -c "$2" "$product" solve --colours 4 --moves 0 --nodes 1 --workers "$1" \
            <"$scratch/instance" >"$scratch/answer" || true
    } 2>&1
}

"$maker" 1 500 --heaviest 9000 20000 >"$scratch/instance"
echo "idle: one_on_one four_on_one ratio four_on_all_processor_seconds_a_second"
for _ in 1 2 3; do
    echo "one $(first_node 1 0)"
    echo "four $(first_node 4 0)"
    echo "all $(first_node 4 "0-$(($(nproc) - 1))")"
done | awk '
    !($1 in least) || $2 < least[$1] { least[$1] = $2; busy[$1] = ($3 + $4) / $2 }
    END {
        printf "idle: %.2f %.2f %.2f %.1f\n", least["one"], least["four"],
            least["four"] / least["one"], busy["all"];
    }'
