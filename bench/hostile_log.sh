#!/usr/bin/env bash
# Times `verify` on logs that a stranger may send to keep it busy; all but the last are accepted.
#
# Each row: the case, the most colours of a slab, the records of prices, the kilobytes of instance
# and answer, the seconds of `verify` (the least of three runs), and what it says. Each weight is a
# size, beside 20,000, so that a plan of single orders loses nothing and all prices may be 0.
#
#   chain N   each order in a new group down to depth N, and a record of prices for each other
#             child: 100 orders of weight 210 and of different colours
#   light N   the same with weight 1
#   weighty N the same with weights up to 2,500, all different: eight of them fill a slab
#   heavy     one record behind 512 heavy orders in groups of their own, which leave little room:
#             512 light orders of other colours are to come
#   own       one record behind 512 orders of more than half a slab, each with a colour of its own
#             that comes again: no two groups share a table
#   pairs     the same behind 341 orders, with two orders to come for each colour
#   near N    behind N orders that leave nearly a whole slab, each with a colour of its own that
#             comes again: a table costs twice as much as under own, but each sibling on the way
#             needs a record, too
#   crossed   one record behind 153 groups of two orders and two colours each, all pairs of 18
#             colours that come again: the tables of two groups differ by one colour at least. The
#             records of the other paths are left out, so the log is refused after this one
. "$(dirname "$0")/workspace.sh"

product
cd "$scratch"

# The instance and the answer of a case: chain, light, weighty and near take a depth.
write_case() {
    awk -v name="$1" -v depth="${2:-0}" '
    function order(w, colour) { weight[++n] = w; orders = orders w " " colour "\n"; used[w] = 1 }
    function put(line) { count++; body = body line "\n" }
    function zeros(from,  i, text) { for (i = from; i < n; i++) text = text " 0"; return text }
    BEGIN {
        weight_of["chain"] = 210; weight_of["light"] = 1;
        if (name in weight_of)
            for (i = 1; i <= 100; i++) order(weight_of[name], i);
        else if (name == "weighty")
            for (i = 1; i <= 100; i++) order(2501 - i, i);
        else if (name == "near") {
            for (i = 1; i <= depth; i++) order(1000 - i, i);
            for (i = 1; i <= 1024 - depth; i++) order(40, i);
        } else if (name == "pairs") {
            depth = 341;
            for (i = 1; i <= 341; i++) order(10513 - i, i);
            for (w = 41; w >= 40; w--) for (i = 1; i <= 341; i++) order(w, i);
        } else if (name == "crossed") {
            depth = 306;
            for (a = 1; a <= 18; a++)
                for (b = a + 1; b <= 18; b++) { order(6972 - n, a); order(6972 - n, b) }
            for (i = 0; i < 718; i++) order(40, i % 18 + 1);
        } else {
            depth = 512;
            for (i = 1; i <= 512; i++) order((name == "heavy" ? 19001 : 10513) - i, i);
            for (i = 1; i <= 512; i++) {
                if (name == "heavy") order(3, 600 + i); else order(40, i);
            }
        }
        path = "";
        for (d = 0; d < depth; d++) {
            put("S " d path);
            if (weight[1] < 10000)
                for (g = 1; g <= d && name != "crossed"; g++) {
                    put("P " d + 1 path " " g zeros(d + 1)); priced++
                }
            path = path " " (name == "crossed" ? int(d / 2) : d) + 1;
        }
        put("P " depth path zeros(depth)); priced++;
        used[20000] = 1;
        for (w = 1; w <= 20000; w++) if (w in used) { sizes++; list = list " " w }
        printf "%d%s\n0\n%d\n%s", sizes, list, n, orders > "input";
        plan = "plan"; for (i = 1; i <= n; i++) plan = plan " " i;
        printf "optimal\nloss 0\n%s\nlog 1 %d\n%send\n", plan, count, body > "input";
        print priced > "priced";
    }'
}

echo "case colours priced KB seconds verdict"
row() {
    local colours=$1
    shift
    write_case "$@"
    echo "$* $colours $(cat priced) $(($(wc -c <input) / 1000))" \
        "$(least_time 3 input "$product" verify --colours "$colours")" \
        "$("$product" verify --colours "$colours" <input | cut -d' ' -f1-2)"
}
row 8 chain 14
row 8 chain 38
row 8 light 38
row 8 weighty 14
row 2 heavy
row 2 own
row 8 own
row 8 pairs
row 8 near 4
row 8 crossed
