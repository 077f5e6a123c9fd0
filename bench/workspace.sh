# What the scripts of bench/ share. Each begins with
#
#     . "$(dirname "$0")/workspace.sh"
#
# A measuring program is no part of the product, so it stands in programs/NAME/main.rattle, where
# the gate doesn't look. `build NAME` lays it out beside copies of the crates that it stands on, in
# one workspace outside of the repository, and proves and builds it there. The workspace stays, so a
# second run proves only what has changed; MILL_SLAB_BENCH names another place for it.
set -euo pipefail

root=$(cd "$(dirname "${BASH_SOURCE[0]}")/.." && pwd -P)
checksum=$(cksum <<<"$root" | cut -d' ' -f1)
workspace=${MILL_SLAB_BENCH:-${TMPDIR:-/tmp}/mill_slab-bench-$(id -u)-$checksum}
scratch=$(mktemp -d)
trap 'rm -rf "$scratch"' EXIT

# The crates of the repository that a crate stands on, and theirs; those of the kit are left out.
crates_under() {
    local crate
    for crate in $(sed -n "s/^$1://p" "$root/crates.txt" "$root/bench/programs.txt"); do
        if [ -d "$root/crates/$crate" ]; then
            crates_under "$crate"
            echo "$crate"
        fi
    done
}

# Copies a crate's sources, with their times, so that what was proved of them still counts.
copy_sources() {
    local part
    mkdir -p "$2"
    for part in src specs proofs; do
        rm -rf "$2/$part"
        [ ! -d "$1/$part" ] || cp -rp "$1/$part" "$2/"
    done
}

# Proves and builds a measuring program; sets `program` to where it is.
build() {
    local name=$1 needed crate source target folder=$workspace/crates/$1
    needed=$(crates_under "$name" | sort -u)
    mkdir -p "$workspace/crates"
    cp "$root/HANDLES" "$workspace/"
    for crate in $needed; do
        copy_sources "$root/crates/$crate" "$workspace/crates/$crate"
        grep "^$crate:" "$root/crates.txt"
    done >"$workspace/crates.txt"
    grep "^$name:" "$root/bench/programs.txt" >>"$workspace/crates.txt"
    rm -rf "$folder/src" "$folder/specs" "$folder/proofs"
    (cd "$root/bench/programs/$name" && find . -type f) | while IFS= read -r source; do
        case $source in
        *.rattle) target=src/${source%.rattle}.rt ;;
        *.antt_) target=${source%_} ;;
        *) continue ;;
        esac
        mkdir -p "$(dirname "$folder/$target")"
        cp -p "$root/bench/programs/$name/$source" "$folder/$target"
    done
    echo "proving and building $name in $workspace" >&2
    program=$folder/out/$name
    rm -f "$program"
    # The run has no input, so its status counts for nothing.
    (cd "$folder" && rt run) </dev/null >"$scratch/build.log" 2>&1 || true
    [ -x "$program" ] || { tail -20 "$scratch/build.log" >&2; exit 1; }
}

# Sets `product` to the program of this repository, which is built where need be.
product() {
    "$root/mill_slab" >/dev/null </dev/null || true
    product=$root/crates/mill_slab/out/mill_slab
    [ -x "$product" ]
}

# least_time TIMES FILE COMMAND..: the least of so many times of a command on a file, in seconds.
least_time() {
    local times=$1 file=$2 i
    shift 2
    for ((i = 0; i < times; i++)); do
        { TIMEFORMAT=%R; time "$@" <"$file" >/dev/null || true; } 2>&1
    done | sort -n | head -1
}

# ratio A B: A / B with one decimal.
ratio() { awk -v a="$1" -v b="$2" 'BEGIN { if (b > 0) printf "%.1f", a / b; else printf "-" }'; }

# Builds make_instance; sets `maker` to where it is.
build_maker() {
    build make_instance
    maker=$program
}

# Prints the instance that make_instance makes of these words, with its orders in rank: by falling
# weight, then by rising colour.
in_rank() {
    "$maker" "$@" >"$scratch/drawn"
    head -3 "$scratch/drawn"
    tail -n +4 "$scratch/drawn" | sort -k1,1nr -k2,2n
}

# on_four_sizes ORDERS COLOURS SIZE: an instance with its orders in rank, on four sizes up to this
# one, with weights up to half of it.
on_four_sizes() {
    in_rank 1 "$1" --heaviest $(($3 / 2)) --colours "$2" \
        $(($3 / 4)) $(($3 / 2)) $(($3 - $3 / 4)) "$3"
}
