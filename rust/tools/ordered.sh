#!/usr/bin/env bash
# The published Rust with its maps in key order: ordered.sh DRIVER PUBLISHED OUT
# DRIVER is the source folder of the line driver, PUBLISHED the folder `src` of the crate, as the driver's paths find it. Both are copied below OUT;
# there a node's edges are kept in a `BTreeMap`, constants before variables, and symbols are declared in the order of their numbers, so that
# a map is gone through in the order of kind and symbol. Nothing else is touched. The program is then OUT/bin/ordered.
set -eu
if [ $# -ne 3 ]; then
    sed -n '2s/^# //p' "$0" >&2
    exit 2
fi
driver=$(realpath "$1")
published=$(realpath "$2")
mkdir -p "$3"
out=$(realpath "$3")
if [ -e "$out/driver" ]; then
    echo "ordered.sh: $out has a driver already" >&2
    exit 2
fi

# the published files keep their place as seen from the driver
place=$(realpath --relative-to="$driver" "$published")
case $place in
../*) place=${place#../} ;;
*)
    echo "ordered.sh: PUBLISHED has to lie beside DRIVER or below its neighbours" >&2
    exit 2
    ;;
esac
mkdir -p "$out/$place"
cp -r "$driver" "$out/driver"
cp -r "$published/." "$out/$place/"

# an edit that changes another number of lines than it should is an error
edit() { # LINES FILE EXPRESSION
    local changed
    cp "$2" "$out/before"
    sed -i "$3" "$2"
    changed=$(diff "$out/before" "$2" | grep -c '^>') || true
    if [ "$changed" -ne "$1" ]; then
        echo "ordered.sh: $changed lines of $2 changed, and not $1" >&2
        exit 1
    fi
}

map='(SymbolType, Atom), NextNode'
edit 3 "$out/$place/grammar.rs" "s/HashMap<$map>/std::collections::BTreeMap<$map>/"
edit 1 "$out/$place/grammar.rs" 's/map: HashMap::default()/map: std::collections::BTreeMap::default()/'
edit 1 "$out/$place/grammar.rs" 's/^use std::collections::hash_map::Entry;/use std::collections::btree_map::Entry;/'
# the kinds in the order of their numbers
edit 3 "$out/$place/statement.rs" '/^pub enum SymbolType {/i #[derive(PartialOrd, Ord)]
/^pub enum SymbolType {/,/^}/{s/Variable/Other/;s/Constant/Variable/;s/Other/Constant/}'
edit 1 "$out/driver/src/compose.rs" 's/^    for &t in tokens {$/    all.order.sort();\n&/'
rm "$out/before"

cd "$out/driver"
CARGO_TARGET_DIR=$out/target cargo build --release --quiet
mkdir -p "$out/bin"
cp "$out/target/release/oracle" "$out/bin/ordered"
