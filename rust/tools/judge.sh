#!/usr/bin/env bash
# Compares the library with the published Rust: rust/tools/judge.sh ORACLE SEED BATCHES [KIND SETS STATEMENTS SIDE ORDERED]
# ORACLE is the Rust's line driver. Each batch has its own seed, counted up from SEED, and SETS rule sets with STATEMENTS statements each. The
# counts of all batches are added up at the end; the exit code is 1 if anything was found that docs/DIFFERENCES.md doesn't list. KIND may be
# gardens, for sets with commands, and SIDE plain, which compares the papers in ordinary Rust. ORDERED is the driver with its maps in key order
# (ordered.sh makes it); it is asked where their order shows.
set -eu -o pipefail
if [ $# -lt 3 ]; then
    sed -n '2,6s/^# //p' "$0" >&2
    exit 2
fi
oracle=$(realpath "$1")
seed=$2
batches=$3
kind=${4:-rules}
sets=${5:-20000}
statements=${6:-12}
side=${7:-library}
ordered=()
if [ -n "${8:-}" ]; then
    ordered=("$(realpath "$8")")
fi
cd "$(dirname "$0")/.."
counts=$(mktemp -d)
trap 'rm -rf "$counts"' EXIT

judge() { ./cargo run --quiet --release -p tools --bin judge -- "$@"; }

batch() {
    judge make "$kind" "$1" "$sets" "$statements" | "$oracle" | judge hold "$kind" "$1" "$sets" "$statements" "$side" "$oracle" "${ordered[@]}"
}

for ((at = seed; at < seed + batches; at++)); do
    status=0
    batch "$at" >"$counts/$at" || status=$?
    if [ "$status" -gt 1 ]; then
        exit "$status"
    fi
    echo "seed $at: exit $status" >&2
done
cat "$counts"/* | judge sum
