#!/usr/bin/env bash
# A nightly run: 50,000 statements of set.mm with its garden paths by the library's batch and by the ordinary Rust program, whose tables are in
# docs/BENCHMARKS.md; then the instructions of either, counted by valgrind, which are the same every time. With JIEHKAVON_ORACLE set to the line
# driver around the published Rust, that is timed as well. More arguments go to the program.
set -eu
here=$(CDPATH='' cd -- "$(dirname -- "${BASH_SOURCE[0]}")" && pwd)
# shellcheck source=../../c/machine.sh
. "$here/../../c/machine.sh"
database=/usr/share/metamath/databases/set.mm
[ -e "$database" ] || debian metamath-databases
emulator=
if ! native; then
    emulator='qemu-x86_64 '
    # it emulates `rep stos` byte by byte
    export QEMU_CPU=max,-erms,-fsrm
fi
oracle=()
if [ -n "${JIEHKAVON_ORACLE:-}" ]; then
    oracle=(--oracle "published=$emulator$JIEHKAVON_ORACLE")
fi
folder=$(mktemp -d)
trap 'rm -rf -- "$folder"' EXIT

nightly() {
    "$here/../cargo" run --release -q -p tools --bin nightly -- "$@"
}
nightly --database "$database" --paths "$here/paths" --write "$folder"
nightly --words "$folder" "${oracle[@]}" "$@"

if ! native; then
    echo
    echo "Instructions are counted on x86-64 only."
    exit
fi
command -v valgrind >/dev/null || debian valgrind libc6-dbg

# The instructions of one side's night.
instructions() { # SIDE
    valgrind --tool=callgrind --callgrind-out-file="$folder/$1" --toggle-collect="*${1}_night*" \
        "$here/../target/x86_64-unknown-linux-gnu/release/nightly" --words "$folder" --count "$1" 2>&1 |
        sed -n 's/.*Collected : //p'
}
library=$(instructions library)
ordinary=$(instructions ordinary)
printf '\nInstructions of a night: library %s, ordinary %s, times %s\n' "$library" "$ordinary" \
    "$(awk "BEGIN { printf \"%.2f\", $library / $ordinary }")"
