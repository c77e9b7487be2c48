#!/usr/bin/env bash
# Every statement of every database in Debian's package metamath-databases, through the library; docs/DATABASES.md says what comes out. With
# JIEHKAVON_ORACLE set to the line driver around the published Rust, each answer is held against it as well. With --packages each database
# goes through a package instead, and has to come out as it went in. The folder paths has the commands of databases that need some.
set -eu
here=$(CDPATH='' cd -- "$(dirname -- "${BASH_SOURCE[0]}")" && pwd)
# shellcheck source=../../c/machine.sh
. "$here/../../c/machine.sh"

# the machine's own, or unpacked beside it
folder=/usr/share/metamath/databases
if [ ! -d "$folder" ]; then
    unpacked=$here/../target/databases
    [ -d "$unpacked" ] || beside "$unpacked" metamath-databases
    folder=$unpacked$folder
fi
if [ "${1:-}" = --packages ]; then
    exec "$(dirname "$0")/../cargo" run --release -q -p tools --bin packages -- "$folder"/*.mm
fi
oracle=()
if [ -n "${JIEHKAVON_ORACLE:-}" ]; then
    oracle=(--oracle "$JIEHKAVON_ORACLE")
fi
exec "$here/../cargo" run --release -q -p tools --bin databases -- "${oracle[@]}" --paths "$here/paths" "$folder"/*.mm
