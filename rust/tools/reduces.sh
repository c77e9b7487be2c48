#!/usr/bin/env bash
# Times an edge with 1 to 5 reduces under a long top tree, with another build of the library beside this one: reduces.sh FOLDER, where FOLDER has
# the other libdesk_c.a. This one's is where `rt lib` in crates/desk_c writes it. The tables are in docs/BENCHMARKS.md.
set -eu
if [ $# -ne 1 ] || [ ! -e "$1/libdesk_c.a" ]; then
    echo 'reduces.sh: FOLDER, which has another libdesk_c.a' >&2
    exit 2
fi
other=$(cd "$1" && pwd)
here=$(cd "$(dirname "$0")" && pwd)
beside=$here/../target/beside
JIEHKAVON_LIB_DIR=$other CARGO_TARGET_DIR=$beside "$here/../cargo" build --release -q -p tools --bin reduces
exec "$here/../cargo" run --release -q -p tools --bin reduces -- --beside "$beside/x86_64-unknown-linux-gnu/release/reduces"
