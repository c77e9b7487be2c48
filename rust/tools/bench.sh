#!/usr/bin/env bash
# The benchmark, whose tables are in docs/BENCHMARKS.md: set S, set.mm without its garden paths and with them, and how time grows. With JIEHKAVON_ORACLE set to the line driver around
# the published Rust, built for x86-64 like the library, that is timed as well; more arguments go to the program. Where the processor is
# another one, everything runs under the same emulator, told to have no fast `rep stos`: it emulates that byte by byte, and clearing memory
# would be most of what is measured.
set -eu
database=/usr/share/metamath/databases/set.mm
if [ ! -e "$database" ]; then
    if [ "$(id -u)" -ne 0 ]; then
        echo "bench.sh: needs Debian's package metamath-databases; install it as root" >&2
        exit 2
    fi
    { apt-get update -qq && DEBIAN_FRONTEND=noninteractive apt-get install -y -qq --no-install-recommends metamath-databases; } >&2
fi
emulator=
if [ "$(uname -m)" != x86_64 ]; then
    emulator='qemu-x86_64 '
    export QEMU_CPU=max,-erms,-fsrm
fi
oracle=()
if [ -n "${JIEHKAVON_ORACLE:-}" ]; then
    oracle=(--oracle "published=$emulator$JIEHKAVON_ORACLE")
fi
here=$(CDPATH='' cd -- "$(dirname -- "${BASH_SOURCE[0]}")" && pwd)
exec "$here/../cargo" run --release -q -p tools --bin bench -- "${oracle[@]}" --database "$database" --paths "$here/paths" "$@"
