#!/usr/bin/env bash
# Holds another build of the library beside this one: before.sh FOLDER WHAT.., where FOLDER has the other libdesk_c.a. WHAT is
#     sets KIND SEED SETS STATEMENTS    trees, answers and lists of grown sets; KIND is rules, or gardens for sets with commands
#     stored                            the same of the stored vectors' sets
#     databases                         the same of every statement of Debian's databases, byte for byte
#     times                             builds and parses of set.mm, in turn
set -eu -o pipefail
if [ $# -lt 2 ] || [ ! -e "$1/libdesk_c.a" ]; then
    sed -n '2,6s/^# //p' "$0" >&2
    exit 2
fi
other=$(cd "$1" && pwd)
what=$2
shift 2
here=$(cd "$(dirname "$0")" && pwd)
beside=$here/../target/beside
there=$beside/x86_64-unknown-linux-gnu/release
folder=/usr/share/metamath/databases
JIEHKAVON_LIB_DIR=$other CARGO_TARGET_DIR=$beside "$here/../cargo" build --release -q -p tools --bin before --bin databases
this() { "$here/../cargo" run --release -q -p tools --bin "$@"; }

case $what in
sets) "$there/before" tell "$@" | this before -- hold "$@" ;;
stored) "$there/before" tell "$here"/vectors/*.txt | this before -- hold "$here"/vectors/*.txt ;;
databases)
    "$there/databases" --paths "$here/paths" --write "$beside/other.txt" "$folder"/*.mm 2>"$beside/progress"
    this databases -- --paths "$here/paths" --write "$beside/this.txt" "$folder"/*.mm 2>"$beside/progress"
    cmp "$beside/other.txt" "$beside/this.txt" && wc -l "$beside/this.txt"
    ;;
times) this before -- beside "$there/before" "$folder/set.mm" "$here/paths/set.mm.txt" ;;
*) exit 2 ;;
esac
