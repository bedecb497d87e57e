#!/bin/sh
# Tries the wrong bodies of bugs/NAME/ on a copy of the crates, whose check must refuse each:
#   bugs/try.sh [NAME..]
# With no NAME it tries all. It prints what `rt must-fail` says, and ends with its status.
set -eu
top=$(cd "$(dirname "$0")/.." && pwd)
if [ $# -eq 0 ]; then
    for folder in "$top"/bugs/*/; do
        set -- "$@" "$(basename "$folder")"
    done
fi
copy=$(mktemp -d)
trap 'rm -rf "$copy"' EXIT
trap 'exit 130' INT
trap 'exit 143' TERM
(cd "$top" && tar -cf - --exclude='crates/*/out' crates crates.txt HANDLES) | tar -xf - -C "$copy"
for name; do
    mkdir -p "$copy/crates/$name/must-fail"
    cp "$top/bugs/$name"/*.edit "$copy/crates/$name/must-fail"
done
cd "$copy"
rt must-fail "$@"
