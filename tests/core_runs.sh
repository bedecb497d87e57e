#!/bin/sh
# Longer series of the program test_core_runs, which aren't part of the gate.
#   tests/core_runs.sh [SEED [COUNT]]    rows with so many seeds from that one on, by default 1000 and 20, and with each
#                                        disk failing in each way; then runs in each of which one allocation is refused
# It says what differs, and ends with status 1 then. Where no C compiler is installed, no allocation is refused.
top=$(cd "$(dirname "$0")/.." && pwd)
crate=$top/crates/test_core_runs
program=$crate/out/test_core_runs
seed=${1:-1000}
count=${2:-20}
[ -x "$program" ] || (cd "$crate" && rt run <stdin >/dev/null) || exit 2
folder=$(mktemp -d) || exit 2
trap 'rm -rf "$folder"' EXIT
cd "$folder" || exit 2

# rows: prints the rows of a series
rows() {
    echo "runs $seed $count 400 40"
    k=0
    while [ $k -lt "$count" ]; do
        echo "moments $((seed + k)) 100 20"
        k=$((k + 1))
    done
    for store in 0 1 2 3 4; do
        for tear in - o n 1 0 on no 1o 0n; do
            echo "stops $seed $store 60 100 $tear 20"
            echo "fails $seed $store 60 100 $tear 20"
        done
    done
    grep '^older' "$crate/stdin" | sed "s/^older [0-9]*/older $seed/"
}

status=0
rows >rows
"$program" <rows >said || status=1
[ "$(wc -l <said)" -eq "$(wc -l <rows)" ] || status=1
paste -d: rows said | grep -v 'runs, .* refused, .* openings' | grep . && status=1
grep DIFFERS said && status=1
echo "$(wc -l <said) rows, $(grep -c DIFFERS said) differ"

cc -O2 -shared -fPIC -o starve.so "$top/tests/starve.c" -ldl 2>/dev/null || exit $status
n=1
refused=0
failed=0
while [ $n -le 20000 ]; do
    echo "runs $((seed + n)) 1 60 20" | STARVE=$n LD_PRELOAD=./starve.so "$program" >said 2>told
    grep -q DIFFERS said && echo "allocation $n: $(cat said)" && status=1
    grep -q starved told || break
    refused=$((refused + 1))
    grep -q ', [1-9][0-9]* with a store' said && failed=$((failed + 1))
    n=$((n + 3))
done
echo "$refused runs with an allocation refused, in $failed of them a store failed"
exit $status
