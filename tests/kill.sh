#!/bin/sh
# Kills runs over a growing file at moments of chance, twenty of them before they ended, and runs once more: then each line stands in
# the destination file, in order of its first time there, and the stores open. A line may stand there twice, and a kill may leave the
# beginning of one. It does so with a queue in memory, and with a disk-buffer.
#   tests/kill.sh [PROGRAM]
top=$(cd "$(dirname "$0")/.." && pwd)
program=${1:-$top/crates/sg_top/out/sg_top}
[ -x "$program" ] || { echo "kill: there is no program $program: \`./syslogr --prove\` makes it, and so does \`.ci/run\`"; exit 2; }
folder=$(mktemp -d) || exit 2
trap 'rm -rf "$folder"' EXIT
cd "$folder" || exit 2
all=20 lines=2000 width=16 most=200

grow() {
    seq $((round * lines + 1)) $(((round + 1) * lines)) | awk '{ printf "line %06d end.\n", $1 }' >>in
    round=$((round + 1))
}

# kills NAME OPTION: with an option of the destination
kills() {
    rm -f in out pos-* queue-*
    printf '@version: 4.2\nsource s { file("in" flags(no-parse)); };\ndestination d { file("out" template("$MSG\\n") %s); };\nlog { source(s); destination(d); flags(flow-control); };\n' "$2" >c
    : >in
    round=0 killed=0

    # How long a whole run takes.
    grow
    start=$(date +%s%N)
    "$program" run c --once >said 2>errors || { echo "kill: $1: the first run failed"; cat said errors; return 1; }
    took=$(($(date +%s%N) - start))

    while [ $killed -lt $all ]; do
        [ $round -lt $most ] || { echo "kill: $1: only $killed of $round runs were killed before they ended"; return 1; }
        grow
        "$program" run c --once >said 2>errors &
        process=$!
        sleep "$(od -An -N2 -tu2 /dev/urandom | awk -v took="$took" '{ print $1 / 65536 * took / 1000000000 }')"
        kill -9 $process 2>/dev/null
        wait $process 2>/dev/null
        [ $? = 137 ] && killed=$((killed + 1))
    done
    "$program" run c --once >said 2>errors
    status=$?
    [ $status = 0 ] || { echo "kill: $1: the last run ended with status $status"; cat said errors; return 1; }

    # A line that isn't one of the input may be the beginning of one, with a whole line behind it.
    awk -v width=$width '
        NR == FNR { want[NR] = $0; known[$0] = 1; n = NR; next }
        !($0 in known) { torn++; $0 = substr($0, length($0) - width + 1) }
        !($0 in known) { next }
        $0 in seen { again++; next }
        { seen[$0] = 1; k++; if (want[k] != $0) astray++ }
        END { printf "%d lines, %d again, %d torn, %d out of order\n", k, again, torn, astray; exit !(k == n && astray == 0) }
    ' in out >counts || { echo "kill: $1: lines are missing or out of order:"; cat counts; return 1; }
    echo "$1: $killed of $round runs killed: $(cat counts)"
}

kills 'a queue' '' && kills 'a disk-buffer' 'disk-buffer(reliable(yes) disk-buf-size(1048576))'
