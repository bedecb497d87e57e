#!/bin/sh
# Runs the launcher, and what the gate does for it, over three crates in a folder of their own, with a stand-in for `rt`: what is
# built when, what is said, and what happens where something fails, is killed, or is done twice at a time.
top=$(cd "$(dirname "$0")/.." && pwd)
folder=$(cd "$(mktemp -d)" && pwd -P) || exit 2
trap 'rm -rf "$folder"' EXIT
cd "$folder" || exit 2
passed=0 failed=0
checkout="$folder/check out"
tools=$folder/tools
TMPDIR=$folder/rooms
export TMPDIR folder
unset RT_JOBS GLIBC_TUNABLES

# Everything that is installed but the real `rt`; waits are short.
mkdir "$tools" rooms
ln -sf /bin/* /usr/bin/* "$tools"
rm -f "$tools/rt" "$tools/nproc" "$tools/df" "$tools/sleep"
PATH=$tools
printf '#!/bin/sh\nexec /bin/sleep 0.1\n' >"$tools/sleep"
printf '#!/bin/sh\ncat "$folder/processors"\n' >"$tools/nproc"
cat >"$tools/df" <<'DF'
#!/bin/sh
[ "$1" = -Pk ] || exit 2
case $2 in "$folder/kit"*) disk=$folder/disk.kit ;; *) disk=$folder/disk ;; esac
printf 'Filesystem 1024-blocks Used Available Capacity Mounted on\nx 1 1 %s000 1%% /\n' "$(cat "$disk")"
DF
cat >"$tools/rt" <<'RT'
#!/bin/sh
# A program is the text of sg_low's and sg_top's sources behind how it was made. $DOES says what goes wrong.
program() {
    printf '#!/bin/sh\nmade="%s"\n' "$1"
    cat "$2/sg_low/src/lib.rt" "$2/sg_top/src/main.rt"
}

# waits until the test lets it go on, and for ten seconds at most
waits() {
    echo $$ >"$folder/waits"
    for _ in $(seq 100); do [ -e "$folder/go" ] && return; sleep 1; done
}

try() {
    [ -f src/main.rt ] || exit 2
    case $DOES in
    'try fails') echo 'src/main.rt:1:1: error: no such name' && exit 2 ;;
    'try is killed') kill -9 $$ ;;
    'try waits') waits ;;
    esac
    made=$(mktemp -d)
    while [ "$1" != -- ]; do
        [ "$1" != --data ] || cp "${2#*=}" "$made/${2%%=*}"
        shift
    done
    shift
    program 'first look' .. >"$made/program"
    chmod +x "$made/program"
    cd "$made" || exit
    trap 'kill $running; rm -rf "$made"; exit 143' TERM
    ./program "$@" &
    running=$!
    wait $running
}

ci() {
    find . -type f | LC_ALL=C sort >"$folder/copied"
    echo "${RT_JOBS-unset}" >"$folder/jobs"
    for crate in $(sed 's/:.*//' crates.txt); do
        kept=$folder/kept/$crate-$(cat "crates/$crate"/*/* | cksum | tr ' ' -)
        if [ -e "$kept" ]; then
            echo "rt: $crate is kept: an earlier run on this machine proved the same files over the same libraries"
            continue
        fi
        [ "$DOES" != "ci waits at $crate" ] || waits
        printf '== %s\nrt: chose one at a time\nrt: %s proved\n' "$crate" "$crate"
        : >"$kept"
    done
    printf '== sg_top: its tests\nrt: sg_top: its tests are proved\nrt: note: sg_none is not kept and is proved\n'
    mkdir -p crates/sg_top/out
    [ "$DOES" = 'ci makes no program' ] || program proved crates >crates/sg_top/out/sg_top
    chmod +x crates/sg_top/out/* 2>/dev/null
    case $DOES in
    'ci fails') echo '2 passed, 1 failed' && exit 1 ;;
    'ci fails, and ends well') echo '2 passed, 1 failed' ;;
    'ci passes nothing') echo '0 passed, 0 failed' ;;
    'ci passes some crates') echo '3 passed, 0 failed (sg_top and the crates below alone: not the gate)' ;;
    'ci ends badly') echo '3 passed, 0 failed' && exit 1 ;;
    'ci stops') ;;
    'ci is killed') kill -9 $$ ;;
    "ci's check is killed") printf 'the check was killed, most likely for memory: once more\n2 passed, 1 failed\n' && exit 1 ;;
    *) echo '3 passed, 0 failed' ;;
    esac
}

echo "$1" >>"$folder/calls"
case $1 in
doc) echo "$folder/kit/rattle/START-HERE.md" ;;
try) try "$@" ;;
ci) ci ;;
esac
RT
chmod +x "$tools/sleep" "$tools/nproc" "$tools/df" "$tools/rt"

# crate NAME FILE TEXT
crate() {
    mkdir -p "crates/$1/src" "crates/$1/specs" "crates/$1/proofs"
    printf '%s\n' "$3" >"crates/$1/src/$2"
    echo "spec of $1" >"crates/$1/specs/Lib.antt"
    echo "proof of $1" >"crates/$1/proofs/Lib.antt"
}

# A checkout in which nothing is built, on a machine that has enough of everything.
fresh() {
    cd "$folder" || exit 2
    rm -rf "$checkout" rooms kept kit cgroup calls waits go elsewhere
    mkdir -p "$checkout/.ci" "$checkout/tests" rooms kept kit/rattle cgroup elsewhere
    echo 'MemAvailable: 64000000 kB' >meminfo
    echo 4 >processors
    echo 20000 >disk
    echo 20000 >disk.kit
    cp "$top/syslogr" "$checkout/"
    cp "$top/.ci/run" "$checkout/.ci/"
    sed "s|/proc/meminfo|$folder/meminfo|; s|/sys/fs/cgroup|$folder/cgroup|" "$top/.ci/building.sh" >"$checkout/.ci/building.sh"
    grep -q "$folder/meminfo" "$checkout/.ci/building.sh" || exit 2
    cd "$checkout" || exit 2
    for script in launcher real_files devices kill; do printf '#!/bin/sh\necho %s\n' $script >tests/$script.sh; done
    chmod +x tests/*
    echo 'Handles allowed: none.' >HANDLES
    printf '# the crates\nsg_low:\nsg_mid: sg_low regex # above\n\nsg_side: sg_low\nsg_top: sg_mid\ntest_top: sg_top\n' >crates.txt
    crate sg_low lib.rt 'version=1'
    crate sg_mid lib.rt 'nothing'
    crate sg_side lib.rt 'nothing'
    crate test_top lib.rt 'nothing'
    crate sg_top main.rt '
        case $1 in
        run) echo moved >moved; exec /bin/sleep 60 ;;
        wait) trap "exit 42" TERM; echo $$ >running; for _ in $(seq 100); do sleep 1; done ;;
        tunables) echo "$GLIBC_TUNABLES" ;;
        *) echo "$made $version in ${PWD##*/}"; for word; do printf "<%s>\n" "$word"; done ;;
        esac
        exit ${STATUS-0}'
    mkdir crates/sg_top/must-fail crates/sg_low/out
    echo edit >crates/sg_top/must-fail/one.edit
    echo old >crates/sg_low/out/old
    echo words >crates/sg_top/args
    cd "$folder/elsewhere" || exit 2
    DOES='' STATUS=0
    export DOES STATUS
}

well() {
    passed=$((passed + 1))
}

bad() {
    failed=$((failed + 1))
    echo "$*"
}

# is NAME WANTED GOT
is() {
    if [ "$2" = "$3" ]; then well; else bad "$1: '$3', wanted '$2'"; fi
}

# compare NAME STATUS SAID TOLD: what was said and told by a run that ended with $got. In TOLD folders and sums have names.
compare() {
    sed "s|$checkout|CHECKOUT|g; s|$folder/rooms/syslogr-prove\.[A-Za-z0-9]*|ROOM|g; s|$folder|FOLDER|g; s|[0-9a-f]\{64\}|SUM|" \
        "$folder/told" >"$folder/told.got"
    printf "$3" >"$folder/said.wanted"
    printf "$4" >"$folder/told.wanted"
    if [ "$got" = "$2" ] && cmp -s "$folder/said" "$folder/said.wanted" && cmp -s "$folder/told.got" "$folder/told.wanted"; then
        well
    else
        bad "$1: status $got, wanted $2; said and told:"
        cat "$folder/said" "$folder/told.got"
    fi
}

# expect NAME STATUS SAID TOLD WORD..: SAID and TOLD are printf formats
expect() {
    name=$1 status=$2 said=$3 told=$4
    shift 4
    timeout 60 "$checkout/syslogr" "$@" >"$folder/said" 2>"$folder/told"
    got=$?
    compare "$name" "$status" "$said" "$told"
}

# start NAME WORD..: in the background, until the stand-in or the program waits
start() {
    name=$1
    shift
    rm -f "$folder/waits" "$folder/go"
    "$checkout/syslogr" "$@" >"$folder/said" 2>"$folder/told" &
    started=$!
    await "$name" "$folder/waits"
}

# await NAME FILE
await() {
    for _ in $(seq 100); do [ -s "$2" ] && return; sleep 1; done
    bad "$1: nothing in $2 after ten seconds"
}

# ended NAME PROCESS STATUS: it ended with this status, what it started has ended, and no room is left
ended() {
    wait "$2"
    is "$1" "$3" $?
    kill -0 "$(cat "$folder/waits")" 2>/dev/null && bad "$1: its rt goes on"
    is "$1: rooms left" '' "$(ls "$folder/rooms")"
}

calls() {
    grep -c "^$1$" "$folder/calls"
}

# text PROGRAM: what a run without words says of it
text() {
    echo "$1 in elsewhere"
}

building='syslogr: building a program for a first look, which takes about two minutes\n'
unproved='syslogr: not proved: for a first look; ./syslogr --prove makes the program that is proved\n'
proving='syslogr: proving 3 crates, 4 at a time, with the log ROOM/log; what passes is kept, so that ./syslogr --prove goes on after a stop\n'
crates='syslogr: crate 1 of 3: sg_low\nsyslogr: crate 2 of 3: sg_mid\nsyslogr: crate 3 of 3: sg_top\nsyslogr: the tests of sg_top\n'
proved='syslogr: proved: SUM  crates/sg_top/out/sg_top\n'
changed='syslogr: its sources changed since it was proved, and the old one runs; ./syslogr --prove makes the new one\n'

# A first look.
fresh
expect 'a first look is built' 0 "$(text 'first look 1')\n<walk>\n<a b>\n<>\n<*>\n<\\\\n>\n<--prove>\n" "$building$unproved" walk 'a b' '' '*' '\n' --prove
expect 'and runs a second time' 0 "$(text 'first look 1')\n" "$unproved"
STATUS=11
expect 'its status is passed on' 11 "$(text 'first look 1')\n" "$unproved"
STATUS=0
expect 'the setting of glibc' 0 'glibc.malloc.tcache_count=1000\n' "$unproved" tunables
GLIBC_TUNABLES=
export GLIBC_TUNABLES
expect 'an own setting of glibc' 0 '\n' "$unproved" tunables
unset GLIBC_TUNABLES
is 'it was built once' 1 "$(calls try)"
is 'rooms left of a first look' '' "$(ls "$folder/rooms")"

# What builds it anew.
while read -r change; do
    (cd "$checkout" && eval "$change")
    version=$(sed 's/version=//' "$checkout/crates/sg_low/src/lib.rt")
    expect "built anew: $change" 0 "$(text "first look $version")\n" "$building$unproved"
done <<'CHANGES'
echo version=2 >crates/sg_low/src/lib.rt
echo version=3 >crates/sg_low/src/lib.rt; touch -t 200001010000 crates/sg_low/src/lib.rt crates/sg_low/src crates/sg_low
echo more >crates/sg_mid/proofs/More.antt
mv crates/sg_mid/proofs/More.antt crates/sg_mid/proofs/Other.antt
rm crates/sg_mid/proofs/Other.antt
echo other >crates/sg_top/specs/Lib.antt
echo 'Handles allowed: Threads.' >HANDLES
sed -i 's/^sg_mid: .*/sg_mid: sg_low sg_side/' crates.txt
echo other >crates/sg_side/src/lib.rt
echo damaged >>crates/sg_top/out/first_look
CHANGES
while read -r change; do
    (cd "$checkout" && eval "$change")
    expect "not built anew: $change" 0 "$(text 'first look 3')\n" "$unproved"
done <<'CHANGES'
find . -type f -exec touch {} +
echo other >crates/test_top/src/lib.rt
echo 'bench_top: sg_top sg_side' >>crates.txt; echo '# end' >>crates.txt
echo other >crates/sg_top/must-fail/one.edit; echo other >crates/sg_top/args
CHANGES

# The program takes the launcher's place.
rm -f running
"$checkout/syslogr" wait 2>/dev/null &
process=$!
await 'a program that waits' running
is 'the process is the program' "$process" "$(cat running)"
kill -TERM "$process"
wait "$process"
is 'a signal reaches the program' 42 $?

# What keeps a first look from being built.
fresh
no_rt='syslogr: rt, the command of the Rattle toolchain, is not on the PATH: put its folder there (README.md says which version)\n'
mv "$tools/rt" "$folder/rt"
expect 'no rt' 127 '' "$no_rt"
expect 'no rt to prove' 127 '' "$no_rt" --prove
mv "$folder/rt" "$tools/rt"
tried='CHECKOUT/crates/sg_top/out/first_look.log'
DOES='try fails'
expect 'rt try fails' 127 '' "${building}syslogr: rt try ended with status 2; the end of its log, $tried:\nsrc/main.rt:1:1: error: no such name\nsyslogr: once that is mended, run this again\n"
DOES='try is killed'
expect 'rt try is killed' 127 '' "${building}syslogr: rt try was killed, most likely for want of memory; the end of its log, $tried:\nsyslogr: once that is mended, run this again\n"
DOES=
small='end what else takes memory, or use a machine that has more'
echo 'MemAvailable: 1000000 kB' >"$folder/meminfo"
expect 'little memory' 127 '' "syslogr: building a program for a first look takes 5000 MB of memory, and 976 MB are available: $small\n"
echo 'MemAvailable: 64000000 kB' >"$folder/meminfo"
echo 3000000000 >"$folder/cgroup/memory.max"
printf 'anon 2500000000\nfile 400000000\n' >"$folder/cgroup/memory.stat"
expect 'little memory in a control group' 127 '' "syslogr: building a program for a first look takes 5000 MB of memory, and 476 MB are available: $small\n"
rm "$folder/cgroup/memory.max"
echo 500 >"$folder/disk"
expect 'a small disk' 127 '' 'syslogr: building a program for a first look takes 1000 MB of disk, and 488 MB are left for FOLDER/rooms: remove there what is done with\n'
echo 20000 >"$folder/disk"
DOES='try waits'
start 'a first look is stopped'
kill -TERM "$started"
ended 'a first look is stopped' "$started" 143
DOES=
expect 'and then built' 0 "$(text 'first look 1')\n" "$building$unproved"

# A proof.
expect 'a proof' 0 '' "$proving$crates$proved" --prove
is 'its sum' "syslogr: proved: $(cd "$checkout" && sha256sum crates/sg_top/out/sg_top)" "$(tail -n 1 "$folder/told")"
is 'rooms left of a proof' '' "$(ls "$folder/rooms")"
for crate in sg_low/src/lib.rt sg_mid/src/lib.rt sg_top/src/main.rt sg_top/args; do echo "./crates/$crate"; done >"$folder/wanted"
for crate in sg_low sg_mid sg_top; do echo "./crates/$crate/proofs/Lib.antt"; echo "./crates/$crate/specs/Lib.antt"; done >>"$folder/wanted"
is 'what is proved' "$({ cat "$folder/wanted"; echo ./HANDLES; echo ./crates.txt; } | LC_ALL=C sort)" "$(cat "$folder/copied")"
expect 'the program is proved' 0 "$(text 'proved 1')\n<walk>\n" '' walk
echo other >"$checkout/crates/test_top/src/lib.rt"
expect 'a crate that is none of the program' 0 "$(text 'proved 1')\n" ''
find "$checkout" -type f -exec touch {} +
expect 'other times' 0 "$(text 'proved 1')\n" ''
echo 'version=2' >"$checkout/crates/sg_low/src/lib.rt"
expect 'changed sources, and the old program' 0 "$(text 'proved 1')\n" "$changed"
mv "$tools/rt" "$folder/rt"
expect 'changed sources, and no rt' 0 "$(text 'proved 1')\n" "$changed"
mv "$folder/rt" "$tools/rt"

# What isn't proved doesn't take the old program's place.
kept=', as it was proved before'
again="syslogr: crate 1 of 3: sg_low$kept\nsyslogr: crate 2 of 3: sg_mid$kept\nsyslogr: crate 3 of 3: sg_top$kept\nsyslogr: the tests of sg_top\n"
log='CHECKOUT/crates/sg_top/out/prove.log'
goes_on='syslogr: what passed is kept: once that is mended, ./syslogr --prove goes on with the rest\n'
# refused DOES HOW LINE..: why it is refused, and the last lines of the log and what is said behind them
refused() {
    DOES=$1
    timeout 60 "$checkout/syslogr" --prove >"$folder/said" 2>told
    is "$1" 127 $?
    sed "s|$checkout|CHECKOUT|" told >told.got
    is "$1: why" "syslogr: rt ci $2; the end of its log, $log:" "$(grep '; the end of' told.got)"
    is "$1: the end" "$(printf '%b' "$3")" "$(sed '1,/^rt: note/d' told.got)"
    is "$1: rooms left" '' "$(ls "$folder/rooms")"
    DOES=
    expect "$1: the old program" 0 "$(text 'proved 1')\n" "$changed"
}
not='did not pass: it ended with status'
refused 'ci fails' "$not 1" "2 passed, 1 failed\n$goes_on"
refused 'ci fails, and ends well' "$not 0" "2 passed, 1 failed\n$goes_on"
refused 'ci passes nothing' "$not 0" "0 passed, 0 failed\n$goes_on"
refused 'ci passes some crates' "$not 0" "3 passed, 0 failed (sg_top and the crates below alone: not the gate)\n$goes_on"
refused 'ci ends badly' "$not 1" "3 passed, 0 failed\n$goes_on"
refused 'ci stops' "$not 0" "$goes_on"
refused 'ci is killed' 'did not pass: it was killed, most likely for want of memory' "$goes_on"
refused "ci's check is killed" "$not 1" "the check was killed, most likely for memory: once more\n2 passed, 1 failed\nsyslogr: a check was killed, most likely for want of memory: end what else takes memory\n$goes_on"
refused 'ci makes no program' 'passed, but made no program' "3 passed, 0 failed\nsyslogr: see whether this is the kit's rt\n"
expect 'a proof of what was changed' 0 '' "$proving$again$proved" --prove
expect 'it runs' 0 "$(text 'proved 2')\n" ''
echo damaged >>"$checkout/crates/sg_top/out/sg_top"
expect 'a program that is another one' 0 "$(text 'first look 2')\n" "$building$unproved"

# A proof that is stopped goes on with what wasn't proved. The old program stays.
fresh
expect 'a proof before the stops' 0 '' "$proving$crates$proved" --prove
echo 'version=2' >"$checkout/crates/sg_low/src/lib.rt"
version=2
for stop in TERM:143 HUP:129; do
    rm -rf "$folder"/kept/*
    DOES='ci waits at sg_mid'
    start "a proof and $stop" --prove
    kill -"${stop%:*}" "$started"
    ended "a proof and $stop" "$started" "${stop#*:}"
    DOES=
    expect "the program after $stop" 0 "$(text "proved $((version - 1))")\n" "$changed"
    expect "a proof after $stop" 0 '' "${proving}syslogr: crate 1 of 3: sg_low$kept\n${crates#*low\\n}$proved" --prove
    version=$((version + 1))
    echo "version=$version" >"$checkout/crates/sg_low/src/lib.rt"
done

# Where the launcher is killed, its rt goes on, and who comes next waits for it, and removes what was left.
waiting='syslogr: another ./syslogr --prove works here: waiting until it has ended\n'
# release: has the stand-in go on once a second launcher waits
release() {
    for _ in $(seq 100); do grep -q 'another ./syslogr --prove' "$folder/told" && break; sleep 1; done
    : >"$folder/go"
}
rm -rf "$folder"/kept/*
DOES='ci waits at sg_mid'
start 'a killed launcher' --prove
kill -KILL "$started"
wait "$started" 2>/dev/null
DOES=
is 'what a killed launcher left' 1 "$(find "$folder/rooms" -name 'syslogr-prove.*' -prune | wc -l)"
mkdir "$folder/rooms/syslogr-prove.other"
echo /another/checkout >"$folder/rooms/syslogr-prove.other/of"
release &
expect 'a proof behind a killed launcher' 0 '' "$waiting$proving$again$proved" --prove
is 'rooms left of a killed launcher' syslogr-prove.other "$(ls "$folder/rooms")"

# Two at a time, also where there is no flock.
two() {
    fresh
    DOES='ci waits at sg_mid'
    start "two proofs $1" --prove
    DOES=
    release &
    expect "the second of two proofs $1" 0 '' "$waiting$proving$again$proved" --prove
    wait "$started"
    is "the first of two proofs $1" 0 $?
    expect "behind two proofs $1" 0 "$(text 'proved 1')\n" ''
}
two 'with flock'
mv "$tools/flock" "$folder/flock"
two 'without flock'
echo "$started" >"$checkout/crates/sg_top/out/prove.turn"
expect 'a turn that a killed launcher left, without flock' 0 '' "$proving$again$proved" --prove
is 'turns left' '' "$(find "$checkout/crates/sg_top/out" -name '*turn*')"
mv "$folder/flock" "$tools/flock"

# How many crates at a time.
fresh
while read -r processors memory limit quota jobs; do
    echo "$processors" >"$folder/processors"
    echo "MemAvailable: $((memory * 1024)) kB" >"$folder/meminfo"
    echo "$limit" >"$folder/cgroup/memory.max"
    printf 'anon 1048576000\nfile 1000000\n' >"$folder/cgroup/memory.stat"
    echo "$quota 100000" >"$folder/cgroup/cpu.max"
    "$checkout/syslogr" --prove >"$folder/said" 2>"$folder/told"
    is "jobs of $processors processors, $memory MB, limit $limit, quota $quota" "0 $jobs" "$? $(cat "$folder/jobs")"
done <<'JOBS'
4 16000 max max 4
4 11999 max max 3
4 6000 max max 2
4 5999 max max unset
1 64000 max max unset
64 23000 max max 7
4 64000 10485760000 max 3
4 64000 max 250000 2
4 64000 max 800000 4
4 64000 max 50000 unset
JOBS
is 'few crates at a time' 0 "$(grep -c 'at a time' "$folder/told")"
RT_JOBS=9 "$checkout/syslogr" --prove >"$folder/said" 2>"$folder/told"
is 'a number of jobs that was asked for' 9 "$(cat "$folder/jobs")"

# What keeps a proof from beginning.
fresh
echo 'MemAvailable: 2560000 kB' >"$folder/meminfo"
expect 'little memory to prove' 127 '' "syslogr: proving the program takes 4000 MB of memory, and 2500 MB are available: $small\n" --prove
echo 'MemAvailable: 64000000 kB' >"$folder/meminfo"
echo 2048 >"$folder/disk"
expect 'a small disk to prove' 127 '' 'syslogr: proving the program takes 3000 MB of disk, and 2000 MB are left for FOLDER/rooms: remove there what is done with\n' --prove
echo 20000 >"$folder/disk"
echo 4096 >"$folder/disk.kit"
expect 'a small disk of the kit' 127 '' 'syslogr: keeping what is proved takes 5000 MB of disk, and 4000 MB are left for FOLDER/kit: remove there what is done with\n' --prove
is 'rooms left where nothing was begun' '' "$(ls "$folder/rooms")"
rm -rf "$checkout/crates/sg_top/out"
: >"$checkout/crates/sg_top/out"
expect 'a folder that is none' 127 '' "syslogr: CHECKOUT/crates/sg_top/out can't be written: run this as the owner of the folder\n"

# The gate.
fresh
gate() {
    (cd / && "$checkout/.ci/run") >"$folder/said" 2>&1
    got=$?
}
gate
is 'the gate' "0 launcher real_files devices kill" "$got $(tail -n 4 "$folder/said" | tr '\n' ' ' | sed 's/ $//')"
is 'jobs of the gate' 4 "$(cat "$folder/jobs")"
expect 'the program that the gate proved' 0 "$(text 'proved 1')\n" ''
(cd "$checkout" && sha256sum crates/sg_top/out/sg_top >crates/sg_top/program.sha256)
gate
is 'the program of the release' '0 1' "$got $(grep -c '^crates/sg_top/out/sg_top: OK$' "$folder/said")"
echo 'version=2' >"$checkout/crates/sg_low/src/lib.rt"
gate
is 'not the program of the release' '1 1 0' "$got $(grep -c '^crates/sg_top/out/sg_top: FAILED$' "$folder/said") $(grep -c '^launcher$' "$folder/said")"
rm "$checkout/crates/sg_top/program.sha256" "$checkout/crates/sg_top/out/sg_top.sources"
DOES='ci fails'
gate
is 'a gate that fails' '1 0' "$got $(grep -c '^launcher$' "$folder/said")"
DOES=
expect 'the program of a gate that failed' 0 "$(text 'first look 2')\n" "$building$unproved"
for script in launcher real_files devices kill; do
    cp "$checkout/tests/$script.sh" "$folder/script"
    printf '#!/bin/sh\nexit 7\n' >"$checkout/tests/$script.sh"
    gate
    is "a gate whose $script fails" 7 "$got"
    cp "$folder/script" "$checkout/tests/$script.sh"
done

echo "$passed passed, $failed failed"
[ $failed = 0 ]
