#!/bin/sh
# Counts the system's calls that make things last, by strace: those that a store and a destination promise. It isn't part of the gate.
#   tests/syncs.sh [PROGRAM [DEVICES]]    the program and test_devices, by default those that are proved
top=$(cd "$(dirname "$0")/.." && pwd)
command -v strace >/dev/null || { echo 'strace is not installed'; exit 2; }
program=${1:-$top/crates/sg_top/out/sg_top}
devices=${2:-$top/crates/test_devices/out/test_devices}
folder=$(mktemp -d) || exit 2
trap 'rm -rf "$folder"' EXIT
cd "$folder" || exit 2
passed=0 failed=0

# calls WORD..: runs a program and prints its calls that lock, link, write at a place or sync, one a line, with the file. One that was
# opened under a name of its own that is gone has the name that it was given then.
calls() {
    strace -f -y -s 0 -e trace=fsync,fdatasync,link,linkat,pwrite64,flock -o trace "$@" >said 2>told
    sed 's/\.[0-9a-f]\{16\}\.new>(deleted)/>/' trace | sed -n 's/^[0-9]* *\([a-z0-9]*\)(.*<\([^>]*\)>.*/\1 \2/p; s/^[0-9]* *\(link\|linkat\)(.*/link/p' | sed "s|$folder/*||; s| $| .|; s/\.[0-9a-f]\{16\}\.new/.new/" >got
}

# expect NAME WANTED: compares the calls with a printf format
expect() {
    printf "$2" >wanted
    if cmp -s got wanted; then
        passed=$((passed + 1))
    else
        failed=$((failed + 1))
        echo "$1: got"
        cat got
    fi
}

for needed in "$devices" "$program"; do
    [ -x "$needed" ] || echo "there is no program $needed: what it should sync is not tried (\`rt ci\` builds it)"
done
if [ -x "$devices" ]; then
    calls "$devices" store q </dev/null
    expect 'a store that is made: locked, synced, linked, and its folder synced' 'flock q.new\nfsync q.new\nlink\nfsync .\n'
    calls "$devices" store q </dev/null
    expect 'a store that is there: locked, and its folder synced' 'flock q\nfsync .\n'
    head -c 128 /dev/zero >other
    (sleep 0.5; mv other q) &
    strace -f -e trace=flock -e inject=flock:delay_enter=1500000:when=1 -o trace "$devices" store q </dev/null >said 2>told
    wait
    { cat said; grep -c LOCK_EX trace; } >got
    expect 'a store whose name means another file before it is locked: that one is locked too' 'opened\n2\n'
    printf 'one\ntwo\n' | calls "$devices" send d fsync
    expect 'a destination made under fsync: its folder, and then the frames' 'fsync .\nfdatasync d\n'
    printf 'one\ntwo\n' | calls "$devices" send d fsync
    expect 'a destination that is there: the same, since the folder may not have been synced when it was made' 'fsync .\nfdatasync d\n'
    printf 'one\ntwo\n' | calls "$devices" send e
    expect 'a destination without fsync' ''
    printf 'one\ntwo\nthree\nfour\nfive\nsix\n' | calls "$devices" turns f,g,h fsync
    expect 'six lines in turns for three files under fsync: behind the opening one sync a file' 'fsync .\nfdatasync f\nfsync .\nfdatasync g\nfsync .\nfdatasync h\nfdatasync f\nfdatasync g\nfdatasync h\n'
    printf 'one\ntwo\nthree\nfour\nfive\nsix\n' | strace -f -y -s 0 -e trace=write -o trace "$devices" turns f,g,h >said 2>told
    sed -n 's/^[0-9]* *write(.*<\([^>]*\)>.*/write \1/p' trace | sed "s|$folder/||" | grep -x 'write [fgh]' >got
    expect 'six lines in turns for three files: one write a file' 'write f\nwrite g\nwrite h\n'
fi
if [ -x "$program" ]; then
    printf '@version: 4.2\nsource s { file("in" flags(no-parse)); };\ndestination d { file("out" template("$MSG\\n")); };\nlog { source(s); destination(d); flags(flow-control); };\n' >c
    printf 'one\ntwo\n' >in
    calls "$program" run c --once
    expect 'a run: its store is made and synced at its opening, its mark before the first pull, and each put of a position is two writes, each synced' 'flock pos-in.new\nfsync pos-in.new\nlink\nfsync .\nfsync pos-in\nfsync id-in.new\nfsync .\npwrite64 pos-in\nfsync pos-in\npwrite64 pos-in\nfsync pos-in\n'
    calls "$program" run c --once
    expect 'a run with nothing new' 'flock pos-in\nfsync .\nfsync pos-in\n'
fi
echo "$passed passed, $failed failed"
[ $failed = 0 ] && [ $passed -gt 0 ]
