#!/bin/sh
# Runs the real devices over full disks, FIFOs, locked stores and modes, by the program test_devices.
#   tests/devices.sh [PROGRAM]
top=$(cd "$(dirname "$0")/.." && pwd)
program=${1:-$top/crates/test_devices/out/test_devices}
[ -x "$program" ] || { echo "devices: there is no program $program: \`rt ci\` builds it, and so does \`rt run\` in crates/test_devices"; exit 2; }
folder=$(mktemp -d) || exit 2
mounted=
trap '[ -z "$mounted" ] || umount "$folder/small"; rm -rf "$folder"' EXIT
cd "$folder" || exit 2
passed=0 failed=0

# expect NAME WANTED: compares the file `got` with WANTED, a printf format. `got` is what was said, what was told without its moments,
# and the status.
expect() {
    printf "$2" >wanted
    if cmp -s got wanted; then
        passed=$((passed + 1))
    else
        failed=$((failed + 1))
        echo "$1: got"
        cat got
    fi
}

# run WORD..: at most eight seconds, since a device over a FIFO waits for nobody
run() {
    timeout 8 "$program" "$@" >said 2>told
    status=$?
    { cat said; sed 's/^[0-9T:+-]* //' told; echo "status $status"; } >got
}

# Words that lack a path.
run send </dev/null
expect 'no path' 'usage: test_devices send PATH [fsync] | turns PATH,PATH.. [fsync] | lines PATH | both PATH | pull PATH | read PATH | store PATH | look PATH\nstatus 1\n'

# A FIFO is refused, and not waited for.
mkfifo fifo
for what in send lines pull read store; do
    run $what fifo </dev/null
    case $what in
        send | lines) expect "a FIFO: $what" 'destination fifo: cannot open: not a regular file or a character device\nstatus 4\n' ;;
        pull) expect "a FIFO: $what" 'source fifo: cannot open: not a regular file\nstatus 4\n' ;;
        read) expect "a FIFO: $what" 'file fifo: cannot open: not a regular file\nstatus 4\n' ;;
        store) expect "a FIFO: $what" 'store fifo: cannot open: not a regular file\nstatus 4\n' ;;
    esac
done

# Nor is one waited for that gets the name between the look at it and the opening.
if command -v python3 >/dev/null; then
    echo line >swapped
    python3 -c '
import os, time
os.mkfifo("other")
for name in ("swapped", "other"):
    os.link(name, name + ".kept")
end = time.time() + 40
while time.time() < end and not os.path.exists("swapped.over"):
    for name in ("other", "swapped"):
        os.link(name + ".kept", "next")
        os.rename("next", "swapped")
' &
    swapping=$!
    hung=0
    for try in $(seq 30); do
        run pull swapped
        [ $status = 124 ] && hung=$((hung + 1))
    done
    echo "hung $hung" >got
    : >swapped.over
    wait $swapping
    rm -f swapped swapped.kept swapped.over other other.kept next
    expect 'a FIFO put in the place of a source' 'hung 0\n'
fi

# Modes of what is made, a destination's whatever the umask.
run store q </dev/null
(umask 0277; run send d </dev/null)
[ "$(stat -c %a q)" = 600 ] && [ "$(stat -c %a d)" = 600 ] && echo yes >got || echo no >got
expect 'modes' 'yes\n'

# One program a store, under each of its names; the lock ends with the program.
mkfifo hold
"$program" store q <hold >held &
exec 3>hold
for try in 1 2 3 4 5 6 7 8 9 10; do [ -s held ] && break; sleep 0.1; done
run store ./q </dev/null
expect 'a store in use' 'store ./q: cannot open: in use by another program\nstatus 4\n'
exec 3>&-
wait
run store q </dev/null
expect 'a store that is free again' 'opened\nstatus 0\n'
[ "$(ls)" = "$(printf 'd\nfifo\ngot\nheld\nhold\nq\nsaid\ntold\nwanted')" ] && echo yes >got || ls >got
expect 'nothing is left of the making of a store' 'yes\n'

# A file of the kernel's own that says that it is longer than what can be read of it.
short=
for file in /sys/kernel/profiling /sys/kernel/mm/transparent_hugepage/enabled; do [ -w $file ] && short=$file; done
if [ -n "$short" ]; then
    run look $short
    expect 'a store that reads short' "read failed\nstore $short: cannot read: unexpected end of file\nstatus 0\n"
else
    echo 'no file here says that it is longer than it is: a store that reads short is not tried'
fi
run look q
expect 'a store that reads whole' 'read 128\nstatus 0\n'

# A device that can't be synced takes no frame under fsync.
printf 'one\ntwo\n' >two
run send /dev/null fsync <two
expect 'a device that cannot be synced' 'taken 0\ndestination /dev/null: cannot sync: Invalid argument (os error 22)\nstatus 0\n'
run send /dev/null <two
expect 'the same without fsync' 'taken 2\nstatus 0\n'

# A limit on the size of a file: what is left of a frame that wasn't taken is cut off again, also with fsync.
trap '' XFSZ
seq -f 'line %05g' 1 1000 >lines
(ulimit -f 1 && head -c 3000 /dev/zero >sized) 2>/dev/null
whole=$(($(stat -c %s sized) / 11))
for fsync in '' fsync; do
    (ulimit -f 1 && run send limited$fsync $fsync <lines && echo "bytes $(stat -c %s limited$fsync)" >>got)
    expect "a limit on the size $fsync" "taken $whole\ndestination limited$fsync: cannot write: File too large (os error 27)\nstatus 0\nbytes $((whole * 11))\n"
    head -n $whole lines | cmp -s - limited$fsync && echo same >got || echo other >got
    expect "whole lines under a limit $fsync" 'same\n'
done

# Lines in turns for files by their paths, by one write a file: a send takes the lines in front of the first that is refused. What
# other files got behind that one is cut off again.
lines() { seq -f 'line %05g' 1 "$1"; }
# held FILE..: the numbers of the lines of each
held() { for file; do echo "$file$(sed 's/^line 0*/ /' "$file" | tr -d '\n')"; done >>got; }
full='cannot write: No space left on device (os error 28)'
for fsync in '' fsync; do
    rm -f a b c
    lines 9 >in
    run turns a,b,c $fsync <in
    held a b c
    expect "files in turns $fsync" 'taken 9\nstatus 0\na 1 4 7\nb 2 5 8\nc 3 6 9\n'
    rm -f a b c
    lines 6 >in
    run turns a,/dev/full,c <in
    held a c
    expect 'a full disk under the second of three files' "taken 1\ndestination /dev/full: $full\nstatus 0\na 1\nc\n"
    rm -f a b c
    run turns a,b,/dev/full <in
    held a b
    expect 'a full disk under the last of three files' "taken 2\ndestination /dev/full: $full\nstatus 0\na 1\nb 2\n"
    # the second file takes two lines and a part of the third one
    rm -f a b c
    head -c $(($(stat -c %s sized) - 25)) /dev/zero >b
    lines 12 >in
    (ulimit -f 1 && run turns a,b,c $fsync <in)
    tail -c 22 b >end
    held a c end
    expect "a limit on the size of the second of three files $fsync" 'taken 7\ndestination b: cannot write: File too large (os error 27)\nstatus 0\na 1 4 7\nc 3 6\nend 2 5\n'
    # and a later one is refused before that
    rm -f a b c
    head -c $(($(stat -c %s sized) - 25)) /dev/zero >a
    (ulimit -f 1 && run turns a,b,/dev/full <in)
    tail -c 11 a >end
    held b end
    echo "bytes $(($(stat -c %s sized) - $(stat -c %s a)))" >>got
    expect 'a full disk behind a limit on the size' "taken 2\ndestination a: cannot write: File too large (os error 27)\ndestination /dev/full: $full\nstatus 0\nb 2\nend 1\nbytes 14\n"
    # two paths of one file: what stands in front of another one's lines is not cut off
    rm -f a b c
    lines 6 >in
    run turns a,./a,/dev/full <in
    held a
    expect 'a file that another one has appended to' "taken 2\ndestination /dev/full: $full\ndestination a: cannot cut: another one appended behind\nstatus 0\na 1 4 2\n"
done
rm -f a b c end in

# The same where another one has emptied the file since it was opened, or appended to it: no line is torn.
for change in ': >shared' 'printf "of another\n" >>shared'; do
    rm -f shared more
    mkfifo more
    (ulimit -f 1 && exec timeout 20 "$program" lines shared <more >said 2>told) &
    exec 3>more
    seq -f 'mine %05g' 1 5 >&3
    for try in 1 2 3 4 5 6 7 8 9 10; do [ "$(grep -c '' shared 2>/dev/null)" = 5 ] && break; sleep 0.1; done
    eval "$change"
    seq -f 'mine %05g' 6 500 >&3
    exec 3>&-
    wait
    grep -v -x -E 'mine [0-9]{5}|of another' shared >got
    expect "no line is torn behind $change" ''
    [ "$(grep -c '' shared)" -gt 20 ] && [ -z "$(tail -c 1 shared)" ] && echo whole >got || tail -n 1 shared >got
    expect "the last line behind $change" 'whole\n'
done

# A full disk, and what comes once it has space again: no line is torn, and what was told.
mkdir small
if mount -t tmpfs -o size=16k none small 2>/dev/null; then
    mounted=yes
    head -c 9000 /dev/zero >small/filler
    rm -f more
    mkfifo more
    timeout 20 "$program" lines small/out <more >said 2>told &
    exec 3>more
    seq -f 'first %05g' 1 1500 >&3
    for try in 1 2 3 4 5 6 7 8 9 10; do [ -s told ] && break; sleep 0.1; done
    sleep 0.5
    rm small/filler
    seq -f 'second %05g' 1 10 >&3
    exec 3>&-
    wait
    sed 's/^[0-9T:+-]* //' told >got
    expect 'a full disk is told' 'destination small/out: cannot write: No space left on device (os error 28)\ndestination small/out: works again\n'
    grep -v -x -E 'first [0-9]{5}|second [0-9]{5}' small/out >got
    expect 'no line is torn' ''
    tail -n 1 small/out >got
    expect 'the last line' 'second 00010\n'
    echo "taken $(grep -c '' small/out)" >wanted.taken
    cmp -s said wanted.taken && echo same >got || cat said wanted.taken >got
    expect 'the lines taken are those that are there' 'same\n'
    # another one appends at the same time: the file is left as it is
    rm small/out
    head -c 11000 /dev/zero >small/filler
    rm more
    mkfifo more
    timeout 20 "$program" lines small/out <more >said 2>told &
    exec 3>more
    seq -f 'mine %05g' 1 2 >&3
    for try in 1 2 3 4 5 6 7 8 9 10; do [ -s small/out ] && break; sleep 0.1; done
    printf 'of another\n' >>small/out
    seq -f 'mine %05g' 3 1500 >&3
    exec 3>&-
    wait
    grep -c -x 'of another' small/out >got
    expect 'lines of another one stay' '1\n'
    # two destinations of one program append while the disk is full at times: what was taken of each is there, once and whole
    for round in 1 2 3 4 5 6 7 8; do
        umount small
        mounted=
        mount -t tmpfs -o size=6m none small && mounted=yes
        : >filling
        (while [ -e filling ]; do head -c 8000000 /dev/zero >small/filler; rm small/filler; done) 2>/dev/null &
        filling=$!
        timeout 60 "$program" both small/out </dev/null >said 2>told
        rm filling
        wait $filling
        echo "taken $(grep -c -E 'a[0-9]{6}x{892}$' small/out) $(grep -c -E 'b[0-9]{6}x{892}$' small/out)" >wanted.taken
        cmp -s said wanted.taken && echo same >got || { cat said wanted.taken >got; break; }
    done
    expect 'two destinations over one file' 'same\n'
    umount small && mounted=
else
    echo 'no file system of its own can be mounted here: a full disk is tried by a limit on the size alone'
fi

echo "$passed passed, $failed failed"
[ $failed = 0 ]
