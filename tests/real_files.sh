#!/bin/sh
# Runs the program over real files: what it writes, what it says and how it ends.
#   tests/real_files.sh [PROGRAM]
top=$(cd "$(dirname "$0")/.." && pwd)
program=${1:-$top/crates/sg_top/out/sg_top}
[ -x "$program" ] || { echo "real_files: there is no program $program: \`./syslogr --prove\` makes it, and so does \`.ci/run\`"; exit 2; }
export GLIBC_TUNABLES=glibc.malloc.tcache_count=1000 # as the launcher sets it
folder=$(mktemp -d) || exit 2
mounted=
trap '[ -z "$mounted" ] || umount "$folder/small"; rm -rf "$folder"' EXIT
cd "$folder" || exit 2
passed=0 failed=0

# What the next run tells on standard error, without the moments: a printf format.
told=

# expect NAME STATUS SAID OUT WORD..: SAID and OUT are printf formats; OUT is the file `out`, - for none. Each begins without `out` and
# without a stored position.
expect() {
    rm -f out pos-*
    again "$@"
}

# the same over what is there
again() {
    name=$1 status=$2 said=$3 out=$4
    shift 4
    timeout 60 "$program" "$@" >said 2>errors
    got=$?
    printf "$said" >said.wanted
    printf "$told" >told.wanted
    told=
    sed 's/^[0-9T:+-]* //' errors >told.got
    good=yes
    [ "$got" = "$status" ] || { good=no; echo "$name: status $got, wanted $status"; }
    cmp -s said said.wanted || { good=no; echo "$name: said:"; cat said; }
    cmp -s told.got told.wanted || { good=no; echo "$name: standard error:"; cat errors; }
    if [ "$out" = - ]; then
        [ -e out ] && { good=no; echo "$name: out was made"; }
    else
        printf "$out" >out.wanted
        cmp -s out out.wanted || { good=no; echo "$name: out:"; cat out; }
    fi
    if [ $good = yes ]; then passed=$((passed + 1)); else failed=$((failed + 1)); fi
}

# report RECORDS POSITION TAKEN LEFT FAULT STATUS: FAULT is a line of the report, or nothing
report() {
    printf 'source 0 records %s bad-frames 0 position %s\\n' "$1" "$2"
    printf 'destination 0 taken %s dropped-full 0 dropped-disk 0 left %s\\n%sstatus %s\\n' "$3" "$4" "$5" "$6"
}

# config SOURCE DESTINATION: a configuration that moves the lines of a file
config() {
    printf '@version: 4.2\nsource s { file("%s" flags(no-parse)); };\ndestination d { file("%s" template("$MSG\\n")); };\nlog { source(s); destination(d); flags(flow-control); };\n' "$1" "$2"
}
# changes of it: a smaller window, and a disk-buffer
window='2s/no-parse)/no-parse) log-iw-size(100)/'
buffer='3s/"));/") disk-buffer(reliable(yes) disk-buf-size(1048576)));/'

usage='usage: syslogr check FILE | trace FILE SOURCE INPUT | run FILE [--once] [--rounds N] | spool FILE | drill N\n'

config in out >c
printf 'one\ntwo\n' >in
expect 'two lines' 0 "$(report 2 8 2 0 '' 0)" 'one\ntwo\n' run c --once
printf 'three\n' >>in
again 'a line more' 0 "$(report 1 14 1 0 '' 0)" 'one\ntwo\nthree\n' run c --once
again 'nothing new' 0 "$(report 0 14 0 0 '' 0)" 'one\ntwo\nthree\n' run c --once
printf 'new\n' >in
again 'a shorter file' 0 "$(report 1 4 1 0 '' 0)" 'one\ntwo\nthree\nnew\n' run c --once
printf x | dd of=pos-in bs=1 seek=40 conv=notrunc 2>/dev/null
again 'a damaged store' 5 'store 0 damaged at 40\n' 'one\ntwo\nthree\nnew\n' run c --once
: >pos-in
again 'an empty store' 5 'store 0 damaged at 0\n' 'one\ntwo\nthree\nnew\n' run c --once
rm -f pos-in out && mkdir pos-in
told='store pos-in: cannot open: not a regular file\n'
again 'a folder in the place of the store' 4 'cannot open store 0\n' - run c --once
rmdir pos-in
: >in
expect 'an empty file' 0 "$(report 0 0 0 0 '' 0)" '' run c --once
[ ! -e pos-in ] && [ ! -e id-in ] && passed=$((passed + 1)) || { failed=$((failed + 1)); echo 'an empty file: a position store in which nothing was stored'; }
printf 'one\ntwo' >in
expect 'an open last line' 0 "$(report 1 4 1 0 '' 0)" 'one\n' run c --once
printf 'one\ntwo\n' >in
rm -f out pos-*
{ head -c 23 /dev/zero; printf '\144'; head -c 104 /dev/zero; } >pos-in
again 'a position past the file' 0 "$(report 2 8 2 0 '' 0)" 'one\ntwo\n' run c --once
printf 'a\r\n\nb' >in
expect 'trimmed, empty and open lines' 0 "$(report 2 4 1 0 '' 0)" 'a\n' run c --once
mkdir sub && printf 'one\n' >sub/a_b.log
config sub/a_b.log out >c0
expect 'a source in a folder' 0 "$(report 1 4 1 0 '' 0)" 'one\n' run c0 --once
[ -e pos-sub_2fa_5fb.log ] || { failed=$((failed + 1)); echo 'a source in a folder: its store has another name'; }
printf '# x\n' >bad
told='bad:1: version not supported\n   # x\n   instead of `@version: 3.N`: `@version: 4.2`\n'
expect 'a text without a version' 2 'bad:1: version not supported\n' - run bad --once
printf '@version: 3.38\n' >bad
told='bad:1:1: version not supported\n   @version: 3.38\n   ^\n   instead of `@version: 3.N`: `@version: 4.2`\n'
expect 'an older version' 2 'bad:1: version not supported\n' - run bad --once
printf '@version: 4.2\n@include "conf.d/*.conf"\n' >bad
told='bad:2:1: not supported\n   @include "conf.d/*.conf"\n   ^\n   instead of `@include`: each file by its name\n'
expect 'an include of many files' 2 'bad:2: not supported\n' - run bad --once
printf '@version: 4.2\n' >bad
expect 'a configuration of no statements' 0 'status 0\n' - run bad --once
printf '@version: 4.2\nlog { `NO`; };\n' >bad
told='bad:2:7: unknown variable\n   log { `NO`; };\n         ^\n'
expect 'an unknown variable' 2 'bad:2: unknown variable\n' - run bad --once
printf '@version: 4.2\n@include "bad"\n' >bad
told='bad:2:1: includes nested too deep\n   @include "bad"\n   ^\n'
expect 'a file that includes itself' 2 'bad:2: includes nested too deep\n' - run bad --once
printf '# one\n# two\n  "\n' >part
printf '@version: 4.2\n@include "part"\n' >bad
told='part:3:3: string not closed\n     "\n     ^\n'
expect 'a fault in an included file' 2 'part:3: string not closed\n' - run bad --once
printf '@version: 4.2\n@include "none"\n' >bad
told='file none: cannot open: No such file or directory (os error 2)\nbad:2:1: note: it is included here\n   @include "none"\n   ^\n'
expect 'an included file that is missing' 3 'cannot read none\n' - run bad --once
cat >sub/blocks.conf <<'END'
# what a source and a destination are made of
block source lines_of(path()) { file("`path`" flags(no-parse)); };
block destination lines_to(path(out)) { file("`path`" template("$MSG\n")); };
END
cat >blocks <<'END'
@version: 4.2
@define folder sub
@include "`folder`/blocks.conf"   # from the folder in which the program runs
source s { lines_of(path("in")); };
destination d { lines_to(); };
log { source(s); destination(d); flags(flow-control); };
END
printf 'one\ntwo\n' >in
expect 'blocks in an included file' 0 "$(report 2 8 2 0 '' 0)" 'one\ntwo\n' run blocks --once
head -c 1048577 /dev/zero >long
expect 'a configuration too long' 2 'long:1: configuration too long\n' - run long --once
told='file none: cannot open: No such file or directory (os error 2)\n'
expect 'no configuration' 3 'cannot read none\n' - run none --once
config none out >c1
told='source none: cannot open: No such file or directory (os error 2)\n'
expect 'no source file' 4 'cannot open inlet 0\n' - run c1 --once
[ ! -e pos-none ] && passed=$((passed + 1)) || { failed=$((failed + 1)); echo 'a start that failed left its position store'; }
config in none/out >c2
told='destination none/out: cannot open: No such file or directory (os error 2)\n'
expect 'a destination that cannot be made' 4 'cannot open destination 0\n' - run c2 --once
[ ! -e pos-in ] && passed=$((passed + 1)) || { failed=$((failed + 1)); echo 'a start that failed at its destination left its position store'; }
# A position store that was there before stays.
expect 'before a start that fails' 0 "$(report 2 8 2 0 '' 0)" 'one\ntwo\n' run c --once
told='destination none/out: cannot open: No such file or directory (os error 2)\n'
again 'a start that fails beside a store' 4 'cannot open destination 0\n' 'one\ntwo\n' run c2 --once
again 'which has kept its position' 0 "$(report 0 8 0 0 '' 0)" 'one\ntwo\n' run c --once
# A destination that is the source, by each of its names, or a store of the run.
ln in same
for own in in same pos-in; do
    config in $own >c2
    told="destination $own: cannot open: it is a source or a store of this run\n"
    expect "the destination $own of the source in" 4 'cannot open destination 0\n' - run c2 --once
done
rm same
[ "$(cat in)" = "$(printf 'one\ntwo')" ] && passed=$((passed + 1)) || { failed=$((failed + 1)); echo 'a source that is a destination:'; cat in; }
config . out >c3
told='source .: cannot open: not a regular file\n'
expect 'a source that is a folder' 4 'cannot open inlet 0\n' - run c3 --once
printf '@version: 4.2\nsource s { file("nowhere"); };\ndestination d { file("out" template("$MSG\\n")); };\nfilter f { message("e"); };\nlog { source(s); filter(f); destination(d); flags(flow-control); };\nlog { source(s); destination { network("h" port(1) template("$PRI\\n")); }; };\n' >t
printf '<11>x: one\n<12>x: tow\n' >in
# waits FILE MIB RECORDS: what is told of the memory that records can take, of 65,536 bytes each; a printf format
waits() {
    printf '%s: records that wait take at most %s MiB of memory: %s of up to 65536 bytes (log-fifo-size of queues, log-iw-size, mem-buf-length; log-msg-size)\\n' "$1" "$2" "$3"
}
told=$(waits t 1257 20100)
expect 'a configuration is checked' 0 't: ok\n' - check t
drivers='# destination 0 is d: file("out" template("$MSG\\n"))\n'
told="$drivers"'# destination 1 is network("h" port(1) template("$PRI\\n"))\n'
expect 'a file is traced' 0 'record 0 destination 0 flow yes length 4\none\n\nrecord 0 destination 1 flow no length 3\n11\n\nrecord 1 destination 1 flow no length 3\n12\n\n' - trace t s in
told='   note: the source statements are `s`\n'
expect 'a source without a driver' 2 't:0: unknown name\n' - trace t d in
told="$drivers"'# destination 1 is network("h" port(1) template("$PRI\\n"))\nsource missing: cannot open: No such file or directory (os error 2)\n'
expect 'no file to trace' 4 'cannot open inlet 0\n' - trace t s missing
printf '@version: 4.2\nsource s { file("in" flags(no-parse)); };\ndestination d { file("out" template("$MSG\\n")); };\nlog { source(s); junction { channel { rewrite { set("x" value("MESSAGE")); }; }; channel { filter { message("o"); }; }; }; destination(d); };\n' >t
printf 'one\n' >in
told=$drivers
expect 'each channel of a junction has a copy' 0 'record 0 destination 0 flow no length 2\nx\n\nrecord 0 destination 0 flow no length 4\none\n\n' - trace t s in
printf '@version: 4.2\nsource s { file("in"); };\nlog { source(s); filter(none); };\n' >bad
told='bad:3:25: unknown name\n   log { source(s); filter(none); };\n                           ^\n'
expect 'an unknown filter is checked' 2 'bad:3: unknown name\n' - check bad
told='bad:3:25: unknown name\n   log { source(s); filter(none); };\n                           ^\n'
expect 'an unknown filter is traced' 2 'bad:3: unknown name\n' - trace bad s in
printf '@version: 4.2\nfilter f { message("("); };\n' >bad
told='bad:2:20: pattern not valid\n   filter f { message("("); };\n                      ^\n'
expect 'a pattern that is none' 2 'bad:2: pattern not valid\n' - check bad
# hint FILE PLACE COLUMN: what is told of a fault that is said as FILE, PLACE, at this column of its line, or nothing; a printf format
hint() {
    line=${2#:} line=${line%%:*}
    printf '%s:%s%s: %s\\n   ' "$1" "$line" "${3:+:$3}" "${2#*: }"
    sed -n "${line}s/[\\\\%]/&&/g;${line}p" "$1" | tr -d '\n'
    printf '\\n'
    [ -z "$3" ] || printf '%*s^\\n' $((3 + $3 - 1)) ''
}
# what `check` says of the first configuration, changed by sed, at which column of its line that is, and the note behind it
while IFS='~' read -r change status text column note; do
    sed "$change" c >changed
    if [ "$status" = 0 ]; then told=$(waits changed 632 10100); else told=$(hint changed "$text" "$column"; [ -z "$note" ] || printf '   note: %s\\n' "$note"); fi
    expect "changed by $change" "$status" "changed$text\n" - check changed
done <<'END'
4s/source(s)/source(x)/~2~:4: unknown name~14
4s/flow-control/drop-unmatched/~0~: ok
2s/no-parse)/no-parse) log-iw-size(0)/~2~:2: value out of range~50~log-iw-size takes 1 to 100,000
3s/file(.*));/network("h");/~2~:3: option missing~17~port(514) goes into its parentheses: it has no default
4s/;/; filter { match("a(" value("MESSAGE")); };/~2~:4: pattern not valid~33
4s/;/; rewrite { set("1" value("PRI")); };/~2~:4: macro cannot be set~28
$a filter f { filter(f); };~2~:5: filter refers to itself~8
2s/.*/block source local(path()) { file("`path`"); };\nsource s { local(path("in")); };/~0~: ok
2s/.*/block source local(path()) { file("`path`"); };\nsource s { local(); };/~2~:3: argument missing
END
cat >dist <<'END'
@version: 4.2
@include "scl.conf"
options { chain_hostnames(off); flush_lines(0); use_dns(no);
  use_fqdn(no); dns_cache(no); owner("root"); group("adm");
  perm(0640); stats(freq(0)); bad_hostname("^gconfd$"); };
source s_src { network(ip("127.0.0.1") port(5514)); };
destination d_auth { file("/var/log/auth.log"); };
destination d_syslog { file("/var/log/syslog"); };
destination d_error { file("/var/log/error"); };
filter f_dbg { level(debug) and not facility(auth, authpriv, news, mail); };
filter f_auth { facility(auth, authpriv) and not filter(f_dbg); };
filter f_syslog { not facility(auth, authpriv, mail) and not filter(f_dbg); };
filter f_error { level(err .. emerg); };
log { source(s_src); filter(f_auth); destination(d_auth); };
log { source(s_src); filter(f_syslog); destination(d_syslog); };
log { source(s_src); filter(f_error); destination(d_error); };
END
: >scl.conf
# warned FILE LINE COLUMN WORDS TEXT: a warning as a printf format
warned() {
    printf '%s:%s:%s: warning: %s\\n   %s\\n   %*s\\n' "$1" "$2" "$3" "$4" "$5" "$3" '^'
}
# what is told of its options without effect, under this name
warned_of_options() {
    names='  use_fqdn(no); dns_cache(no); owner("root"); group("adm");'
    warned "$1" 4 32 'owner has no effect here' "$names"
    warned "$1" 4 47 'group has no effect here' "$names"
    warned "$1" 5 31 'bad_hostname has no effect here' '  perm(0640); stats(freq(0)); bad_hostname("^gconfd$"); };'
}
told=$(waits dist 1938 31000; warned_of_options dist)
expect 'a usual distribution file' 0 'dist: ok\n' - check dist
cp "$top/examples/debian/syslogr.conf" "$top/examples/debian/in.log" .
# unused FILE KIND: the warnings of the statements of this kind, each at the front of a line, that no other line names
unused() {
    grep -n "^$2 " "$1" | while IFS=: read -r number text; do
        statement=$(printf '%s' "$text" | cut -d' ' -f2)
        grep -v '^ *#' "$1" | grep -q "$2($statement)" || warned "$1" "$number" $((${#2} + 2)) "no statement uses $2 \`$statement\`" "$text"
    done
}
told=$(waits syslogr.conf 8257 132100
    warned syslogr.conf 19 26 'owner has no effect here' '          dns_cache(no); owner("root"); group("adm"); perm(0640);'
    warned syslogr.conf 19 41 'group has no effect here' '          dns_cache(no); owner("root"); group("adm"); perm(0640);'
    warned syslogr.conf 20 27 'bad_hostname has no effect here' '          stats(freq(0)); bad_hostname("^gconfd$");'
    unused syslogr.conf filter)
expect 'the configuration of Debian, converted' 0 'syslogr.conf: ok\n' - check syslogr.conf
accepted='Nov 28 06:00:00 web sshd[42]: Accepted publickey for root\n'
cron='Nov 28 06:00:01 web CRON[7]: (root) CMD (true)\n'
error='Nov 28 06:00:02 web app: failed 3 times\n'
debug='Nov 28 06:00:03 web app: 7 rows\n'
told=$(sed -n 's/^destination \([a-z_]*\) { \(file(.*)\); };$/\1: \2/p' syslogr.conf | awk '{ gsub(/[\\%]/, "&&"); printf "# destination %d is %s\\n", NR - 1, $0 }')
expect 'what becomes of records there' 0 "record 0 destination 0 flow yes length 58\n$accepted\nrecord 1 destination 1 flow no length 47\n$cron\nrecord 1 destination 6 flow no length 47\n$cron\nrecord 2 destination 2 flow no length 40\n$error\nrecord 2 destination 6 flow no length 40\n$error\nrecord 2 destination 10 flow no length 40\n$error\nrecord 3 destination 9 flow no length 32\n$debug\n" - trace syslogr.conf s_src in.log
# a configuration whose log statement stands there as often as its first word says
repeated() {
    config in out | awk -v times="$1" '{ for (k = 0; k < (/^log/ ? times : 1); k++) print }'
}
repeated 1024 >many
twice='an earlier log statement of the same source delivers the same records here, without `final`'
told=$(waits many 632 10100; for k in $(seq 5 54); do warned many $k 30 "$twice" 'log { source(s); destination(d); flags(flow-control); };'; done; printf 'there are more warnings\\n')
expect '1,024 deliveries' 0 'many: ok\n' - check many
repeated 1025 >many
told='many:1028:1: too many offers\n   log { source(s); destination(d); flags(flow-control); };\n   ^\n   note: a record may come to 1,024 deliveries, whatever filters let through, and as many messages to a place of a path\n'
expect '1,025 deliveries' 2 'many:1028: too many offers\n' - check many
printf '@version: 4.2\n@include "bad"\n' >bad
told='bad:2:1: includes nested too deep\n   @include "bad"\n   ^\n'
expect 'a file that includes itself is checked' 2 'bad:2: includes nested too deep\n' - check bad
told=$(waits c 632 10100)
expect 'a configuration that moves lines' 0 'c: ok\n' - check c
# what is told of memory: more than 256 MiB, a record of 65,536 bytes more, a disk-buffer in the place of the queue, smaller records
sed '3s/"));/") log-fifo-size(3997));/' c >changed
told=$(waits changed 257 4097)
expect 'more than 256 MiB' 0 'changed: ok\n' - check changed
sed '3s/"));/") log-fifo-size(3996));/' c >changed
expect '256 MiB' 0 'changed: ok\n' - check changed
sed "$buffer" c >changed
expect 'a disk-buffer and no queue' 0 'changed: ok\n' - check changed
sed '2s/no-parse)/no-parse) log-msg-size(8192)/' c >changed
expect 'records of 8,192 bytes' 0 'changed: ok\n' - check changed
expect 'a check of nothing' 1 "$usage" - check
expect 'no rounds' 1 "$usage" - run c --rounds 0
expect 'a drill' 0 'source 0 records 1000 bad-frames 0 position 44310\ndestination 0 taken 500 dropped-full 0 dropped-disk 0 left 0\ndestination 1 taken 500 dropped-full 0 dropped-disk 0 left 0\nstatus 0\n' - drill 1000
expect 'a drill of nothing' 1 "$usage" - drill 0
expect 'how it is used' 0 "$usage" - --help
expect 'which version it is' 0 'syslogr 0.1.0\n' - --version
expect 'no words' 1 "$usage" -
expect 'other words' 1 "$usage" - run c --rounds
told='file c\377: cannot open: the name is not UTF-8\n'
expect 'a word that is not UTF-8' 3 'cannot read c\377\n' - run "$(printf 'c\377')" --once
if [ -w /dev/full ]; then
    config in /dev/full >c4
    printf 'one\n' >in
told='destination /dev/full: cannot write: No space left on device (os error 28)\n'
    expect 'a full disk' 6 "$(report 1 0 0 1 'fault sink 0\n' 6)" - run c4 --once
    "$program" run c --once >/dev/full 2>errors
    if [ $? = 10 ] && [ ! -s errors ]; then passed=$((passed + 1)); else failed=$((failed + 1)); echo 'a full standard output: not status 10'; fi
fi

# A destination that takes nothing leaves what it hasn't taken to its window, or to a disk-buffer, from which another run takes it.
if [ -w /dev/full ]; then
    nospace='destination dead: cannot write: No space left on device (os error 28)\n'
    rm -f out pos-* queue-*
    ln -s /dev/full dead
    config in dead | sed "$window" >c4
    seq 1 150 >in
    told=$nospace
    again 'the window of a dead destination' 6 "$(report 100 0 0 100 'fault sink 0\n' 6)" - run c4 --once
    config in dead | sed "$buffer" >c4
    printf 'one\n' >in
    told=$nospace
    again 'a dead destination' 6 "$(report 1 4 0 1 'fault sink 0\n' 6)" - run c4 --once
    rm dead
    again 'then a working one' 0 "$(report 0 4 1 0 '' 0)" - run c4 --once
    [ "$(cat dead)" = one ] && passed=$((passed + 1)) || { failed=$((failed + 1)); echo 'then a working one:'; cat dead; }
fi

# Streams that are closed: no store has the number of one, and what is told isn't written into it.
if [ -w /dev/full ]; then
    for closed in '' '<&-' '>&-' '2>&-' '<&- >&-' '<&- 2>&-' '>&- 2>&-' '<&- >&- 2>&-'; do
        rm -f pos-* queue-* dead
        ln -s /dev/full dead
        printf 'one\n' >in
        eval "timeout 60 \"\$program\" run c4 --once >said 2>errors $closed"
        first=$?
        rm dead
        timeout 60 "$program" run c4 --once >said 2>errors
        [ "$first $?" = '6 0' ] && [ "$(cat dead)" = one ] && passed=$((passed + 1)) || { failed=$((failed + 1)); echo "closed streams $closed: status $first, and then:"; cat said errors; }
    done
    # Standard error that is a full pipe: the run doesn't wait for its reader.
    rm -f pos-* queue-* dead
    ln -s /dev/full dead
    mkfifo pipe
    exec 8<>pipe
    timeout 1 head -c 2000000 /dev/zero >&8
    timeout 20 "$program" run c4 --once >said 2>&8
    [ $? = 6 ] && passed=$((passed + 1)) || { failed=$((failed + 1)); echo 'a standard error that is a full pipe:'; cat said; }
    exec 8>&-
    rm pipe dead
fi

# A disk-buffer whose file is made whole.
config in out | sed "$buffer" | sed 's/reliable(yes)/& prealloc(yes)/' >c8
printf 'one\n' >in
rm -f out pos-* queue-*
again 'a disk-buffer that is made whole' 0 "$(report 1 4 1 0 '' 0)" 'one\n' run c8 --once
[ "$(stat -c %s queue-file,out)" = 2097220 ] && passed=$((passed + 1)) || { failed=$((failed + 1)); echo 'the size of a disk-buffer that is made whole:'; stat -c %s queue-file,out; }
printf 'two\n' >>in
again 'and opened again' 0 "$(report 1 8 1 0 '' 0)" 'one\ntwo\n' run c8 --once
rm -f pos-* queue-* out

# A disk-buffer whose only entry is none.
config in out | sed "$buffer" >c4
rm -f out pos-*
{ head -c 64 /dev/zero; printf '\1\0\0\0\2ab'; head -c 57 /dev/zero; } >queue-file,out
again 'a disk-buffer whose entry is none' 5 'store 1 damaged at 64\n' - run c4 --once
rm queue-file,out

# Another file whose lines are as long as those of the one before, so that one ends at the stored position, and one that was truncated
# and has grown again: both are read from their beginning. What was appended to alone is read on.
another='source in: it is another file than at the last run: it is read from its beginning\n'
seq -f '%04g' 1 300 >in
expect 'before a file of equal lines' 0 "$(report 300 1500 300 0 '' 0)" "$(seq -f '%04g' 1 300)\n" run c --once
seq -f '%04g' 301 700 >in.new && mv in.new in
told=$another
again 'a file of equal lines' 0 "$(report 400 2000 400 0 '' 0)" "$(seq -f '%04g' 1 700)\n" run c --once
seq -f '%04g' 701 1200 >in
told=$another
again 'truncated and grown again' 0 "$(report 500 2500 500 0 '' 0)" "$(seq -f '%04g' 1 1200)\n" run c --once
seq -f '%04g' 1201 1300 >>in
again 'what was appended' 0 "$(report 100 3000 100 0 '' 0)" "$(seq -f '%04g' 1 1300)\n" run c --once
printf 'one\n' >in
again 'a file of few bytes' 0 "$(report 1 4 1 0 '' 0)" "$(seq -f '%04g' 1 1300)\none\n" run c --once
printf 'two\n' >>in
again 'and more of them' 0 "$(report 1 8 1 0 '' 0)" "$(seq -f '%04g' 1 1300)\none\ntwo\n" run c --once
[ "$(stat -c %a id-in)" = 600 ] && passed=$((passed + 1)) || { failed=$((failed + 1)); echo 'the mode of a mark'; }
# A mark that isn't there, or isn't one: the stored position stands. A trace makes none.
rm id-in
told=$drivers
expect 'a trace beside a store' 0 'record 0 destination 0 flow yes length 4\none\n\nrecord 1 destination 0 flow yes length 4\ntwo\n\n' - trace c s in
[ ! -e id-in ] && passed=$((passed + 1)) || { failed=$((failed + 1)); echo 'a trace made a mark'; }
printf 'one\ntwo\n' >in
expect 'a mark is made' 0 "$(report 2 8 2 0 '' 0)" 'one\ntwo\n' run c --once
rm id-in
again 'no mark' 0 "$(report 0 8 0 0 '' 0)" 'one\ntwo\n' run c --once
printf 'x\n' >id-in
told='store id-in: cannot read: it is no mark of a file\nstore id-in: works again\n'
again 'a mark that is none' 0 "$(report 0 8 0 0 '' 0)" 'one\ntwo\n' run c --once
again 'a mark that was mended' 0 "$(report 0 8 0 0 '' 0)" 'one\ntwo\n' run c --once

# Another file under the source's name, in which no line ends at the stored position, is read from its beginning.
printf 'one\ntwo\n' >in
expect 'before another file' 0 "$(report 2 8 2 0 '' 0)" 'one\ntwo\n' run c --once
printf 'another file\n' >in.new && mv in.new in
again 'another file' 0 "$(report 1 13 1 0 '' 0)" 'one\ntwo\nanother file\n' run c --once

# What is made is its owner's alone, and what is there keeps its mode.
[ "$(stat -c %a out pos-in | tr '\n' ' ')" = '600 600 ' ] && passed=$((passed + 1)) || { failed=$((failed + 1)); echo 'modes of what is made'; }
chmod 644 out
printf 'more\n' >>in
again 'a mode that is kept' 0 "$(report 1 18 1 0 '' 0)" 'one\ntwo\nanother file\nmore\n' run c --once
[ "$(stat -c %a out)" = 644 ] && passed=$((passed + 1)) || { failed=$((failed + 1)); echo 'a mode that is kept'; }

# One program a store.
if command -v flock >/dev/null; then
    exec 9<>pos-in
    flock 9
    told='store pos-in: cannot open: in use by another program\n'
    again 'a store in use' 4 'cannot open store 0\n' 'one\ntwo\nanother file\nmore\n' run c --once
    exec 9>&-
fi

# A link to nothing isn't made anew, and one beside the store isn't followed.
rm -f pos-in out
ln -s nowhere pos-in
told='store pos-in: cannot open: a link to a file that is not there\n'
again 'a store that is a link to nothing' 4 'cannot open store 0\n' - run c --once
rm pos-in
printf 'mine' >target
ln -s target pos-in.new
again 'a link beside the store' 0 "$(report 2 18 2 0 '' 0)" 'another file\nmore\n' run c --once
[ "$(cat target)" = mine ] && passed=$((passed + 1)) || { failed=$((failed + 1)); echo 'a link beside the store was followed'; }
rm pos-in.new

# FIFOs are refused, and not waited for.
mkfifo fifo
told='file fifo: cannot open: not a regular file\n'
expect 'a FIFO as configuration' 3 'cannot read fifo\n' - run fifo --once
config fifo out >c5
told='source fifo: cannot open: not a regular file\n'
expect 'a FIFO as source' 4 'cannot open inlet 0\n' - run c5 --once
config in fifo >c6
told='destination fifo: cannot open: not a regular file or a character device\n'
expect 'a FIFO as destination' 4 'cannot open destination 0\n' - run c6 --once
rm -f pos-in out && mkfifo pos-in
told='store pos-in: cannot open: not a regular file\n'
again 'a FIFO as store' 4 'cannot open store 0\n' - run c --once
rm pos-in

# A disk-buffer's store is listed, and stays as it is. The entries are one of format 1 and one of format 2.
rm -f out
entry1='\1\0\0\0\057\1\1\0\0\0\0\0\0\0\0\0\0\0\4\15\0\0\0\0\0\0\0\0\0\0\0\0\0\1\0\0\0\7MESSAGE\0\0\0\3one'
entry2='\1\0\0\0\053\2\0\0\0\0\2\177\377\377\377\377\377\377\377\15\0\0\0\0\0\0\0\0\0\0\0\0\0\0\0\0\0\0\0\0\0\0\0\0\0\0\0\0'
listed='entry 0 source 0 end 4 flow yes length 47\n'

# list NAME ENTRIES STATUS SAID: of a store q with these bytes behind its first 64, a printf format
list() {
    { head -c 64 /dev/zero; printf "$2"; head -c 64 /dev/zero; } >q
    cp q q.before
    again "$1" "$3" "$4" - spool q
    cmp -s q q.before || { failed=$((failed + 1)); echo "$1: the store changed"; }
}

list 'an empty disk-buffer' '' 0 'entries 0\n'
about0='# entry 0 1970-01-01T00:00:00+00:00  : one\n'
told="$about0"'# entry 1 1970-01-01T00:00:00+00:00  : \n'
list 'a disk-buffer' "$entry1$entry2" 0 "${listed}entry 1 source 2 end 9223372036854775807 flow no length 43\nentries 2\n"
told=$about0
list 'a payload that is no entry' "$entry1\1\0\0\0\2ab" 5 "${listed}store 0 damaged at 116\n"
told=$about0'# found at 123 1970-01-01T00:00:00+00:00  : \n'
list 'an entry behind a damage' "$entry1\1\0\0\0\2ab$entry2" 5 "${listed}store 0 damaged at 116\n"
told='# found at 64 1970-01-01T00:00:00+00:00  : one\n'
list 'a gate that leads nowhere' "$entry1\1\0\1\0\0" 5 'store 0 damaged at 116\n'
ulimit -S -v 400000
list 'an entry of 1 GiB that is not there' '\1\100\0\0\0\2ab' 5 'store 0 damaged at 64\n'
ulimit -S -v unlimited
told='store none: cannot open: No such file or directory (os error 2)\n'
again 'no disk-buffer' 4 'cannot open store 0\n' - spool none
[ ! -e none ] && passed=$((passed + 1)) || { failed=$((failed + 1)); echo 'no disk-buffer: it was made'; }
told='store sub: cannot open: not a regular file\n'
again 'a folder as disk-buffer' 4 'cannot open store 0\n' - spool sub
again 'a list of two' 1 "$usage" - spool q q
if command -v flock >/dev/null; then
    exec 9<>q
    flock 9
    told='store q: cannot open: in use by another program\n'
    again 'a disk-buffer in use' 4 'cannot open store 0\n' - spool q
    exec 9>&-
fi
if [ -w /dev/full ]; then
    "$program" spool q >/dev/full 2>errors
    if [ $? = 10 ] && [ ! -s errors ]; then passed=$((passed + 1)); else failed=$((failed + 1)); echo 'a list to a full standard output: not status 10'; fi
fi

# Standard output and standard error may be pipes without a reader.
{ sleep 0.3; "$program" --help; echo $? >ended; } 2>errors | :
if [ "$(cat ended)" = 10 ] && [ ! -s errors ]; then passed=$((passed + 1)); else failed=$((failed + 1)); echo 'a standard output without a reader: not status 10'; fi
{ sleep 0.3; "$program" check none >said; echo $? >ended; } 2>&1 | :
if [ "$(cat ended)" = 3 ] && [ "$(cat said)" = 'cannot read none' ]; then passed=$((passed + 1)); else failed=$((failed + 1)); echo 'a standard error without a reader: not status 3'; fi
rm ended

bench=$top/crates/bench_parts/out/bench_parts
if [ -x "$bench" ]; then
    "$bench" spool made 100 30 && "$program" spool made >said 2>errors
    [ $? = 0 ] && { seq -f 'entry %.0f source 0 end 4 flow yes length 200' 0 2999; echo 'entries 3000'; } | cmp -s - said && passed=$((passed + 1)) || { failed=$((failed + 1)); echo 'a disk-buffer of 3,000 entries: not the same'; }
fi

# A full disk has whole lines alone, and once it has space again the lines go on behind them, from the stored position on: none is
# torn, and none is missing.
mkdir small
if mount -t tmpfs -o size=16k none small 2>/dev/null; then
    mounted=yes
    head -c 9000 /dev/zero >small/filler
    seq -f 'line %05g' 1 700 >in
    config in small/out >c7
    timeout 60 "$program" run c7 --once >said 2>errors
    [ $? = 6 ] && head -n "$(grep -c '' small/out)" in | cmp -s - small/out && passed=$((passed + 1)) || { failed=$((failed + 1)); echo 'a full disk: no whole lines'; }
    rm small/filler
    timeout 60 "$program" run c7 --once >said 2>errors
    [ $? = 0 ] && sort -u small/out | cmp -s - in && passed=$((passed + 1)) || { failed=$((failed + 1)); echo 'space again: a torn line, or one that is missing'; }
    umount small && mounted=
fi

# A disk that fills up breaks a disk-buffer whose file grows, and not one whose file was made whole.
if [ -w /dev/full ] && mount -t tmpfs -o size=4m none small 2>/dev/null; then
    mounted=yes
    for whole in no yes; do
        rm -f pos-* small/* dead
        ln -s /dev/full dead
        config in dead | sed "$buffer" | sed "s/reliable(yes)/& dir(\"small\") prealloc($whole)/" >c9
        printf 'one\n' >in
        told=$nospace
        again "a disk-buffer before the disk is full, prealloc($whole)" 6 "$(report 1 4 0 1 'fault sink 0\n' 6)" - run c9 --once
        head -c 8000000 /dev/zero >small/filler 2>/dev/null
        seq 1 1000 >>in
        timeout 60 "$program" run c9 --once >said 2>errors
        case $whole in
            no) grep -q '^fault store 1$' said ;;
            yes) grep -q ' left 1001$' said && ! grep -q '^fault store' said ;;
        esac && passed=$((passed + 1)) || { failed=$((failed + 1)); echo "a disk-buffer on a full disk, prealloc($whole):"; cat said errors; }
    done
    umount small && mounted=
fi

# start_run WORD..: starts a run that goes on, and leaves its process in $process.
start_run() {
    timeout 60 "$program" "$@" >said 2>errors &
    process=$!
}

# same NAME WANTED FILE: whether the file comes to hold this, a printf format, within ten seconds
same() {
    printf "$2" >same.wanted
    for _ in $(seq 100); do
        cmp -s same.wanted "$3" && break
        sleep 0.1
    done
    if cmp -s same.wanted "$3"; then passed=$((passed + 1)); else failed=$((failed + 1)); echo "$1:"; cat "$3" errors; fi
}

# comes NAME PATTERN: whether the run comes to tell a line that is this, a basic regular expression, behind its moment, within ten seconds
comes() {
    for _ in $(seq 100); do
        grep -q "^$moment $2\$" errors && break
        sleep 0.1
    done
    if grep -q "^$moment $2\$" errors; then passed=$((passed + 1)); else failed=$((failed + 1)); echo "$1:"; cat errors; fi
}
moment='20[0-9-]*T[0-9:]*+00:00'

# merged NAME FILE WANTED..: whether the file holds the lines of each WANTED, printf formats, in order, and no others. Which of two
# sources comes first is free, since they take their turns at the same time.
merged() {
    name=$1 file=$2 lines=0 good=yes
    shift 2
    for part; do
        printf "$part" >merged.wanted
        lines=$((lines + $(grep -c '' merged.wanted)))
        grep -xFf merged.wanted "$file" | cmp -s - merged.wanted || good=no
    done
    [ "$(grep -c '' "$file")" = "$lines" ] || good=no
    if [ $good = yes ]; then passed=$((passed + 1)); else failed=$((failed + 1)); echo "$name:"; cat "$file"; fi
}

# The examples. The first one is that of README.md.
mkdir -p examples/first examples/blocks
cp "$top/examples/first/errors.conf" "$top/examples/first/in.log" examples/first
cp "$top/examples/blocks/copy.conf" "$top/examples/blocks/blocks.conf" "$top/examples/blocks/in.log" examples/blocks
full='2026-02-05T17:32:18+01:00 app: disk is full\n'
told=$(waits examples/first/errors.conf 632 10100)
expect 'the first example is checked' 0 'examples/first/errors.conf: ok\n' - check examples/first/errors.conf
told='# destination 0 is d: file("examples/first/out.log" template("$ISODATE $PROGRAM: $MSG\\n"))\n'
expect 'the first example is traced' 0 "record 0 destination 0 flow yes length 44\n$full\n" - trace examples/first/errors.conf s examples/first/in.log
expect 'the first example is run' 0 'source 0 records 2 bad-frames 0 position 98\ndestination 0 taken 1 dropped-full 0 dropped-disk 0 left 0\nstatus 0\n' - run examples/first/errors.conf --once
same 'what the first example writes' "$full" examples/first/out.log
again 'the first example again' 0 'source 0 records 0 bad-frames 0 position 98\ndestination 0 taken 0 dropped-full 0 dropped-disk 0 left 0\nstatus 0\n' - run examples/first/errors.conf --once
expect 'the example with blocks' 0 'source 0 records 3 bad-frames 0 position 75\ndestination 0 taken 3 dropped-full 0 dropped-disk 0 left 0\nstatus 0\n' - run examples/blocks/copy.conf --once
same 'what the example with blocks writes' "$(cat examples/blocks/in.log)\n" examples/blocks/out.log
first="$(date -u +%Y)-02-05T18:32:18+01:00 web sshd: failed N times\n"
second='<11>Feb  5 18:32:18 localhost sshd[42]: failed 3 times\n'
third='<14>Feb  5 18:32:19 localhost app: started\n'
fourth='Feb  5 18:32:20 localhost app: 7 rows\n'
told='# destination 0 is d_errors: file("errors.log" template(t_plain))\n# destination 1 is d_all: network("10.0.0.1" port(514) disk-buffer(reliable(yes) disk-buf-size(2097152)))\n# destination 2 is file("debug.log")\n'
expect 'the example with log paths' 0 "record 0 destination 0 flow yes length 51\n$first\nrecord 0 destination 1 flow no length 55\n$second\nrecord 1 destination 1 flow no length 43\n$third\nrecord 2 destination 2 flow no length 38\n$fourth\n" - trace "$top/examples/trace/paths.conf" s_local "$top/examples/trace/in.log"
told='# destination 0 is d_users: file("users.log" template("${access.USER} ${access.URL}\\n"))\n# destination 1 is d_jobs: file("jobs.log" template("${job.name} took ${job.seconds}\\n"))\n'
expect 'the example with parsers' 0 'record 0 destination 0 flow no length 12\nann /a page\n\nrecord 3 destination 1 flow no length 21\nnightly copy took 12\n\n' - trace "$top/examples/parsers/access.conf" s_local "$top/examples/parsers/in.log"

# Files that messages name: where one can't be written the messages before it are taken, and it waits with those behind it.
named() {
    printf '@version: 4.2\noptions { keep-hostname(yes); };\nsource s { file("in"); };\ndestination d { file("%s" template("$MSG\\n")); };\nlog { source(s); destination(d); flags(flow-control); };\n' "$1"
}
of_hosts() {
    for host in "$@"; do
        printf '<13>Oct 11 22:14:15 %s app: of %s\n' $host $host
    done
}
rm -rf named out pos-* id-*
mkdir -p named/one
named 'named/$HOST/log' >c4
of_hosts one none one >in
lacks='destination named/none/log: cannot open: No such file or directory (os error 2)\n'
told=$lacks
expect 'a folder that a message lacks' 6 "$(report 3 36 1 2 'fault sink 0\n' 6)" - run c4 --once
same 'the file before it' 'of one\n' named/one/log
mkdir named/none
again 'once the folder is there' 0 "$(report 2 110 2 0 '' 0)" - run c4 --once
same 'the file that lacked it' 'of none\n' named/none/log
same 'the file before and behind it' 'of one\nof one\n' named/one/log
if [ -w /dev/full ]; then
    named '/dev/$HOST' >c4
    of_hosts null full null >in
    told='destination /dev/full: cannot write: No space left on device (os error 28)\n'
    expect 'a full disk that a message names' 6 "$(report 3 38 1 2 'fault sink 0\n' 6)" - run c4 --once
fi
rm -rf named pos-* id-*

# The same beside a destination that goes on, with records of two files in turn. While one of the files has no room, or may not be made,
# the other destination gets as many records as the source's window lets in; behind it none is torn, missing or out of order.
beside() {
    named "$1" | sed 's/^log .*/destination e { file("all" template("$MSG\\n")); };\n&/; s/destination(d);/& destination(e);/'
}
in_turn() {
    awk -v one="$1" -v two="$2" 'BEGIN { for (k = 0; k < 600; k++) printf "<13>Oct 11 22:14:15 %s app: line %05d\n", k % 2 ? two : one, k }'
}
both() {
    printf 'source 0 records %s bad-frames 0 position %s\\ndestination 0 taken %s dropped-full 0 dropped-disk 0 left %s\\n' "$1" "$2" "$3" "$4"
    printf 'destination 1 taken %s dropped-full 0 dropped-disk 0 left 0\\n%sstatus %s\\n' "$1" "$5" "$6"
}
# each NAME FILE [HOST]: whether the file has the text of each record, of a host or of all, in their order, but for some that stand there again
each() {
    sed -n "s/.* $3.*app: //p" in >each.wanted
    if awk '!seen[$0]++' "$2" | cmp -s - each.wanted; then passed=$((passed + 1)); else failed=$((failed + 1)); echo "$1:"; head "$2"; fi
}
rm -f all out
if mount -t tmpfs -o size=16k none small 2>/dev/null; then
    mounted=yes
    head -c 9000 /dev/zero >small/filler
    beside 'small/$HOST' >c4
    in_turn one two >in
    told='destination small/two: cannot write: No space left on device (os error 28)\n'
    again 'a full disk below files that messages name' 6 "$(both 101 40 1 100 'fault sink 0\n' 6)" - run c4 --once
    same 'what had its room' 'line 00000\n' small/one
    [ ! -s small/two ] && [ "$(grep -c '^line .....$' all)" = 101 ] && passed=$((passed + 1)) || { failed=$((failed + 1)); echo 'a full disk below files that messages name: a torn line, or more than the window'; }
    rm small/filler
    again 'space again below such files' 0 "$(both 599 24000 599 0 '' 0)" - run c4 --once
    each 'the file that had its room' small/one one
    each 'the file that had none' small/two two
    each 'the file on another disk' all
    umount small && mounted=
fi
rm -f all pos-* id-*

# A user who may not make files in one of the folders.
printf '#!/bin/sh\nexec setpriv --reuid=65534 --regid=65534 --clear-groups "%s" "$@"\n' "$(realpath "$program")" >nobody
chmod 755 nobody
if [ "$(id -u)" = 0 ] && chown 65534 . && ./nobody --help >/dev/null 2>&1; then
    users=$program program=./nobody
    mkdir closed open
    chown 65534 open
    beside '$HOST/log' >c4
    in_turn open closed >in
    denied='destination closed/log: cannot open: Permission denied (os error 13)\n'
    told=$denied
    again 'a folder without leave' 6 "$(both 101 41 1 100 'fault sink 0\n' 6)" - run c4 --once
    same 'the file in another folder' 'line 00000\n' open/log
    chown 65534 closed
    again 'the folder with leave' 0 "$(both 599 25200 599 0 '' 0)" - run c4 --once
    each 'the file in a folder with leave' open/log open
    each 'the file in the folder that had none' closed/log closed
    each 'the file of all' all
    rm -rf closed/* pos-* id-*
    chown 0 closed
    beside 'closed/$HOST/log' | sed 's/"closed[^)]*)/& create-dirs(yes)/' >c5
    denied='destination closed/open/log: cannot open: Permission denied (os error 13)\n'
    told=$denied
    again 'a folder that may not be made' 6 "$(both 100 0 0 100 'fault sink 0\n' 6)" - run c5 --once
    [ -z "$(ls -A closed)" ] && passed=$((passed + 1)) || { failed=$((failed + 1)); echo 'a folder that may not be made: it was'; }
    # One path is opened at the start: nothing is read, and nothing written.
    rm -rf all pos-* id-*
    beside 'closed/log' >c6
    told='destination closed/log: cannot open: Permission denied (os error 13)\n'
    again 'a file that may not be made' 4 'cannot open destination 0\n' - run c6 --once
    [ ! -e all ] && passed=$((passed + 1)) || { failed=$((failed + 1)); echo 'a file that may not be made: the other one was'; }
    program=$users
    chown 0 .
fi
rm -rf nobody closed open all pos-* id-*

# A file for each host and day, and one for each program: folders are made with their mode, and no host leaves its folder.
mkdir -p examples/hosts
cp "$top/examples/hosts/hosts.conf" "$top/examples/hosts/in.log" examples/hosts
expect 'the example with hosts' 0 'source 0 records 5 bad-frames 0 position 281\ndestination 0 taken 5 dropped-full 0 dropped-disk 0 left 0\ndestination 1 taken 2 dropped-full 0 dropped-disk 0 left 0\nstatus 0\n' - run examples/hosts/hosts.conf --once
hosts=examples/hosts/out
same 'a host on a day' '2026-02-05T17:32:18+00:00 app: 7 rows\n2026-02-05T17:32:20+00:00 app: disk is full\n' $hosts/web/2026-02-05.log
same 'a host on the next day' '2026-02-06T00:00:01+00:00 app: 8 rows\n' $hosts/web/2026-02-06.log
same 'another host' '2026-02-05T17:32:19+00:00 postfix: queue is empty\n' $hosts/mail/2026-02-05.log
same 'a host that would leave its folder' '2026-02-06T00:00:02+00:00 cron: a host that would like to leave\n' $hosts/_._.._etc/2026-02-06.log
same 'a program' '2026-02-05T17:32:20+00:00 app: disk is full\n' $hosts/errors-app.log
[ "$(stat -c %a $hosts/web)" = 750 ] && passed=$((passed + 1)) || { failed=$((failed + 1)); echo 'the mode of a folder'; }
head -1 examples/hosts/in.log >examples/hosts/one.log
told='# destination 0 is d_hosts: file("examples/hosts/out/$HOST/$YEAR-$MONTH-$DAY.log" template(t_line) create-dirs(yes) dir-perm(0750))\n# destination 1 is d_errors: file("examples/hosts/out/errors-${PROGRAM:-none}.log" template(t_line) create-dirs(yes))\n'
expect 'the path of a message' 0 'record 0 destination 0 flow yes path examples/hosts/out/web/2026-02-05.log length 38\n2026-02-05T17:32:18+00:00 app: 7 rows\n\n' - trace examples/hosts/hosts.conf s_all examples/hosts/one.log

# Two sources, three destinations and filters.
rm -f pos-*
cat >several <<'END'
@version: 4.2
source s_a { file("a.log" flags(no-parse)); };
source s_b { file("b.log" flags(no-parse)); };
filter f_error { message("error"); };
destination d_all { file("all" template("$MSG\n")); };
destination d_error { file("error.log" template("E $MSG\n")); };
destination d_b { file("b.out" template("$MSG\n")); };
log { source(s_a); source(s_b); destination(d_all); flags(flow-control); };
log { source(s_a); source(s_b); filter(f_error); destination(d_error); };
log { source(s_b); destination(d_b); };
END
printf 'one\nan error\ntwo\n' >a.log
printf 'three\nerror four\n' >b.log
expect 'two sources and three destinations' 0 'source 0 records 3 bad-frames 0 position 17\nsource 1 records 2 bad-frames 0 position 17\ndestination 0 taken 5 dropped-full 0 dropped-disk 0 left 0\ndestination 1 taken 2 dropped-full 0 dropped-disk 0 left 0\ndestination 2 taken 2 dropped-full 0 dropped-disk 0 left 0\nstatus 0\n' - run several --once
merged 'what two sources give' all 'one\nan error\ntwo\n' 'three\nerror four\n'
merged 'what a filter lets through' error.log 'E an error\n' 'E error four\n'
same 'what one source gives' 'three\nerror four\n' b.out
# In the second round all is taken that came in in the first one.
printf 'x\n' >>a.log
rm all
expect 'two rounds' 9 'source 0 records 4 bad-frames 0 position 0\nsource 1 records 2 bad-frames 0 position 0\ndestination 0 taken 6 dropped-full 0 dropped-disk 0 left 0\ndestination 1 taken 2 dropped-full 0 dropped-disk 0 left 0\ndestination 2 taken 2 dropped-full 0 dropped-disk 0 left 0\nstatus 9\n' - run several --once --rounds 2
merged 'what two rounds give' all 'one\nan error\ntwo\nx\n' 'three\nerror four\n'

# A file is followed.
rm -f out pos-*
printf 'one\n' >in
start_run run c
same 'a file that is followed' 'one\n' out
printf 'two\n' >>in
same 'a file that grows' 'one\ntwo\n' out
kill $process && wait $process 2>/dev/null

# Counts are told while a run goes on, and once more before it ends.
sed '1s/$/\noptions { stats(freq(60)); };/' c >counted
printf 'one\ntwo\n' >in
told='source 0 records 2 bad-frames 0 position 8\ndestination 0 taken 2 dropped-full 0 dropped-disk 0 left 0\n'
expect 'counts before the end' 0 "$(report 2 8 2 0 '' 0)" 'one\ntwo\n' run counted --once
sed -i 's/freq(60)/freq(1)/' counted
start_run run counted
printf 'three\n' >>in
comes 'counts of a file' 'source 0 records 1 bad-frames 0 position 14'
comes 'counts of its copy' 'destination 0 taken 1 dropped-full 0 dropped-disk 0 left 0'
kill $process && wait $process 2>/dev/null

# Peers of connections, each on a port that was free.
cat >peer.py <<'END'
"""peer.py port: a free port.
peer.py send PORT FILE: opens a connection, and gives the file's bytes by it.
peer.py take PORT LINES FILE: accepts one connection, takes so many lines, and closes. FILE.listens is there once it listens.
peer.py give PORT COUNT LINES: opens so many connections, and gives so many lines by each."""
import socket, sys, time
def connected(port):
    while True:
        try:
            return socket.create_connection(("127.0.0.1", port))
        except OSError:
            time.sleep(0.05)
if sys.argv[1] == "port":
    with socket.socket() as s:
        s.bind(("127.0.0.1", 0))
        print(s.getsockname()[1])
elif sys.argv[1] == "send":
    with connected(int(sys.argv[2])) as peer:
        peer.sendall(open(sys.argv[3], "rb").read())
elif sys.argv[1] == "take":
    with socket.socket() as s:
        s.setsockopt(socket.SOL_SOCKET, socket.SO_REUSEADDR, 1)
        s.bind(("127.0.0.1", int(sys.argv[2])))
        s.listen()
        open(sys.argv[4] + ".listens", "wb").close()
        peer, _ = s.accept()
        s.close()
        got = b""
        while got.count(b"\n") < int(sys.argv[3]):
            piece = peer.recv(65536)
            if not piece:
                break
            got += piece
        peer.close()
        open(sys.argv[4], "wb").write(got)
else:
    count, lines = int(sys.argv[3]), int(sys.argv[4])
    peers = [connected(int(sys.argv[2])) for _ in range(count)]
    for k in range(lines):
        for n, peer in enumerate(peers):
            peer.sendall(b"peer %d line %d\n" % (n, k))
    for peer in peers:
        peer.close()
END
if command -v python3 >/dev/null; then
    # The configuration of Debian, in another folder and on other ports.
    rm -f pos-*
    mkdir debian
    printf 'a package\n' >debian/dpkg.log
    port=$(python3 peer.py port)
    sed "s|^@define logs .*|@define logs debian|; s|^@define lines_port .*|@define lines_port $port|; s|^@define counted_port .*|@define counted_port $(python3 peer.py port)|" syslogr.conf >debian.conf
    start_run run debian.conf
    timeout 60 python3 peer.py send "$port" in.log
    same 'the file of auth' "$accepted" debian/auth.log
    same 'the file of all but auth and mail' "$cron$error" debian/syslog
    same 'the file of errors' "$error" debian/error
    same 'the file of what is being debugged' "$debug" debian/debug
    [ "$(stat -c %a debian/auth.log)" = 640 ] && grep -q ' a package$' debian/dpkg.received && passed=$((passed + 1)) || { failed=$((failed + 1)); echo 'the file of packages, or the mode of what is made'; }
    kill $process && wait $process 2>/dev/null

    # A peer that goes away and comes back.
    rm -f pos-*
    port=$(python3 peer.py port)
    printf '@version: 4.2\nsource s { file("in" flags(no-parse)); };\ndestination d { network("127.0.0.1" port(%s) template("$MSG\\n") time-reopen(1)); };\nlog { source(s); destination(d); flags(flow-control); };\n' "$port" >tcp
    printf 'one\ntwo\n' >in
    timeout 60 python3 peer.py take "$port" 2 first &
    peer=$!
    start_run run tcp
    wait $peer
    same 'what a peer gets' 'one\ntwo\n' first
    printf 'three\n' >>in
    sleep 2
    timeout 60 python3 peer.py take "$port" 1 second &
    wait $!
    same 'what it gets once it is back' 'three\n' second
    kill $process && wait $process 2>/dev/null

    # Nobody listens on the port.
    rm -f out pos-* queue-*
    refused="destination 127.0.0.1:$port: cannot connect: Connection refused (os error 111)\n"
    tcp="3s/file(\"out\"/network(\"127.0.0.1\" port($port)/"
    config in out | sed -e "$window" -e "$tcp" >windowed
    seq 1 150 >in
    told=$refused
    again 'the window of a peer that is away' 6 "$(report 100 0 0 100 'fault sink 0\n' 6)" - run windowed --once

    # A disk-buffer holds what comes while its peer is away.
    config in out | sed -e "$buffer" -e "$tcp" >buffered
    printf 'one\n' >in
    told=$refused
    again 'a peer that is away' 6 "$(report 1 4 0 1 'fault sink 0\n' 6)" - run buffered --once
    timeout 60 python3 peer.py take "$port" 1 one &
    peer=$!
    until [ -e one.listens ] || ! kill -0 $peer 2>/dev/null; do sleep 0.1; done
    again 'then one that listens' 0 "$(report 0 4 1 0 '' 0)" - run buffered --once
    wait $peer
    same 'what a disk-buffer held' 'one\n' one
    rm -f pos-* queue-*
    seq -f 'line %.0f' 1 300 >in
    timeout 60 "$program" run buffered --once >said 2>errors
    [ $? = 6 ] && grep -q '^source 0 records 300 bad-frames 0 position 2592$' said && grep -q '^destination 0 taken 0 dropped-full 0 dropped-disk 0 left 300$' said && passed=$((passed + 1)) || { failed=$((failed + 1)); echo 'a disk-buffer without a peer:'; cat said errors; }
    "$program" spool "queue-network,127.0.0.1,$port" >said 2>errors
    [ $? = 0 ] && tail -n 1 said | grep -q '^entries 300$' && passed=$((passed + 1)) || { failed=$((failed + 1)); echo 'the entries of a disk-buffer:'; tail -n 3 said; cat errors; }
    timeout 60 python3 peer.py take "$port" 300 third &
    peer=$!
    until [ -e third.listens ] || ! kill -0 $peer 2>/dev/null; do sleep 0.1; done
    timeout 60 "$program" run buffered --once >said 2>errors
    [ $? = 0 ] && wait $peer && cmp -s in third && passed=$((passed + 1)) || { failed=$((failed + 1)); echo 'a disk-buffer with its peer back:'; cat said errors; }

    # Counts of two connections to a listener, and of a peer that is away and comes back.
    rm -f queue-* first
    given=$(python3 peer.py port)
    printf '@version: 4.2\noptions { stats-freq(1); };\nsource s { network(ip("127.0.0.1") port(%s) max-connections(2) flags(no-parse)); };\ndestination d { network("127.0.0.1" port(%s) template("$MSG\\n") time-reopen(1)); };\nlog { source(s); destination(d); };\n' "$given" "$port" >away
    start_run run away
    timeout 60 python3 peer.py give "$given" 2 2
    comes 'counts of a listener' 'source 0 records 4 bad-frames 0'
    comes 'counts of a peer that is away' "destination 0 taken 0 dropped-full 0 dropped-disk 0 left 4 oldest [1-9] fails-since $moment"
    timeout 60 python3 peer.py take "$port" 4 first &
    comes 'counts of a peer that is back' 'destination 0 taken 4 dropped-full 0 dropped-disk 0 left 0'
    kill $process && wait $process 2>/dev/null

    # A usual distribution file, with the files of this folder.
    port=$(python3 peer.py port)
    sed -e "s/5514/$port/" -e 's|/var/log/||' dist >here
    printf '<38>Feb  5 17:32:18 h1 sshd[811]: Accepted\n<11>Feb  5 17:32:19 h1 app: broken\n<15>Feb  5 17:32:20 h1 app: probe\n' >records
    rm -f out pos-*
    timeout 60 python3 peer.py send "$port" records &
    timeout 60 python3 peer.py give "$port" 9 0 &
    told=$(warned_of_options here)
    again 'a distribution file runs' 0 'source 0 records 3 bad-frames 0\ndestination 0 taken 1 dropped-full 0 dropped-disk 0 left 0\ndestination 1 taken 1 dropped-full 0 dropped-disk 0 left 0\ndestination 2 taken 1 dropped-full 0 dropped-disk 0 left 0\nstatus 0\n' - run here --once
    same 'its auth.log' 'Feb  5 17:32:18 127.0.0.1 sshd[811]: Accepted\n' auth.log
    same 'its syslog' 'Feb  5 17:32:19 127.0.0.1 app: broken\n' syslog
    same 'its error' 'Feb  5 17:32:19 127.0.0.1 app: broken\n' error
    [ "$(stat -c %a auth.log syslog error | tr '\n' ' ')" = '640 640 640 ' ] && passed=$((passed + 1)) || { failed=$((failed + 1)); echo 'modes by perm()'; }

    # Eight connections at once.
    rm -f out
    port=$(python3 peer.py port)
    printf '@version: 4.2\nsource s { network(ip("127.0.0.1") port(%s) max-connections(8) flags(no-parse)); };\ndestination d { file("out" template("$MSG\\n")); };\nlog { source(s); destination(d); flags(flow-control); };\n' "$port" >eight
    timeout 60 python3 peer.py give "$port" 8 500 &
    timeout 60 "$program" run eight --once >said 2>errors
    [ $? = 0 ] && grep -q '^source 0 records 4000 bad-frames 0$' said && passed=$((passed + 1)) || { failed=$((failed + 1)); echo 'eight connections:'; cat said errors; }
    for n in 0 1 2 3 4 5 6 7; do seq -f "peer $n line %.0f" 0 499; done >wanted
    for n in 0 1 2 3 4 5 6 7; do grep "^peer $n " out; done >got
    cmp -s wanted got && passed=$((passed + 1)) || { failed=$((failed + 1)); echo 'eight connections: not the same lines, or out of order'; }
fi

rm -f out pos-*
seq 1 100000 >in
"$program" run c --once >/dev/null
if cmp -s in out; then passed=$((passed + 1)); else failed=$((failed + 1)); echo 'a hundred thousand lines: not the same'; fi

echo "$passed passed, $failed failed"
[ $failed = 0 ]
