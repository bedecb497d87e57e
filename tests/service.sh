#!/bin/sh
# service.sh ROOT [PROGRAM]: the unit of examples/systemd and the program, under a systemd that is the first process of a container: what it may
# open, when it is started again and when not. Not in the gate: it wants root, systemd-nspawn and a Debian in the folder ROOT, as this makes it:
#     debootstrap --variant=minbase --include=systemd,systemd-sysv,dbus bookworm ROOT
. "$(dirname "$0")/container.sh"

outside() {
    top=$(cd "$(dirname "$0")/.." && pwd)
    root=$1 program=${2:-$top/crates/sg_top/out/sg_top}
    [ -x "$root/usr/lib/systemd/systemd" ] || { echo "no systemd in $root"; exit 2; }
    rm -rf "$root/var/lib/syslogr" "$root/var/log/syslogr" "$root/var/log/app" "$root/srv/logs" "$root/root/peer" "$root/etc/systemd/system/syslogr.service.d" "$root/root/said"
    mkdir -p "$root/etc/syslogr" "$root/etc/sysusers.d" "$root/usr/local/sbin"
    install "$program" "$root/usr/local/sbin/syslogr" || exit 2
    cp "$top/examples/systemd/syslogr.service" "$root/etc/systemd/system/" || exit 2
    cp "$top/examples/systemd/sysusers.conf" "$root/etc/sysusers.d/syslogr.conf" || exit 2
    sed 's|^@define logs .*|@define logs "/var/log/syslogr"|; s|"`logs`/dpkg.log"|"/var/log/dpkg.log"|' "$top/examples/debian/syslogr.conf" >"$root/root/debian.conf" || exit 2
    boot "$root" "$0"
}

# begins LINE..: the service is started anew, over a configuration that has these lines beside its version
begins() {
    { echo '@version: 4.2'; printf '%s\n' "$@"; } >/etc/syslogr/syslogr.conf
    starts
}

starts() {
    systemctl stop syslogr
    systemctl reset-failed syslogr 2>/dev/null
    sleep 1
    began=$(date '+%F %T')
    systemctl start syslogr 2>/dev/null
}

inside() {
    file='source s_file { file("/var/log/app/in.log" flags(no-parse)); };'
    listener='source s_net { network(ip("127.0.0.1") port(514) flags(no-parse)); };'
    out='destination d_file { file("/var/log/syslogr/out.log" template("$MSG\n") perm(0640)); };'
    peer='destination d_peer { network("localhost" port(5140) template("$MSG\n") time-reopen(1) disk-buffer(reliable(yes) disk-buf-size(1048576))); };'
    path='log { source(s_file); source(s_net); destination(d_file); destination(d_peer); flags(flow-control); };'
    one='log { source(s_file); destination(d_file); flags(flow-control); };'
    grep -qs localhost /etc/hosts || echo 127.0.0.1 localhost >>/etc/hosts
    # another user's file, in a folder that the group adm alone may enter
    mkdir -m 750 /var/log/app
    echo one >/var/log/app/in.log
    chmod 640 /var/log/app/in.log
    chown -R daemon:adm /var/log/app
    systemd-sysusers syslogr.conf

    check 'the unit is one' sh -c '[ -z "$(systemd-analyze verify --man=no syslogr.service 2>&1)" ]'
    begins "$file" "$listener" "$out" "$peer" "$path"
    check 'it runs' is ActiveState active
    check 'the memory that it may take' is MemoryMax 2147483648
    check 'a file of another user' has one /var/log/syslogr/out.log
    check 'the mode of perm()' mode /var/log/syslogr/out.log 640
    check 'the position store' mode /var/lib/syslogr/pos-_2fvar_2flog_2fapp_2fin.log 600
    check 'the disk-buffer' mode /var/lib/syslogr/queue-network,localhost,5140 600
    echo two >/var/log/app/in.log.new
    cat /var/log/app/in.log.new >>/var/log/app/in.log
    check 'a line more' has two /var/log/syslogr/out.log
    check 'a port below 1024' bash -c 'echo by the port >/dev/tcp/127.0.0.1/514'
    check 'a record of a connection' has 'by the port' /var/log/syslogr/out.log
    check 'a peer that is away' told 'cannot connect'
    receive 5140 /root/peer
    check 'what waited for it' has 'by the port' /root/peer
    # many lines from both at the same time
    seq 1 3000 >>/var/log/app/in.log
    bash -c 'seq 3001 6000 >/dev/tcp/127.0.0.1/514'
    check 'many lines at the same time' sh -c '[ "$(grep -cE "^[0-9]+$" /var/log/syslogr/out.log)" = 6000 ]'
    check 'and over the disk-buffer' sh -c '[ "$(grep -cE "^[0-9]+$" /root/peer)" = 6000 ]'
    check 'files open at once' sh -c 'grep -q "^Max open files *1024 *1024 " /proc/$(systemctl show syslogr -P MainPID)/limits'

    systemctl kill -s KILL syslogr
    echo three >>/var/log/app/in.log
    check 'killed, it is started again' restarted
    check 'and goes on' has three /var/log/syslogr/out.log
    check 'where it was' [ "$(grep -c one /var/log/syslogr/out.log)" = 1 ]
    # as logrotate does it by examples/logrotate
    mv /var/log/syslogr/out.log /var/log/syslogr/out.log.1
    systemctl try-restart syslogr.service
    echo rotated >>/var/log/app/in.log
    check 'a line behind a rotation' has rotated /var/log/syslogr/out.log
    check 'in a file of the mode of perm()' mode /var/log/syslogr/out.log 640
    check 'and not in the old one' sh -c '! grep -q rotated /var/log/syslogr/out.log.1'
    systemctl stop syslogr
    check 'it ends at SIGTERM' is ActiveState inactive
    check 'which is no failure' is Result success

    begins 'source s_file { fil("/var/log/app/in.log"); };' "$out" "$one"
    check 'status 2' is ExecMainStatus 2
    check 'the fault, in the journal' told '/etc/syslogr/syslogr.conf:2: '
    sleep 7
    check 'isn'"'"'t started again' is NRestarts 0
    check 'but has failed' is ActiveState failed

    begins 'source s_file { file("/var/log/app/later.log" flags(no-parse)); };' "$out" "$one"
    check 'status 4' is ExecMainStatus 4
    check 'the device, in the journal' told 'source /var/log/app/later.log'
    check 'is started again' restarted
    echo later >/var/log/app/later.log
    check 'until the file is there' has later /var/log/syslogr/out.log
    check 'and runs' is ActiveState active

    mkdir -p /srv/logs
    begins "$file" 'destination d_file { file("/srv/logs/out.log" template("$MSG\n")); };' "$one"
    check 'another folder' told 'Read-only file system'
    mkdir -p /etc/systemd/system/syslogr.service.d
    printf '[Service]\nReadWritePaths=/srv/logs\n' >/etc/systemd/system/syslogr.service.d/folders.conf
    systemctl daemon-reload
    begins "$file" 'destination d_file { file("/srv/logs/out.log" template("$MSG\n")); };' "$one"
    check 'which another user has' told 'Permission denied'
    chown syslogr:adm /srv/logs
    echo four >>/var/log/app/in.log
    check 'with its line' has four /srv/logs/out.log

    chmod 600 /var/log/app/in.log
    begins "$file" "$out" "$one"
    check 'a file that it may not read' told 'Permission denied'
    chmod 640 /var/log/app/in.log
    check 'until it may' is ActiveState active

    cp /root/debian.conf /etc/syslogr/syslogr.conf
    echo five >>/var/log/dpkg.log
    starts
    check 'a port of Debian'"'"'s configuration' bash -c 'echo "<34>Oct 11 22:14:15 h su[7]: six" >/dev/tcp/127.0.0.1/514'
    check 'its record' has 'su[7]: six' /var/log/syslogr/auth.log
    check 'the mode of its files' mode /var/log/syslogr/auth.log 640
    check 'its file' has five /var/log/syslogr/dpkg.received

    systemctl stop syslogr
    check 'little of the machine is open to it' safe
    conclude
}

if [ $# -gt 0 ]; then outside "$@"; else inside; fi
