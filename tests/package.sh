#!/bin/sh
# package.sh ROOT [PROGRAM]: the Debian package, in a container whose first process is systemd: installed, its service with records by TCP,
# rotation, an upgrade while entries wait in a disk-buffer, removal and purge. Not in the gate: it wants root, systemd-nspawn and a
# Debian in the folder ROOT, as this makes it:
#     debootstrap --variant=minbase --include=systemd,systemd-sysv,dbus,logrotate bookworm ROOT
. "$(dirname "$0")/container.sh"

outside() {
    top=$(cd "$(dirname "$0")/.." && pwd)
    root=$1 program=${2:-$top/crates/sg_top/out/sg_top}
    [ -x "$root/usr/lib/systemd/systemd" ] || { echo "no systemd in $root"; exit 2; }
    rm -rf "$root/var/lib/syslogr" "$root/var/log/syslogr" "$root/etc/syslogr" "$root/etc/systemd/system/syslogr.service" "$root/etc/systemd/system/syslogr.service.d" "$root/root/"*.deb "$root/root/said"
    chroot "$root" dpkg --purge syslogr >/dev/null 2>&1
    room=$(mktemp -d) || exit 2
    mkdir "$room/first" "$room/again"
    "$top/packaging/deb" "$program" "$room/first" >/dev/null && "$top/packaging/deb" "$program" "$room/again" >/dev/null || exit 1
    cmp "$room"/first/*.deb "$room"/again/*.deb || exit 1
    if command -v lintian >/dev/null; then
        lintian --allow-root --fail-on error "$room"/first/*.deb || exit 1
    fi
    cp "$room"/first/*.deb "$root/root/old.deb" || exit 2
    REVISION=2 "$top/packaging/deb" "$program" "$room" >/dev/null && cp "$room"/*.deb "$root/root/new.deb" || exit 1
    rm -rf "$room"
    boot "$root" "$0"
}

# send PORT FILE: its lines, over a connection
send() { bash -c 'cat "$2" >"/dev/tcp/127.0.0.1/$1"' - "$1" "$2"; }
# all FILE: each of the numbers from 1 to 2,000 stands there
all() { [ "$(grep -oE '[0-9]+$' "$1" | sort -un | wc -l)" = 2000 ]; }
# each line of Debian's file stands once in what was written of it, behind the moment at which it was read
once() { cat /var/log/syslogr/dpkg.received.1 /var/log/syslogr/dpkg.received | sed 's/^[^ ]* //' | cmp - /var/log/dpkg.log; }
# completes WANTED WORD..: what bash offers in the place of the last word
completes() {
    wanted=$1
    shift
    got=$(bash -c '. /usr/share/bash-completion/completions/syslogr; compopt() { :; }; COMP_WORDS=(syslogr "$@"); COMP_CWORD=$#; _syslogr; echo "${COMPREPLY[*]}"' - "$@")
    [ "$got" = "$wanted" ] || { echo "$got"; false; }
}

inside() {
    began=$(date '+%F %T')
    check 'it is installed' dpkg -i /root/old.deb
    check 'it runs' is ActiveState active
    check 'and will when the machine starts' systemctl is-enabled syslogr
    check 'as its own user' sh -c '[ "$(stat -c %U /proc/$(systemctl show syslogr -P MainPID))" = syslogr ]'
    check 'the unit is one' sh -c '[ -z "$(systemd-analyze verify --man=no syslogr.service 2>&1)" ]'
    check 'which leaves little open' safe
    check 'its folder' mode /var/lib/syslogr 700
    check 'that of its files' mode /var/log/syslogr 750
    echo '<34>Oct 11 22:14:15 web su[7]: one' >/root/one
    check 'a port below 1024' send 514 /root/one
    check 'a record by TCP' has 'su[7]: one' /var/log/syslogr/auth.log
    check 'a file of Debian' has 'install syslogr' /var/log/syslogr/dpkg.received
    check 'the owner of a file' sh -c '[ "$(stat -c %U:%G:%a /var/log/syslogr/auth.log)" = syslogr:adm:640 ]'
    check 'the commands, completed' completes 'check trace run spool drill --help --version' ''
    check 'the sources of a configuration' completes 's_src s_dpkg' trace /etc/syslogr/syslogr.conf s_
    check 'the options of run' completes '--once --rounds' run /etc/syslogr/syslogr.conf --

    check 'rotation' logrotate -f /etc/logrotate.d/syslogr
    check 'it was started again' is ActiveState active
    echo '<34>Oct 11 22:14:16 web su[7]: two' >/root/two
    check 'its port, again' send 514 /root/two
    check 'a new file' has 'su[7]: two' /var/log/syslogr/auth.log
    check 'the old one' has 'su[7]: one' /var/log/syslogr/auth.log.1

    # what waits for a peer that is away, over an upgrade
    cat >>/etc/syslogr/syslogr.conf <<CONF
destination d_peer { network("127.0.0.1" port(5140) time-reopen(1) disk-buffer(reliable(yes) disk-buf-size(4194304))); };
log { source(s_src); destination(d_peer); flags(flow-control); };
CONF
    systemctl restart syslogr
    check 'with a disk-buffer' [ -f /var/lib/syslogr/queue-network,127.0.0.1,5140 ]
    seq 1 2000 | sed 's/^/<34>Oct 11 22:14:17 web su[7]: /' >/root/many
    send 514 /root/many
    check 'records that wait' all /var/log/syslogr/auth.log
    check 'an upgrade' dpkg --force-confold -i /root/new.deb
    check 'to the next revision' sh -c 'dpkg-query -W -f "\${Version}" syslogr | grep -q -- -2$'
    check 'which runs' is ActiveState active
    check 'over the configuration as it was' has d_peer /etc/syslogr/syslogr.conf
    receive 5140 /root/peer
    check 'none is lost' all /root/peer

    check 'it is removed' dpkg -r syslogr
    check 'and ends' is ActiveState inactive
    check 'positions stay' [ -f /var/lib/syslogr/pos-_2fvar_2flog_2fdpkg.log ]
    check 'disk-buffers stay' [ -f /var/lib/syslogr/queue-network,127.0.0.1,5140 ]
    check 'files stay' has 'su[7]: two' /var/log/syslogr/auth.log
    check 'it is installed again' dpkg --force-confold -i /root/new.deb
    check 'goes on' is ActiveState active
    check 'where it was' once
    check 'it is purged' dpkg -P syslogr
    check 'with its configuration' [ ! -e /etc/syslogr ]
    check 'its stores' [ ! -e /var/lib/syslogr ]
    check 'and its files' [ ! -e /var/log/syslogr ]
    conclude
}

if [ $# -gt 0 ]; then outside "$@"; else inside; fi
