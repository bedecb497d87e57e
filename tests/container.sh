# What tests/service.sh and tests/package.sh share; they source it. A script is run twice: from outside with ROOT, a folder that holds a
# Debian, and then within a container whose first process is that Debian's systemd.

# boot ROOT SCRIPT: runs the script as the only work of a container over ROOT, says what it said, and answers whether all its checks passed
boot() {
    cp "$2" "$(dirname "$2")/container.sh" "$1/root/" || exit 2
    cat >"$1/etc/systemd/system/container-test.service" <<UNIT
[Unit]
After=network-online.target
[Service]
Type=oneshot
TimeoutStartSec=infinity
ExecStart=/bin/sh /root/$(basename "$2")
StandardOutput=file:/root/said
StandardError=file:/root/said
ExecStopPost=/bin/systemctl --no-block poweroff
UNIT
    ln -sf ../container-test.service "$1/etc/systemd/system/multi-user.target.wants/container-test.service"
    timeout 900 systemd-nspawn -q --register=no --keep-unit --private-network -D "$1" -b </dev/null >"$1/root/console" 2>&1
    cat "$1/root/said"
    grep -q '^[0-9]* passed, 0 failed$' "$1/root/said"
}

passed=0 failed=0
# check NAME COMMAND..: within 20 seconds the command answers yes
check() {
    name=$1
    shift
    for moment in $(seq 100); do
        if "$@" >/root/check 2>&1; then
            passed=$((passed + 1))
            return
        fi
        sleep 0.2
    done
    failed=$((failed + 1))
    echo "$name:"
    cat /root/check
    systemctl --no-pager status syslogr | tail -20
}

# has TEXT FILE, told TEXT (in the journal since the last start of a check), is NAME VALUE (of the unit), mode FILE OCTAL
has() { grep -qF -- "$1" "$2"; }
told() { journalctl --no-pager -u syslogr -o cat --since "$began" | grep -F -- "$1"; }
is() { [ "$(systemctl show syslogr -P "$1")" = "$2" ] || { systemctl show syslogr -P "$1"; false; }; }
restarted() { [ "$(systemctl show syslogr -P NRestarts)" -ge 1 ]; }
mode() { [ "$(stat -c %a "$1")" = "$2" ]; }
# what an attacker who has the process could reach, by systemd's own reckoning from 0 to 10
exposed() { systemd-analyze security --no-pager syslogr.service | sed -n 's/.*exposure level for [^:]*: \([0-9.]*\).*/\1/p'; }
safe() { [ "$(exposed | tr -d .)" -le 20 ] || { exposed; false; }; }

# receive PORT FILE: a peer that listens from now on, and writes what it gets to the file
receive() {
    perl -MIO::Socket::INET -e '$| = 1; $s = IO::Socket::INET->new(LocalAddr => "127.0.0.1", LocalPort => $ARGV[0], Listen => 1, ReuseAddr => 1) or die;
        while ($c = $s->accept) { while (<$c>) { print } }' "$1" >"$2" 2>&1 &
}

conclude() { echo "$passed passed, $failed failed"; }
