# shellcheck shell=bash
# shellcheck disable=SC2016,SC2034,SC2154 # for other shells; and bench/package has these names
# The units under systemd, as process 1 of a machine that systemd-nspawn boots.

# boot: whether the second copy is up within a minute. 'machine' is the process of systemd-nspawn then,
# and 'init' that of systemd.
boot() {
    local keep=() # Where systemd isn't outside, nobody can be asked for a unit.
    [[ -d /run/systemd/system ]] || keep=(--keep-unit)
    SYSTEMD_NSPAWN_UNIFIED_HIERARCHY=1 systemd-nspawn --quiet --boot --settings=no --register=no \
        "${keep[@]}" --private-network --console=read-only --directory "$root" </dev/null \
        >"$work/boot" 2>&1 &
    machine=$!
    for _ in {1..600}; do
        kill -0 "$machine" 2>/dev/null || return 1
        init=$(pgrep --parent "$machine" | tail -n 1)
        if [[ -n $init && $(booted systemctl is-system-running 2>/dev/null) =~ running|degraded ]]; then
            network=(nsenter --target "$init" --net)
            return 0
        fi
        sleep 0.1
    done
    return 1
}

booted() { nsenter --target "$init" --all --root --wd "${plain[@]}" "$@"; }
unit() { booted systemctl show --value --property "$1" tacd.service; }
journal() { booted journalctl --boot --unit tacd.service --output cat; }
told() { journal | grep -e "^$1" >/dev/null; }
types() { booted tacd console /run/tacd/console "$@" 2>/dev/null; }
says() { is "$(types "${@:2}")" "$1"; }
logins() { booted grep -c '"PASS"' "$log"; }
# Whether it ended well, and has no console that a line could be typed at.
is_down() {
    is "$(unit ActiveState) $(unit Result)" "inactive success" && fails types shadow &&
        booted test ! -e /run/tacd
}
# Whether its last process ended by itself, with status 0.
has_ended_well() { is "$(unit ExecMainCode) $(unit ExecMainStatus)" "1 0"; }

start() {
    judge "it installs" booted dpkg --install /root/tacd.deb
    judge "its unit is disabled" is "$(booted systemctl is-enabled tacd.service)" disabled
    judge "systemd-analyze finds nothing wrong with it" is "$(booted systemd-analyze verify --man=no \
        tacd.service tacd-check.service tacd-status.service tacd-status.timer 2>&1)" ""
    cp "$work/policy" "$root/etc/tacd/policy"
    echo tundra >"$root/etc/tacd/key"
    judge "it is enabled and started" booted systemctl --quiet enable --now tacd.service
    judge "port 49 answers" within 10 passes
    local process
    process=/proc/$(unit MainPID)
    judge "the server runs as tacd" is "$(booted stat --format %U "$process")" tacd
    judge "it has the right to that port alone" \
        is "$(booted sed -n 's/^CapEff:\t0*//p' "$process/status")" 400
    judge "it ignores SIGHUP and SIGUSR1" \
        is $((0x$(booted sed -n 's/^SigIgn:\t//p' "$process/status") & 0x201)) $((0x201))
    judge "it keeps the latest 1,000,000 records" has_options --keep-records 1000000
    judge "a line can be typed" says "permitted by group ops rule 1" why bob show version
    judge "root and the server's user alone can open its socket" \
        is "$(booted stat --format '%U %a' /run/tacd /run/tacd/console | xargs)" "tacd 750 tacd 600"
}

# has_option WORD: whether the server's command line has it.
has_option() { booted grep -z -q -x -e "$1" "/proc/$(unit MainPID)/cmdline"; }
# has_options WORD..: whether it has these, one after another, and the first of them once.
has_options() {
    local words
    words=$(tr '\0' ' ' <"/proc/$init/root/proc/$(unit MainPID)/cmdline")
    [[ " $words" == *" $* "* ]] && is "$(grep -o -e "$1" <<<"$words" | wc -l)" 1
}

give_options() {
    echo 'TACD_RECORDS=' >>"$root/etc/default/tacd"
    judge "it is started again, to keep the first records" booted systemctl restart tacd.service
    judge "port 49 answers, with that" passes
    judge "it has no word of records" fails has_option --keep-records
    sed -i '/^TACD_RECORDS=$/d' "$root/etc/default/tacd"
    echo 'TACD_OPTIONS="--idle 77 --keep-records 1000"' >>"$root/etc/default/tacd"
    judge "it is started again, with other options, and reloaded at once" \
        booted sh -c 'systemctl restart tacd.service && systemctl reload tacd.service'
    judge "port 49 answers by then, with them" passes
    judge "the server has them" has_option 77
    judge "and those records in place of the unit's" has_options --keep-records 1000
    judge "it has a console still" says "denied by default" why bob ping
}

is_turned_away() {
    login blue-lake >/dev/null 2>&1
    told 'tacd: .*: unknown device, its connection is closed'
}

# change_policy LINE: the policy has one more line.
change_policy() {
    cp "$work/policy" "$work/changed"
    echo "$1" >>"$work/changed"
    cp "$work/changed" "$root/etc/tacd/policy"
}

# All devices, and then others; a devices' file that is refused, beside a policy that may stand; and the
# other way round. Each time the file that may stand is taken.
reload_devices() {
    local process
    process=$(unit MainPID)
    printf 'device one\nat 192.0.2.1\nkey tundra\n' >"$root/etc/tacd/devices"
    judge "a changed devices' file is taken by reload" booted systemctl reload tacd.service
    judge "the journal says how many there are" within 5 told 'devices ok: 1 devices, 1 prefixes$'
    judge "the journal names a device that isn't in it" within 10 is_turned_away
    judge "port 49 doesn't answer that" fails passes
    printf 'device all\nat 0.0.0.0/0\n' >"$root/etc/tacd/devices"
    change_policy 'permit trace'
    judge "reload of a devices' file that is refused fails" fails booted systemctl reload tacd.service
    judge "the journal says why it is" within 5 told 'devices fault line 1 8 NoKey$'
    judge "the devices before go on" fails passes
    judge "the policy was taken" says "permitted by user bob rule 1" why bob trace
    printf 'device all\nat 0.0.0.0/0\nkey tundra\n' >"$root/etc/tacd/devices"
    change_policy $'priv 1\npermit (trace'
    judge "reload of a policy that is refused fails" fails booted systemctl reload tacd.service
    judge "the journal says why that is" within 5 told 'fault line 6 '
    judge "the policy before goes on" says "permitted by user bob rule 1" why bob trace
    judge "the devices were taken: port 49 answers" within 10 passes
    judge "it is the same server" is "$(unit MainPID) $(unit ActiveState)" "$process active"
    cp "$work/policy" "$root/etc/tacd/policy"
    judge "both may stand" booted systemctl reload tacd.service
}

# The devices' file, in place of the key.
list_devices() {
    printf 'device all\nat 0.0.0.0/0\nkey tundra\n' >"$root/etc/tacd/devices"
    echo 'TACD_KEYS="--devices /etc/tacd/devices"' >>"$root/etc/default/tacd"
    judge "it is started again, by the devices' file" booted systemctl restart tacd.service
    judge "port 49 answers a device of it" within 10 passes
    judge "the server has no key's file" fails has_option --key-file
    reload_devices
    sed -i '/^TACD_KEYS/d' "$root/etc/default/tacd"
    judge "it is started again, by the key" booted systemctl restart tacd.service
    judge "port 49 answers, under it" within 10 passes
}

# proxied_login PASSWORD: the same inside TLS, as a proxy hands it on.
proxied_login() { python3 "$parts/login.py" "/proc/$init/root/run/tacd-proxy/socket" "$1"; }
proxy_passes() { [[ $(proxied_login blue-lake 2>/dev/null) == 1 ]]; }

# A proxy of the group daemon, by the line for systemd-tmpfiles that an operator writes.
serve_proxy() {
    local own=$root/etc/tmpfiles.d/tacd-proxy.conf
    judge "the folder of a proxy's socket is the server's alone" is_closed_to_proxies booted
    sed '/^d /s/ haproxy / daemon /' "$root$examples/tacd-proxy.conf" >"$own"
    judge "an operator gives it a group" booted systemd-tmpfiles --create tacd-proxy.conf
    printf 'device all\nat 0.0.0.0/0\nkey tundra\ntls\n' >"$root/etc/tacd/devices"
    printf '%s\n' 'TACD_KEYS="--devices /etc/tacd/devices"' \
        'TACD_OPTIONS="--proxy /run/tacd-proxy/socket"' >>"$root/etc/default/tacd"
    judge "it is started again, with a socket for a proxy" booted systemctl restart tacd.service
    judge "the journal says so" within 10 told 'listening /run/tacd-proxy/socket$'
    judge "the proxy's group may call it" \
        is "$(booted stat --format '%U %G %a' /run/tacd-proxy/socket)" "tacd daemon 660"
    judge "the right password passes there" proxy_passes
    judge "a wrong one fails there" is "$(proxied_login red-lake)" 2
    judge "port 49 answers too" passes
    judge "the log says which way it was" booted grep -q \
        '"device":"192.0.2.7:50000","name":"all","tls":null,' /var/log/tacd/audit.log
    judge "a reload is taken" booted systemctl reload tacd.service
    judge "the socket answers on" proxy_passes
    echo 'TACD_PORT=' >>"$root/etc/default/tacd"
    judge "it is started again, without a port" booted systemctl restart tacd.service
    judge "the socket answers alone" within 10 proxy_passes
    judge "port 49 is closed" fails passes
    sed -i -e '/^TACD_KEYS/d' -e '/^TACD_PORT/d' -e '/^TACD_OPTIONS=.*--proxy/d' "$root/etc/default/tacd"
    rm "$own"
    judge "the folder is closed again" booted systemd-tmpfiles --create tacd-proxy.conf
    judge "so it is the server's alone" is_closed_to_proxies booted
    judge "it is started again, without it" booted systemctl restart tacd.service
    judge "port 49 answers, without it" within 10 passes
}

reload() {
    local process
    process=$(unit MainPID)
    change_policy 'permit ping'
    judge "a changed policy is taken by reload" booted systemctl reload tacd.service
    judge "the journal says what it changes" within 5 told 'user bob now permits: ping'
    judge "the journal says that there is no devices' file" within 5 told 'no devices$'
    judge "it decides" says "permitted by user bob rule 1" why bob ping
    change_policy 'permit (ping'
    judge "reload of a policy that is refused fails" fails booted systemctl reload tacd.service
    judge "the journal says why it is" within 5 told 'fault line 5 '
    judge "the one before goes on" says "permitted by user bob rule 1" why bob ping
    judge "so does the server" is "$(unit MainPID) $(unit ActiveState)" "$process active"
    cp "$work/policy" "$root/etc/tacd/policy"
    judge "the first one is taken again" booted systemctl reload tacd.service
    judge "it decides again" says "denied by default" why bob ping
}

# An edit outlives the server.
keep_edits() {
    local process
    process=$(unit MainPID)
    judge "an edit is made" types insert group ops 1 deny 'show run.*'
    judge "the server is killed" booted systemctl kill --kill-whom=main --signal KILL tacd.service
    judge "the next one starts" within 20 is_another "$process"
    judge "port 49 answers, after an edit" within 20 passes
    judge "the edit is there" says "denied by group ops rule 1" why bob show run
    judge "FILE is taken again by reload" booted systemctl reload tacd.service
    judge "the edit is gone" says "permitted by group ops rule 1" why bob show run
}

# Whether a user of these groups alone can read a file.
is_read_by() { booted setpriv --reuid=daemon --regid=daemon --groups="$1" head -c 1 "$2" >/dev/null 2>&1; }
log=/var/log/tacd/audit.log
log_rights() { booted stat --format '%U %G %a' "$log"; }

read_log() {
    judge "the log's folder is the group adm's to enter" \
        is "$(booted stat --format '%U %G %a' /var/log/tacd)" "tacd adm 2750"
    judge "the log is the group adm's to read" is "$(log_rights)" "tacd adm 640"
    judge "who is in it reads the log" is_read_by adm "$log"
    judge "others don't" fails is_read_by daemon "$log"
    judge "nothing is complained of" fails told tacd:
}

rotate() {
    judge "the log has the login" is "$(logins)" 1
    judge "logrotate takes the log of a server that runs" \
        booted logrotate --force /etc/logrotate.d/tacd
    judge "there is a new one at once, with the rights of a log" is "$(log_rights)" "tacd adm 640"
    judge "the renamed one has them too" \
        is_read_by adm "$log-$(booted date +%Y%m%d)"
    sleep 1
    judge "the next login passes" passes
    judge "a new log has it" is "$(logins)" 1
    booted rm "$log"
    sleep 1
    judge "a login passes where somebody removed the log" passes
    judge "the server made it, for itself alone" is "$(log_rights)" "tacd adm 600"
    judge "it is started again" booted systemctl restart tacd.service
    judge "the log has its rights again" is "$(log_rights)" "tacd adm 640"
    judge "and what it had" is "$(logins)" 1
    booted systemctl stop tacd.service
    booted rm -r /var/log/tacd
    judge "it starts where somebody removed the folder" booted systemctl start tacd.service
    judge "port 49 answers, with a new log" within 10 passes
    judge "its rights are right" is "$(log_rights)" "tacd adm 640"
}

stop() {
    judge "it stops" booted timeout 5 systemctl stop tacd.service
    judge "that is a success, and its console is gone" is_down
    judge "it ended by itself" has_ended_well
    judge "the log has who stopped it" booted grep -q \
        '"operator":"tacd","console":"quit"' /var/log/tacd/audit.log
    judge "it is started" booted systemctl start tacd.service
    judge "port 49 answers" within 10 passes
    judge "'quit' is typed" says ok quit
    judge "that is a success too, and its console is gone" within 5 is_down
    judge "it ended by itself too" has_ended_well
    judge "it is started" booted systemctl start tacd.service
    judge "port 49 answers" within 10 passes
    judge "it is killed" booted systemctl kill --kill-whom=main --signal KILL tacd.service
    judge "port 49 answers again" within 20 passes
    local process
    process=$(unit MainPID)
    judge "it is sent SIGHUP" booted systemctl kill --kill-whom=main --signal HUP tacd.service
    judge "it is sent SIGUSR1" booted systemctl kill --kill-whom=main --signal USR1 tacd.service
    sleep 1
    judge "port 49 answers after that" passes
    judge "by the same process" fails is_another "$process"
}
# Whether a process serves that isn't this one.
is_another() { [[ $(unit MainPID) != 0 && $(unit MainPID) != "$1" ]]; }

refuse() {
    printf 'group ops\npermit (show .*\n' >"$root/etc/tacd/policy"
    judge "a policy that is refused isn't served" fails booted systemctl restart tacd.service
    judge "the journal says why" told 'fault line 2 '
    judge "it names the lint that says more" told "tacd: 'tacd lint /etc/tacd/policy' says more"
    sleep 5
    judge "it was tried once" is "$(unit NRestarts) $(unit ActiveState)" "0 failed"
    cp "$work/policy" "$root/etc/tacd/policy"
    judge "the mended one is" booted systemctl start tacd.service
    judge "port 49 answers" within 10 passes
}

# What a start looks at is looked at before, while the server goes on.
checks() { booted systemctl start tacd-check.service; }
check_told() { booted journalctl --boot --unit tacd-check.service --output cat | grep -e "^$1" >/dev/null; }
# The words of each command of a unit that serves or checks, from the port on.
words_of() {
    sed -e ':a' -e '/\\$/ { N; s/ *\\\n */ /; ba }' "$root/lib/systemd/system/$1" |
        sed -n "s/^Exec[A-Za-z]*=.* serve .*' tacd //p"
}

check_start() {
    local process
    process=$(unit MainPID)
    judge "the unit's start and its checks have the same words" \
        is "$( (words_of tacd.service && words_of tacd-check.service) | sort | uniq -c | xargs)" \
        "3 $(words_of tacd-check.service)"
    judge "a start that would go well is told" checks
    printf 'group ops\npermit (show .*\n' >"$root/etc/tacd/policy"
    judge "with a policy that is refused it wouldn't" fails checks
    judge "the journal of the check says why" within 5 check_told 'fault line 2 '
    cp "$work/policy" "$root/etc/tacd/policy"
    echo >"$root/etc/tacd/key"
    judge "nor with an invalid key" fails checks
    judge "the journal says why that is" within 5 check_told 'tacd: /run/credentials/tacd-check.service/key: '
    echo tundra >"$root/etc/tacd/key"
    echo 'TACD_KEYS="--no-key-at-all"' >>"$root/etc/default/tacd"
    judge "nor with an option that isn't one" fails checks
    sed -i '/^TACD_KEYS/d' "$root/etc/default/tacd"
    judge "all is mended" checks
    judge "the same server goes on" is "$(unit MainPID)" "$process"
    judge "port 49 answers" passes
    judge "so does its console" says "permitted by group ops rule 1" why bob show version
}

upgrade_and_remove() {
    shut_down
    judge "it boots again" boot
    judge "port 49 answers unasked" within 10 passes
    local process
    process=$(unit MainPID)
    judge "it is upgraded" booted dpkg --force-confold --install /root/next.deb
    judge "the same server goes on" is "$(unit MainPID)" "$process"
    judge "port 49 answers" passes
    judge "so does its console" says "permitted by group ops rule 1" why bob show version
    judge "its options stay" booted grep -q '^TACD_OPTIONS=' /etc/default/tacd
    judge "it is removed" booted dpkg --remove tacd
    judge "port 49 is closed, once it is removed" fails passes
    judge "no unit is left" is "$(booted find /etc/systemd /run/tacd -name 'tacd*' 2>/dev/null)" ""
}

is_state() { is "$(unit ActiveState)" "$1"; }

# What the server finds only once it runs: a key, and a port.
refuse_to_start() {
    echo >"$root/etc/tacd/key"
    judge "with an invalid key it doesn't start" fails booted systemctl restart tacd.service
    judge "the journal says which" told 'tacd: /run/credentials/tacd.service/key: '
    echo tundra >"$root/etc/tacd/key"
    "${network[@]}" python3 -c \
        'import socket; s = socket.create_server(("0.0.0.0", 49)); s.accept(); s.accept()' &
    local holder=$!
    judge "somebody else has its port" within 10 "${network[@]}" bash -c ': <>/dev/tcp/127.0.0.1/49'
    judge "it doesn't start at a port that is in use" fails booted systemctl start tacd.service
    judge "the journal says why" told 'tacd: 0.0.0.0:49: Address already in use'
    kill "$holder"
    judge "it starts by itself once that is free" within 20 passes
}

# What is typed at the FIFO of version 0.8.0, and whether the journal has its answer.
writes() {
    booted timeout 5 sh -c 'echo "$1" >/run/tacd/console' - "$1" &&
        within 5 told "$2"
}

# From version 0.8.0, and back.
upgrade_from_before() {
    local process unit=/etc/systemd/system/tacd.service.d/own.conf
    booted dpkg --purge tacd >/dev/null 2>&1
    booted rm -r /var/log/tacd
    judge "version 0.8.0 installs" booted dpkg --install /root/before.deb
    cp "$work/policy" "$root/etc/tacd/policy"
    echo tundra >"$root/etc/tacd/key"
    judge "it is enabled and started" booted systemctl --quiet enable --now tacd.service
    judge "port 49 answers" within 10 passes
    judge "its FIFO takes a line" writes 'why bob show version' 'permitted by group ops rule 1$'
    process=$(unit MainPID)
    judge "root and its user alone read its log" is "$(log_rights)" "tacd tacd 600"
    booted sh -c 'cp -p "$1" "$1-20261101"' - "$log"

    mkdir -p "$root$(dirname $unit)"
    printf '[Service]\nExecStart=\nExecStart=/usr/sbin/tacd serve --port 49 \\\n%s\n' \
        '    --key-file ${CREDENTIALS_DIRECTORY}/key /etc/tacd/policy' >"$root$unit"
    judge "it is upgraded" booted dpkg --force-confold --install /root/tacd.deb 2>"$work/told"
    judge "a command without a console is named" grep -q "^tacd: $unit: " "$work/told"
    judge "the same server goes on" is "$(unit MainPID)" "$process"
    judge "the group adm reads its log from now on" is_read_by adm "$log"
    judge "and those before it" is_read_by adm "$log-20261101"
    judge "others don't" fails is_read_by daemon "$log"
    judge "its FIFO takes lines still" writes 'why bob ping' 'denied by default$'
    judge "the link of its socket is gone" \
        booted test ! -L /etc/systemd/system/sockets.target.wants/tacd.socket
    judge "it can't be reloaded" fails booted systemctl reload tacd.service
    judge "the journal says that it is to be restarted" within 5 \
        told 'tacd: /run/tacd/console: it is a FIFO'
    judge "it goes on all the same" is "$(unit MainPID)" "$process"

    booted systemctl restart tacd.service || true
    judge "without a console it ends at once" within 5 is_state inactive
    judge "the journal says what to write" within 5 told 'tacd: .*--no-console'
    rm -r "$root$(dirname $unit)"
    booted systemctl daemon-reload
    judge "it is started with one" booted systemctl restart tacd.service
    judge "port 49 answers" within 10 passes
    judge "the console is a socket" booted test -S /run/tacd/console
    judge "it was started once" is "$(unit NRestarts)" 0
    judge "systemd has no socket of it" fails booted systemctl --quiet is-active tacd.socket

    process=$(unit MainPID)
    judge "version 0.8.0 is installed again" booted dpkg --install /root/before.deb 2>"$work/told"
    judge "it says how to restart" grep -q 'systemctl stop tacd; rm -rf /run/tacd' "$work/told"
    judge "the same server goes on" is "$(unit MainPID)" "$process"
    judge "it is restarted so" \
        booted sh -c 'systemctl stop tacd && rm -rf /run/tacd && systemctl start tacd'
    judge "port 49 answers" within 10 passes
    judge "its FIFO takes a line" writes 'why bob show ip' 'permitted by group ops rule 1$'
    judge "it is upgraded" booted dpkg --force-confold --install /root/tacd.deb
    judge "it is restarted" booted systemctl restart tacd.service
    judge "port 49 answers" within 10 passes
    judge "the console is a socket" booted test -S /run/tacd/console
    judge "it was started once" is "$(unit NRestarts)" 0
}

try_units() {
    port=49
    root=$work/booted
    cp -a "$base" "$root"
    cp "$package" "$root/root/tacd.deb"
    cp "$work/next.deb" "$work/before.deb" "$root/root"
    if ! boot; then
        echo "The units weren't tried, since no systemd boots here: $(tail -n 1 "$work/boot")"
        return
    fi
    echo "systemd is process 1:"
    start
    read_log
    rotate
    give_options
    tell_status
    take_policies
    be_left_alone
    list_devices
    serve_proxy
    reload
    keep_edits
    stop
    refuse
    refuse_to_start
    check_start
    upgrade_and_remove
    upgrade_from_before
    shut_down
    boot_rpm
}
