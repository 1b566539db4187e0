# shellcheck shell=bash
# shellcheck disable=SC2016,SC2034,SC2154 # for other shells; and bench/package has these names
# What runs beside the server on a machine that was booted: its timer for Prometheus, needrestart, and the
# policy timer of examples/fleet. The RPM package is booted here too.

exported=/var/lib/prometheus/node-exporter/tacd.prom
told_number() { booted sed -n "s/^$1 \([0-9]*\)$/\1/p" "$exported"; }
# Whether the file is in the text format: of each number what it is comes before it, and the last line is
# whole.
is_exported_whole() { python3 "$parts/metrics.py" "$root$exported"; }
writes_status() {
    booted systemctl reset-failed tacd-status.service 2>/dev/null || true
    booted systemctl start tacd-status.service
}
has_more_uptime() { (($(told_number tacd_uptime_seconds) > $1)); }
alone_in_folder() { is "$(booted ls -A "$(dirname $exported)")" "$(basename $exported)"; }

# What can't be written, or isn't answered to its end.
tell_half() {
    local before broken=$root/root/broken
    booted systemctl stop tacd-status.timer
    before=$(booted md5sum "$exported")
    mkdir "$broken"
    printf '#!/bin/sh\necho "tacd_uptime_seconds 0"\nexit 4\n' >"$broken/tacd"
    chmod 755 "$broken/tacd"
    judge "half an answer fails" fails booted env PATH=/root/broken:/usr/bin \
        /usr/libexec/tacd/write-status "$exported"
    rm -r "$broken"
    booted systemctl kill --kill-whom=main --signal STOP tacd.service
    judge "a server that says nothing fails the unit" fails writes_status
    booted systemctl kill --kill-whom=main --signal CONT tacd.service
    judge "the file is as it was" is "$(booted md5sum "$exported")" "$before"
    judge "nothing is beside it" alone_in_folder
    touch "$root$exported.new.Cr4sh3"
    judge "it is written again" writes_status
    judge "what a run left that was killed is gone" alone_in_folder
    judge "it is whole again" is_exported_whole
    booted systemctl stop tacd.service
    before=$(booted stat --format %y "$exported")
    judge "where no server runs nothing is done" writes_status
    judge "the file tells that by its age" is "$(booted stat --format %y "$exported")" "$before"
    booted systemctl start tacd.service
}

tell_status() {
    judge "the timer for Prometheus is disabled" \
        is "$(booted systemctl is-enabled tacd-status.timer)" disabled
    judge "where there is no exporter, it says so" fails writes_status
    booted install -d -o daemon -g daemon "$(dirname $exported)"
    judge "the timer is enabled" booted systemctl --quiet enable --now tacd-status.timer
    judge "it writes the file" within 30 booted test -e "$exported"
    judge "any user may read it" is "$(booted stat --format %a "$exported")" 644
    judge "it is whole" is_exported_whole
    judge "it has the log's disk" is "$(told_number tacd_log_disk_bytes)" \
        "$(booted df --block-size=1 --output=size /var/log/tacd | tail -n 1 | xargs)"
    judge "it is written again and again" within 40 has_more_uptime "$(told_number tacd_uptime_seconds)"
    judge "nothing is beside it" within 5 alone_in_folder
    tell_half
    judge "port 49 answers" within 10 passes
    booted systemctl --quiet disable tacd-status.timer
}

# ---- the policy timer

git_in() { booted git -c user.name=bob -c user.email=bob@example.net -c init.defaultBranch=main "$@"; }
policies=/root/policies
# merges TEXT: the repository has this policy.
merges() {
    printf '%s' "$1" >"$root$policies/campus.policy"
    git_in -C $policies add campus.policy
    git_in -C $policies commit --quiet --message 'Change the policy'
}
takes() {
    booted systemctl reset-failed tacd-policy.service 2>/dev/null || true
    booted systemctl start tacd-policy.service
}
policy_told() { booted journalctl --boot --unit tacd-policy.service --output cat | grep -e "$1" >/dev/null; }
reloads() { types status | sed -n 's/^tacd_reloads_total //p'; }

fetch_policies() {
    local fleet=$root/$doc/examples/fleet
    git_in init --quiet $policies
    merges "$(<"$work/policy")"$'\npermit ping\n'
    booted git clone --quiet $policies /srv/policies
    install -m 755 "$fleet/tacd-policy" "$root/usr/local/sbin/"
    install -m 644 "$fleet"/tacd-policy.{service,timer} "$root/etc/systemd/system/"
    booted systemctl daemon-reload
    judge "systemd-analyze finds nothing wrong with the policy timer" is \
        "$(booted systemd-analyze verify --man=no tacd-policy.service tacd-policy.timer 2>&1)" ""
    judge "the merged policy is taken" takes
    judge "it decides" says "permitted by user bob rule 1" why bob ping
    judge "the journal has what it changed" within 5 policy_told 'user bob now permits: ping'
    judge "root and tacd alone read it" \
        is "$(booted stat --format '%U %G %a' /etc/tacd/policy)" "root tacd 640"
}

# Edits of the console, which a reload would take back.
hold_policies() {
    local before
    before=$(reloads)
    judge "where git brought nothing, the run does well" takes
    judge "and nothing is reloaded" is "$(reloads)" "$before"
    judge "an edit is made" types drop user bob 1
    judge "and a login set" says ok login bob red-lake
    judge "where git brought nothing, the run does well still" takes
    judge "the edit stays" says "denied by default" why bob ping
    merges "$(<"$work/policy")"$'\npermit ping\npermit trace\n'
    judge "where git brought something, the run fails" fails takes
    judge "the journal names the edit" within 5 policy_told '^drop user bob 1$'
    judge "and whose login it was" policy_told '^login bob \*$'
    judge "but not the login" fails policy_told red-lake
    judge "the edit stays still" says "denied by default" why bob ping
    judge "so does FILE" fails booted grep -q trace /etc/tacd/policy
    judge "it is taken back where that is asked for" booted /usr/local/sbin/tacd-policy --take-back
    judge "the merged policy decides" says "permitted by user bob rule 2" why bob trace
    judge "no edit is kept" booted test ! -e /var/lib/tacd/edited-policy
    judge "an edit is made" types drop user bob 1
    types policy >"$work/edited"
    merges "$(<"$work/edited")"$'\n'
    judge "it is taken where git has just that" takes
    judge "no edit is kept then" booted test ! -e /var/lib/tacd/edited-policy
}

# Policies that aren't taken, by tacd check or by the server; and a server that is away.
refuse_policies() {
    merges $'group ops\npermit (show .*\n'
    judge "a policy that is refused fails" fails takes
    judge "the journal says why" within 5 policy_told 'is refused: fault line 2 '
    merges $'group ops\npermit show .*\n'
    judge "a policy of nobody fails" fails takes
    judge "the journal says why that is" within 5 policy_told '^fault NoUser$'
    judge "FILE has what is served" booted grep -q '^user bob' /etc/tacd/policy
    judge "port 49 answers" passes
    merges "$(<"$work/policy")"$'\n'
    booted systemctl stop tacd.service
    judge "where no server runs it fails" fails takes
    booted systemctl start tacd.service
    judge "once one does the policy is taken" takes
    judge "it decides again" says "denied by default" why bob trace
    judge "nothing is left beside FILE" \
        is "$(booted ls /etc/tacd | xargs)" "devices key policy"
    judge "the policy timer is enabled" booted systemctl --quiet enable --now tacd-policy.timer
    judge "it will run" grep -q tacd-policy.timer <(booted systemctl list-timers)
    booted systemctl --quiet disable --now tacd-policy.timer
}

take_policies() {
    if ! booted sh -c 'command -v git' >/dev/null; then
        echo "the policy timer: not tried, since the root has no git"
        return
    fi
    fetch_policies
    hold_policies
    refuse_policies
    rm "$root"/etc/systemd/system/tacd-policy.*
    booted systemctl daemon-reload
    cp "$work/policy" "$root/etc/tacd/policy"
    judge "the first policy is taken" booted systemctl reload tacd.service
}

# ---- upgrades of others

be_left_alone() {
    if ! booted sh -c 'command -v needrestart' >/dev/null; then
        echo "needrestart: not tried, since the root has none"
        return
    fi
    local process
    process=$(unit MainPID)
    # As after an upgrade of a library: what the process has is no longer there.
    booted sh -c 'cp /usr/sbin/tacd /root/tacd && mv /root/tacd /usr/sbin/tacd'
    booted env NEEDRESTART_MODE=a needrestart -r a -q >"$work/needrestart" 2>&1 || true
    judge "needrestart leaves it alone" is "$(unit MainPID)" "$process"
    booted mv /etc/needrestart/conf.d/tacd.conf /root
    booted env NEEDRESTART_MODE=a needrestart -r a -q >"$work/needrestart" 2>&1 || true
    judge "without the package's line it doesn't" within 10 is_another "$process"
    booted mv /root/tacd.conf /etc/needrestart/conf.d
    judge "port 49 answers" within 10 passes
}

# ---- the RPM package

boot_rpm() {
    [[ -n $rpm_package ]] || return 0
    root=$work/rpm-booted
    copy_base "$root"
    rpm_of_root --initdb
    judge "the RPM package installs where it is to boot" rpm_of_root --install --nodeps "$rpm_package"
    umount "$root/proc"
    unset 'mounted[-1]'
    cp "$work/policy" "$root/etc/tacd/policy"
    echo tundra >"$root/etc/tacd/key"
    judge "it boots" boot
    judge "its unit is disabled" is "$(booted systemctl is-enabled tacd.service)" disabled
    judge "it is enabled and started" booted systemctl --quiet enable --now tacd.service
    judge "port 49 answers" within 10 passes
    judge "a line can be typed" says "permitted by group ops rule 1" why bob show version
    judge "its log is the group adm's to read" is "$(log_rights)" "tacd adm 640"
    judge "a reload is taken" booted systemctl reload tacd.service
    judge "it stops" booted systemctl stop tacd.service
    judge "that is a success, and its console is gone" is_down
    shut_down
}
