# shellcheck shell=bash
# shellcheck disable=SC2016,SC2034,SC2154 # for other shells; and bench/package has these names
# Whether the image is one, and what it says serves.

# contain WORD..: runs the image, with WORD.. in place of what it says. 'server' is the process to wait
# for, and 'first' is the first process of the container.
contain() {
    unshare --net --pid --mount --ipc --fork --kill-child=KILL \
        python3 "$parts/image.py" run "$work/image.json" "$root" "$@" </dev/null >"$work/said" 2>&1 &
    server=$!
    within 10 finds_first || true
    network=(nsenter --target "$first" --net)
}
finds_first() {
    first=$(pgrep --parent "$server" | head -n 1)
    [[ -n $first ]]
}
# As 'docker exec' does, as the image's user.
contained() {
    "${plain[@]}" nsenter --target "$first" --net --pid --mount --root --wd --setgid 4949 --setuid 4949 "$@"
}
contained_console() { contained tacd console /run/tacd/console "$@"; }
answers() { is "$(contained_console "${@:2}" 2>/dev/null)" "$1"; }
# ends STATUS: whether it ends within five seconds, so.
ends() {
    local status=0
    within 5 fails kill -0 "$server" 2>/dev/null || return 1
    wait "$server" || status=$?
    server=
    [[ $status == "$1" ]]
}

look_at_image() {
    judge "it is the same again" cmp "$image" "$("$top/packaging/oci" --program "$program" "$work/image-again")"
    judge "its digests, sizes and documents are right" \
        python3 "$parts/image.py" unpack "$image" "$root" "$work/image.json"
    judge "'docker load' would call it by its version" \
        grep -q -F "\"RepoTags\": [\"tacd:$version\"]" <(tar -xOf "$image" manifest.json)
    if command -v skopeo >/dev/null; then
        judge "skopeo reads it" \
            is "$(skopeo inspect --format '{{.Os}} {{.Architecture}}' "oci-archive:$image")" "linux amd64"
    else
        echo "no other program reads it, since there is no skopeo"
    fi
    judge "its program is the package's" \
        cmp "$root/usr/sbin/tacd" <(tar -xOf <(dpkg-deb --fsys-tarfile "$package") ./usr/sbin/tacd)
    judge "it says who runs it, and where it listens" is \
        "$(python3 -c 'import json, sys; it = json.load(open(sys.argv[1]))["config"]
print(it["User"], *it["ExposedPorts"], *sorted(it["Volumes"]))' "$work/image.json")" \
        "4949:4949 4949/tcp /var/lib/tacd /var/log/tacd"
}

serve_image() {
    cp "$work/policy" "$root/etc/tacd/policy"
    echo tundra >"$root/etc/tacd/key"
    port=4949
    contain
    judge "it serves at its port" within 10 passes
    judge "a wrong password fails" is "$(login red-lake)" 2
    judge "it runs as its user" is "$(stat -c %u "/proc/$first")" 4949
    judge "so does the server" is "$(pgrep --parent "$first" | xargs -I@ stat -c %u /proc/@)" 4949
    judge "it has no right beyond others" \
        is "$(sed -n 's/^Cap\(Prm\|Eff\|Amb\):\t0*//p' "/proc/$first/status" | xargs)" ""
    judge "its console answers" answers "permitted by group ops rule 1" why bob show version
    judge "so does 'status'" grep -q '^tacd_connections_accepted_total [1-9]' <(contained_console status)
    judge "it keeps the latest records" grep -q '^tacd_records_limit 1000000$' <(contained_console status)
    judge "its log is in the volume, and the group adm reads it" \
        is "$(stat -c '%u %g %a' "$root/var/log/tacd/audit.log")" "4949 4 640"
    judge "it has the login" grep -q '"PASS"' "$root/var/log/tacd/audit.log"
    echo 'permit ping' >>"$root/etc/tacd/policy"
    judge "SIGHUP is sent" kill -HUP "$first"
    judge "it has the policy read again" within 5 answers "permitted by user bob rule 1" why bob ping
    judge "the answers are where its output is" within 5 grep -q '^no devices$' "$work/said"
    judge "an edit is made" answers $'ok\nuser bob now denies: ping' drop user bob 1
    judge "the volume has it" test -e "$root/var/lib/tacd/edited-policy"
    judge "SIGTERM is sent" kill -TERM "$first"
    judge "it ends with status 0" ends 0
    judge "by 'quit'" grep -q '"console":"quit"' "$root/var/log/tacd/audit.log"
    contain
    judge "the next one serves" within 10 passes
    judge "the edit is there" answers "denied by default" why bob ping
    contained_console quit >/dev/null 2>&1 || true # The container's end may be its end too.
    judge "at 'quit' it ends with status 0 too" ends 0
    judge "each 'quit' is in the log" is "$(grep -c '"console":"quit"' "$root/var/log/tacd/audit.log")" 2
}

# Other words than those of the image.
contain_others() {
    contain check /etc/tacd/policy
    judge "it checks a policy" ends 0
    judge "and says so" grep -q '^policy ok: 2 subjects, 2 rules$' "$work/said"
    contain serve --no-console --port 4949 --key-file /etc/tacd/key /etc/tacd/policy
    judge "it serves without a console" within 10 passes
    judge "SIGTERM is sent" kill -TERM "$first"
    judge "the server ends by it" ends 143
    echo >"$root/etc/tacd/key"
    contain
    judge "with an invalid key it ends with status 2" ends 2
    judge "it says why" grep -q '^tacd: /etc/tacd/key: ' "$work/said"
}

try_image() {
    echo "the image:"
    image=$("$top/packaging/oci" --program "$program" "$work") || image=
    judge "it is made" test -e "$image"
    [[ -n $image ]] || return 0
    mkdir "$work/image-again"
    root=$work/image-root
    look_at_image
    serve_image
    contain_others
    network=()
}
