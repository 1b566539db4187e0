# shellcheck shell=bash
# shellcheck disable=SC2016,SC2154 # for other shells; and bench/package has these names
# Whether the RPM package installs, serves, is upgraded and is removed, by Debian's rpm in a root of
# Debian. Nothing there is an RPM's, so what it depends on isn't looked at.

rpm_of_root() { rpm --root "$root" --dbpath /var/lib/rpm "$@"; }
asked() { rpm --query --package "$@" "$rpm_package"; }

# The same again, as its second release, with another example in its policy and in its key.
make_next_rpm() {
    local tree=$work/rpm-next
    mkdir "$tree"
    cp -a "$top"/{packaging,docs,examples,README.md,CHANGES.md} "$tree"
    echo '# One more line of the package.' | tee -a "$tree/packaging/debian/policy" >>"$tree/packaging/debian/key"
    RELEASE=2 "$tree/packaging/rpm" --program "$program" "$tree"
}

install_rpm() {
    rpm_of_root --initdb
    judge "the RPM package installs" rpm_of_root --install --nodeps "$rpm_package"
    judge "what it has is as it says" rpm_of_root --verify --nodeps tacd
    judge "root and tacd alone read its secrets" \
        is "$(rights /etc/tacd/policy /etc/tacd/key /etc/tacd/devices)" "root tacd 640"
    judge "root and tacd alone enter their folder" is "$(rights /etc/tacd)" "root tacd 750"
    judge "its log and the folder are the group adm's to read" \
        is "$(rights /var/log/tacd) $(rights /var/log/tacd/audit.log)" "tacd adm 2750 tacd adm 640"
    judge "the folder of a proxy's socket is the server's alone" is_closed_to_proxies inside
    judge "it has the files of the Debian package, at their places" \
        diff <(rpm_of_root --query --list tacd | grep -v '/usr/share/doc/tacd/changelog' | installed_at) \
        <(dpkg-deb --contents "$package" | sed 's/.* \.//' | grep -v -e /changelog -e /lintian | installed_at)
}

# Of the names of files those that are no folders of this root, by where they are.
installed_at() {
    local name
    while read -r name; do
        [[ -d $root/$name ]] || echo "${name/#\/lib\//\/usr\/lib\/}"
    done | sort -u
}

upgrade_rpm() {
    local next
    next=$(make_next_rpm)
    judge "it is upgraded" rpm_of_root --upgrade --nodeps "$next"
    judge "the policy that was changed is kept" cmp "$work/policy" "$root/etc/tacd/policy"
    judge "that of the package is beside it" \
        grep -q '^# One more line of the package.$' "$root/etc/tacd/policy.rpmnew"
    judge "the key that was changed is kept" is "$(cat "$root/etc/tacd/key")" tundra
    judge "root and tacd alone read its secrets still" \
        is "$(rights /etc/tacd/policy /etc/tacd/policy.rpmnew /etc/tacd/key)" "root tacd 640"
    end_serving
}

remove_rpm() {
    judge "it is removed" rpm_of_root --erase tacd
    judge "the program is gone" test ! -e "$root/usr/sbin/tacd"
    judge "so are its units" is "$(find "$root/usr/lib/systemd" -name 'tacd*')" ""
    judge "the policy stays, under another name" cmp "$work/policy" "$root/etc/tacd/policy.rpmsave"
    judge "the log stays" grep -q '"PASS"' "$root/var/log/tacd/audit.log"
}

try_rpm() {
    echo "the RPM package:"
    rpm_package=$("$top/packaging/rpm" --program "$program" "$work") || rpm_package=
    judge "it is made" test -e "$rpm_package"
    [[ -n $rpm_package ]] || return 0
    mkdir "$work/rpm-again"
    judge "it is the same again" cmp "$rpm_package" "$("$top/packaging/rpm" --program "$program" "$work/rpm-again")"
    judge "it has the version of the program" is "$(asked --queryformat '%{VERSION}')" "$version"
    judge "its newest change is that of the version" \
        is "$(asked --changelog | sed -n '1s/.* //p')" "$version-1"
    judge "its configuration is what may be changed" is "$(asked --configfiles | sort | xargs)" \
        "$(tar --wildcards -xOf <(dpkg-deb --ctrl-tarfile "$package") ./conffiles | sort | xargs)"
    judge "it takes a C library and systemd" \
        grep -q -z 'libc.so.6.*systemd' <(asked --requires | sort)
    root=$work/rpm-root
    copy_base "$root"
    install_rpm
    begin_serving
    upgrade_rpm
    remove_rpm
}
