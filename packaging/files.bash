# shellcheck shell=bash
# What packaging/deb and packaging/rpm share: how they are called, and the files of a package. They say
# where these are laid out, as 'root'.
# shellcheck disable=SC2034,SC2154

here=$(dirname "$(readlink -f "${BASH_SOURCE[0]}")")
top=$(dirname "$here")
from=$here/debian
me=packaging/${0##*/}

# Prints the comment that the script begins with, up to its first empty line or command.
usage() {
    sed -n -e '1d' -e '/^#/!q' -e 's/^# \{0,1\}//p' "$0"
}

# read_words WORD..: 'program' and 'folder' are what the command line says, 'version' is that of the
# program, and 'maintainer' who makes the package.
read_words() {
    program=$top/crates/tacd/out/tacd
    if [[ ${1-} == --help ]]; then
        usage
        exit 0
    fi
    if [[ ${1-} == --program && -n ${2-} ]]; then
        program=$2
        shift 2
    fi
    if (($# > 1)) || [[ ${1-} == -* ]]; then
        usage >&2
        exit 2
    fi
    folder=$(readlink -f "${1:-.}")
    if [[ ! -d $folder ]]; then
        echo "$me: $folder: there is no such folder" >&2
        exit 1
    fi
    if [[ ! -x $program ]]; then
        echo "$me: $program: there is no program; ./tacd --version builds it" >&2
        exit 1
    fi
    version=$("$program" --version | sed -n 's/^tacd \([0-9][0-9.]*\)$/\1/p')
    if [[ -z $version ]]; then
        echo "$me: $program: its --version tells no version" >&2
        exit 1
    fi
    newest=$(sed -n '/^## /{s/^## \([0-9.]*\),.*/\1/p;q}' "$top/CHANGES.md")
    if [[ $version != "$newest" ]]; then
        echo "$me: $program prints version $version, and the newest of CHANGES.md is $newest" >&2
        exit 1
    fi
    maintainer="${DEBFULLNAME:-Yamtundra maintainers} <${DEBEMAIL:-maintainers@yamtundra.example}>"
    export SOURCE_DATE_EPOCH=${SOURCE_DATE_EPOCH:-$(git -C "$here" log -1 --format=%ct)}
}

# put MODE FILE PATH: FILE becomes PATH below 'root'.
put() {
    install -D -m "$1" -- "$2" "$root/$3"
}

# put_all FOLDER PATH: so do all files below FOLDER, those that may be run as such.
put_all() {
    local file mode
    while IFS= read -r -d '' file; do
        mode=644
        [[ ! -x $1/$file ]] || mode=755
        put "$mode" "$1/$file" "$2/$file"
    done < <(cd "$1" && find . -type f -printf '%P\0')
}

# lay_out UNITS: all files of a package but its changelog, below 'root', with the units in the folder
# UNITS.
lay_out() {
    local page unit doc=usr/share/doc/tacd
    umask 022
    put 755 "$program" usr/sbin/tacd
    strip --strip-unneeded "$root/usr/sbin/tacd"
    put 755 "$from/write-status" usr/libexec/tacd/write-status
    for unit in tacd.service tacd-check.service tacd-status.service tacd-status.timer; do
        put 644 "$from/$unit" "$1/$unit"
    done
    put 644 "$from/tacd.sysusers" usr/lib/sysusers.d/tacd.conf
    put 644 "$from/tacd-log.tmpfiles" usr/lib/tmpfiles.d/tacd-log.conf
    put 644 "$from/tacd-proxy.tmpfiles" usr/lib/tmpfiles.d/tacd-proxy.conf
    put 644 "$from/tacd.logrotate" etc/logrotate.d/tacd
    put 644 "$from/tacd.needrestart" etc/needrestart/conf.d/tacd.conf
    put 644 "$from/tacd.default" etc/default/tacd
    put 640 "$from/policy" etc/tacd/policy
    put 640 "$from/key" etc/tacd/key
    put 640 "$from/devices" etc/tacd/devices
    chmod 750 "$root/etc/tacd"
    put 644 "$from/copyright" $doc/copyright
    put 644 "$top/README.md" $doc/README.md
    # The contracts of the crates are for whoever has the sources.
    for page in "$top"/docs/*.md; do
        [[ ${page##*/} == CONTRACTS.md ]] || put 644 "$page" "$doc/docs/${page##*/}"
    done
    put_all "$top/examples" $doc/examples
    put 644 "$from/tacd.8" usr/share/man/man8/tacd.8
    put 644 "$from/tacd.policy.5" usr/share/man/man5/tacd.policy.5
    put 644 "$from/tacd.devices.5" usr/share/man/man5/tacd.devices.5
    gzip -9 -n "$root"/usr/share/man/man?/*
}
