#!/usr/bin/env bash
# Installs the share for who built it, or unpacked a tar of it: the program, smbshare-account, its manual page, a unit
# of systemd, a stanza of logrotate, and a configuration by which nothing is served until it is edited.
#
#     bash tools/install.sh [--prefix FOLDER] [--program FILE]
#     bash tools/install.sh --uninstall [--prefix FOLDER]
#     bash tools/install.sh --purge [--prefix FOLDER]
#
# The prefix is /usr/local where none is named, and the program the one that was proved, or lies beside this.
# Configuration goes to /etc. A file there that was edited stays as it is: the new one goes beside it, as NAME.new.
# --uninstall takes away what was installed, but for files of /etc that were edited; --purge takes these too, accounts
# and logs. Data stay. DESTDIR is put before each name, where that variable is set.
set -u
here=$(cd "$(dirname "$0")" && pwd)
prefix=/usr/local does=put is_purge=false program=

fail() {
    echo "install.sh: $1" >&2
    exit 1
}

# A file of the repository; in a tar it lies beside this.
source_of() {
    if [ -f "$here/BUILD" ]; then echo "$here/${1##*/}"; else echo "$here/../$1"; fi
}

# What is installed: with which rights, from where, and as what.
files() {
    cat << END
755 crates/smbshare/out/smbshare $prefix/bin/smbshare
755 tools/smbshare-account $prefix/bin/smbshare-account
644 docs/smbshare.1 $prefix/share/man/man1/smbshare.1
644 examples/smbshare.service $prefix/lib/systemd/system/smbshare.service
644 examples/smbshare.toml /etc/smbshare/smbshare.toml
644 examples/smbshare.logrotate /etc/logrotate.d/smbshare
END
}

# The bytes of a file as it is installed: of the unit with the prefix in its command line.
content() {
    case $1 in
        *.service) sed "s|/usr/local/bin/|$prefix/bin/|" "$1" ;;
        *) cat "$1" ;;
    esac
}

# Whether a file is configuration that is not as it was installed.
is_edited() {
    case $2 in "${DESTDIR-}"/etc/*) [ -e "$2" ] && ! cmp -s "$1" "$2" ;; *) false ;; esac
}

put() {
    local mode=$1 source=$2 target=$3
    [ -f "$source" ] || fail "there is no $source"
    if is_edited "$source" "$target"; then
        echo "$target was edited, and stays: $target.new is as it would be"
        target=$target.new
    fi
    install -d -m 755 "${target%/*}" || fail "${target%/*} is not made"
    content "$source" | install -m "$mode" /dev/stdin "$target" || fail "$target is not installed"
}

take_away() {
    local source=$2 target=$3
    case $target in "${DESTDIR-}"/etc/*) rm -f "$target.new" ;; esac
    if ! $is_purge && is_edited "$source" "$target"; then
        echo "$target was edited, and stays"
    else
        rm -f "$target" || fail "$target is still there"
    fi
}

each() {
    local mode source target
    while read -r mode source target; do
        source=$(source_of "$source")
        case $target in */bin/smbshare) source=${program:-$source} ;; esac
        "$1" "$mode" "$source" "${DESTDIR-}$target"
    done < <(files)
}

# Ends the service, and takes all away: folders too that are empty then, and the file of accounts where it has none.
take_away_the_rest() {
    local folder
    if [ -z "${DESTDIR-}" ] && [ -d /run/systemd/system ]; then systemctl disable --now smbshare; fi
    each take_away
    if $is_purge; then
        rm -rf "$accounts" "$accounts.new" "${DESTDIR-}/var/log/smbshare" "${DESTDIR-}/var/log/private/smbshare"
    fi
    [ -s "$accounts" ] || rm -f "$accounts"
    for folder in /etc/smbshare "$prefix/lib/systemd/system" "$prefix/lib/systemd" "$prefix/share/man/man1"; do
        [ ! -d "${DESTDIR-}$folder" ] || rmdir --ignore-fail-on-non-empty "${DESTDIR-}$folder"
    done
}

while [ $# -gt 0 ]; do
    case $1 in
        --uninstall) does=take_away ;;
        --purge) does=take_away is_purge=true ;;
        --prefix | --program)
            [ -n "${2-}" ] || fail "nothing is behind $1"
            if [ "$1" = --prefix ]; then prefix=$2; else program=$2; fi
            shift ;;
        -h | --help) sed -n '2,/^set/s/^# \{0,1\}//p' "$0"; exit 0 ;;
        *) fail "no word $1: --help says which there are" ;;
    esac
    shift
done
[ "${prefix#/}" != "$prefix" ] || fail "the prefix $prefix does not begin with /"
accounts=${DESTDIR-}/etc/smbshare/accounts.toml

if [ $does = take_away ]; then
    take_away_the_rest
    exit 0
fi
each put
[ -e "$accounts" ] || (umask 077 && : > "$accounts") || fail "$accounts is not made"
cat << END
Where it is new, give the share a name in /etc/smbshare/smbshare.toml, and somebody an account:
    smbshare-account add /etc/smbshare/accounts.toml ann
    systemctl daemon-reload && systemctl enable smbshare && systemctl restart smbshare
END
