#!/bin/sh
# Installs this package into a prefix, or takes it away again:
#
#     ./install.sh PREFIX             for example /usr/local, or $HOME/.local
#     ./install.sh --remove PREFIX    removes the files, and the folders that the installation made
set -eu
here=$(cd "$(dirname "$0")" && pwd)
fail() { echo "install.sh: $*" >&2; exit 1; }

remove=no
[ "${1-}" != --remove ] || { remove=yes; shift; }
usage() { sed -n '4,5s/^# *//p' "$0" >&2; exit 2; }
[ $# -eq 1 ] && [ -n "$1" ] || usage
case $1 in
    -*) usage ;;
    /*) prefix=${1%/} ;;
    *) prefix=$PWD/${1%/} ;;
esac
list=share/dsa-planner/installed

# Removes what the list names: files first, then folders from the innermost out, unless others have put something there.
take_away() {
    [ -f "$prefix/$list" ] || fail "$prefix has no $list: nothing is installed there"
    sed -n 's/^file //p' "$prefix/$list" | while IFS= read -r path; do rm -f "$prefix/$path"; done
    folders=$(sed -n 's/^folder //p' "$prefix/$list" | LC_ALL=C sort -r)
    above=$(sed -n 's/^above //p' "$prefix/$list")
    rm -f "$prefix/$list"
    rm -rf "$prefix/share/dsa-planner/python/__pycache__"
    printf '%s\n' "$folders" | while IFS= read -r path; do
        case $path in
            "") ;;
            .) rmdir "$prefix" 2>/dev/null || true ;;
            *) rmdir "$prefix/$path" 2>/dev/null || true ;;
        esac
    done
    printf '%s\n' "$above" | while IFS= read -r path; do
        [ -z "$path" ] || rmdir "$path" 2>/dev/null || true
    done
}

# The first file of the package that is in the prefix already, and not by an earlier installation.
of_others() {
    installed=$prefix/$list
    [ -f "$installed" ] || installed=/dev/null
    cd "$here"
    find bin include lib share ! -type d | sort | while IFS= read -r path; do
        [ -e "$prefix/$path" ] || [ -L "$prefix/$path" ] || continue
        grep -qxF "file $path" "$installed" || { echo "$path"; break; }
    done
}

# Copies the package, and notes in the list what was not there before.
put_there() {
    noted=$(mktemp)
    trap 'rm -f "$noted"' EXIT
    [ -d "$prefix" ] || echo "folder ." > "$noted"
    parent=$(dirname "$prefix")
    while [ ! -d "$parent" ]; do
        echo "above $parent" >> "$noted"
        parent=$(dirname "$parent")
    done
    mkdir -p "$prefix" 2>/dev/null && [ -w "$prefix" ] || fail "cannot write to $prefix"
    cd "$here"
    find bin include lib share -type d | sort | while IFS= read -r path; do
        [ -d "$prefix/$path" ] || echo "folder $path"
    done >> "$noted"
    find bin include lib share ! -type d | sort | sed 's/^/file /' >> "$noted"
    cp -RP bin include lib share "$prefix/"
    cp "$noted" "$prefix/$list"
    chmod 644 "$prefix/$list"
}

if [ $remove = yes ]; then
    take_away
else
    [ -d "$here/bin" ] || fail "$here is not an unpacked package"
    other=$(of_others)
    [ -z "$other" ] || fail "$prefix/$other is there, and not of this package: move it away, or name another prefix"
    [ ! -f "$prefix/$list" ] || take_away # an earlier version
    put_there
fi
# The loader has to learn of the shared object where the prefix is one that it searches.
case $prefix in
    /usr | /usr/local) [ "$(id -u)" != 0 ] || PATH=$PATH:/sbin:/usr/sbin ldconfig ;;
esac
