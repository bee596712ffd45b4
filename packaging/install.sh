#!/bin/sh
# Installs jk, or takes it away again. It needs nothing but the programs of a POSIX system.
#
# usage: ./install.sh [--prefix DIR] [--uninstall]      (/usr/local)
set -eu
cd "$(dirname "$0")"
prefix=/usr/local
uninstall=
while [ $# -gt 0 ]; do
    case $1 in
        --prefix) [ $# -gt 1 ] && prefix=$2 && shift 2 ;;
        --prefix=*) prefix=${1#--prefix=} && shift ;;
        --uninstall) uninstall=yes && shift ;;
        *) sed -n 's/^# usage/usage/p' install.sh >&2 && exit 2 ;;
    esac
done
case $prefix in
    /*) ;;
    *) prefix=$OLDPWD/$prefix ;;
esac

if [ -n "$uninstall" ]; then
    (cd files && find . -type f -o -type l) | while read -r file; do rm -f "$prefix/$file"; done
    # The deepest folders first; one that has something else stays.
    (cd files && find . -depth -type d ! -name .) | while read -r folder; do
        rmdir "$prefix/$folder" 2> /dev/null || true
    done
    echo "jk is no longer in $prefix"
else
    mkdir -p "$prefix"
    (cd files && find . -type d) | while read -r folder; do mkdir -p "$prefix/$folder"; done
    (cd files && find . -type f -o -type l) | while read -r file; do
        # A file that runs now is replaced, and not written to.
        rm -f "$prefix/$file"
        cp -P "files/$file" "$prefix/$file"
    done
    echo "jk is in $prefix: $prefix/bin/jk"
fi
