#!/bin/sh
# tftp-transfers where it is installed: extract is a script's, and all other words the proved program's.
set -u

self=$0
[ ! -h "$self" ] || self=$(readlink -f "$self")
case $self in */*) lib=${self%/*}/../lib/tftp-audit ;; *) lib=../lib/tftp-audit ;; esac

case ${1-} in
    extract) shift && exec "$lib/tftp-extract" "$@" ;;
esac
exec "$lib/tftp-transfers" "$@"
