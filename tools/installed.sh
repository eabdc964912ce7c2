#!/bin/sh
# tftp-audit where it is installed: opens the file that is named, and runs the proved program on it.
set -u

self=$0
[ ! -h "$self" ] || self=$(readlink -f "$self")
case $self in */*) lib=${self%/*}/../lib/tftp-audit ;; *) lib=../lib/tftp-audit ;; esac
name=tftp-audit
program=$lib/tftp-audit

. "$lib/commands.sh"

take_words "$@"
run_command "$@"
