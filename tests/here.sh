#!/bin/sh
# After the gate, whose programs are for any processor, builds the programs for the one at hand, where that is another
# build, and tries them as those of the gate were tried.
set -eu

top=$(dirname "$(dirname "$(readlink -f "$0")")")
name=here.sh
crate=tftp_audit

. "$top/tools/commands.sh"
. "$top/tools/building.sh"

if [ "$(processor)" = any ]; then
    echo "the programs for this processor are those for any, so there is nothing more to try"
    exit
fi
make -s -C "$top" build
echo "the programs for this processor:"
make -s -C "$top" check-programs
