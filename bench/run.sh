#!/bin/sh
# How fast the program and the libraries are, and the most memory that they take, each beside `wc -l` and `cat` on the
# same bytes: bench/run.sh PROGRAM BENCH TRANSFERS MATCH, where BENCH is the program of crates/tests_tools, TRANSFERS the
# one that reads recordings, and MATCH the one that reads both ends. First a table of the program's commands
# (commands.sh), then `check` beside the least that any program has to do (least.c), the texts that cost most, and both
# ends; then a line for each call of the libraries, and for the verdicts on recordings. The texts, of up to 1 GB, stand in a
# folder that is removed at the end.
set -eu
here=$(dirname "$0")
program=$1
bench=$2
transfers=$3
match=$4
folder=$(mktemp -d)
trap 'rm -rf "$folder"' EXIT
text=$folder/text

# As the launchers have the programs run (tools/commands.sh).
export GLIBC_TUNABLES="${GLIBC_TUNABLES-glibc.malloc.hugetlb=1}"

generate() {
    python3 "$here/generate.py" "$@" >"$text"
}

measure() {
    name=$1
    shift
    python3 "$here/measure.py" "$name" "$text" "$@"
}

sh "$here/commands.sh" "$program"
# for the processors that the program was built for
case $(cat "$program.processor" 2>/dev/null || :) in
    x86-64-v3) processor=x86-64-v3 ;;
    *) processor=x86-64-v2 ;;
esac
cc -O3 -march="$processor" -o "$folder/least" "$here/least.c"
python3 "$here/least.py" "$program" "$folder/least"
python3 "$here/worst.py" "$program" "$transfers" || echo "A text or a recording takes more than it may."
python3 "$here/matching.py" "$program" "$match" || echo "A pair takes more than it may."

generate wire 100000000
measure "netascii decode" "$bench" netascii-decode
measure "plain copy of the same" "$bench" copy
generate file 100000000
measure "netascii encode" "$bench" netascii-encode
measure "plain copy of the same" "$bench" copy

# Blocks of 1,526 bytes, of which 65,535 are 100 MB, and of 8 bytes; reversed, all blocks of a window of 65,535 but the
# first one wait.
generate random 100000000
for store in map ring; do
    for blocks in large small reversed; do
        measure "$store store, $blocks" "$bench" "$store-$blocks"
    done
done

# 500,000 datagrams of 65,534 strays, by their ports.
generate ports 1000000
measure "strays" "$bench" strays

# Blocks of the usual size, of the size that RFC 2348 names for Ethernet, and of the most that may be agreed.
for block in 512 1428 65464; do
    generate capture 100000000 "$block"
    measure "capture reader, blocks of $block" "$bench" capture
    measure "hex crate alone, blocks of $block" "$bench" hex
    measure "wc -l, blocks of $block" wc -l
    measure "cat, blocks of $block" cat
done
# Recordings: how fast their datagrams are read.
for block in 512 1428; do
    generate recording 100000000 "$block"
    measure "recording reader, blocks of $block" "$bench" recording
    measure "cat, recording in blocks of $block" cat
done
# Their verdicts: of one transfer, beside that of its text, and of a thousand.
generate transfers 100000000
measure "tftp-transfers check, one transfer in blocks of 1428" "$transfers" check --json -
"$transfers" text 1 client "$text" >"$folder/written"
mv "$folder/written" "$text"
measure "tftp-audit check, its text" "$program" check
generate transfers 13968000 12000
measure "tftp-transfers check, 1,000 transfers of 12 kB" "$transfers" check --json -
generate capture 1000000000
measure "capture reader, 1 GB" "$bench" capture
generate acks 100000000
measure "capture reader, acknowledgements" "$bench" capture
measure "tftp-audit show, acknowledgements" "$program" show

# 40 million lines, and as many of the shortest.
generate comments 1000000000
measure "capture reader, comment lines" "$bench" capture
generate short 80000000
measure "capture reader, lines of # alone" "$bench" capture
