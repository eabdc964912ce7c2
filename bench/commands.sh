#!/bin/sh
# How fast the program's commands are on captures of some kinds and sizes, beside `wc -l` and `cat` on the same bytes,
# and the most memory that they take: bench/commands.sh PROGRAM [LARGEST], where no capture has much more than LARGEST
# MB, or than 1,000. The captures stand in a folder that is removed at the end.
set -eu
here=$(dirname "$0")
program=$1
largest=${2-1000}
folder=$(mktemp -d)
trap 'rm -rf "$folder"' EXIT
export PYTHONDONTWRITEBYTECODE=1

# The captures of a kind, in these sizes in MB: rows NAME SIZES KIND [WORD ..].
rows() {
    name=$1
    sizes=$2
    kind=$3
    shift 3
    for size in $sizes; do
        [ "$size" -le "$largest" ] || continue
        python3 "$here/generate.py" "$kind" "${size}000000" "$@" >"$folder/capture"
        python3 "$here/table.py" "$program" "$name, $size MB" "$folder/capture"
    done
}

python3 "$here/table.py"
# A capture of 65,535 blocks of 512 bytes, each once, has 70 MB.
rows "blocks of 512 in lock step" "10 100 1000" capture 512
rows "blocks of 1,428 by windows of 16" "10 100" capture 1428 16
rows "blocks of 65,464 by windows of 4" "10 100" capture 65464 4
rows "netascii, blocks of 1,428 in lock step" "10 100" netascii
# One of 65,535 blocks of 8 bytes has 2.6 MB.
rows "65,535 blocks of 8 in a reversed window" "3 10 100" reversed
# No stray is shorter than the line of an empty block.
rows "524,272 strays of 65,534 peers" "13 100" strays
echo "In 100 MB each block of 512 comes twice before its ACK, in 1000 MB 15 times; blocks of 8 come round and round."
