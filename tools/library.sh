#!/bin/sh
# Builds a library of the repository in a copy of what it is built of, and hands it out:
#   library.sh COPIES NAME LIBRARY..   COPIES has the copies, each by its library's name; the libraries that NAME stands on
#                                      are built in theirs
# What rt says stands in COPIES/NAME/log. Status 0 if it was built, or stands there already, built of the same sources.
set -eu

top=$(dirname "$(dirname "$(readlink -f "$0")")")
copies=$1
name=$2
shift 2

# A folder into another one, by links where both lie on one file system.
link_to() {
    cp -Rl "$1" "$2" 2>/dev/null || { rm -rf "$2/$(basename "$1")" && cp -R "$1" "$2"; }
}

# The sources that it is built of: its own, and those of the libraries below it.
sources() {
    cd "$top"
    for it in "$name" "$@"; do
        grep "^$it[ :]" crates.txt
        find "crates/$it" -type f \( -path '*/src/*' -o -path '*/specs/*' -o -path '*/proofs/*' \) -exec cksum {} +
    done | LC_ALL=C sort | cksum
}

made_of=$top/crates/$name/out/made-of
sum=$(sources "$@")
if [ -d "$top/crates/$name/out/rlib" ] && [ "$sum" = "$(cat "$made_of" 2>/dev/null)" ]; then
    mkdir -p "$copies/$name/crates/$name"
    link_to "$top/crates/$name/out" "$copies/$name/crates/$name"
    exit 0
fi
mkdir "$copies/$name/crates"
for it in "$name" "$@"; do
    grep "^$it[ :]" "$top/crates.txt" >>"$copies/$name/crates.txt"
    mkdir "$copies/$name/crates/$it"
    for part in src specs proofs; do
        [ ! -d "$top/crates/$it/$part" ] || cp -R "$top/crates/$it/$part" "$copies/$name/crates/$it"
    done
    if [ "$it" != "$name" ]; then
        mkdir "$copies/$name/crates/$it/out"
        link_to "$copies/$it/crates/$it/out/rlib" "$copies/$name/crates/$it/out"
    fi
done
cp "$top/HANDLES" "$copies/$name"
cd "$copies/$name/crates/$name"
rt lib >../../log 2>&1
rm -rf "$top/crates/$name/out"
link_to out "$top/crates/$name"
printf '%s\n' "$sum" >"$made_of"
echo "checked $name"
