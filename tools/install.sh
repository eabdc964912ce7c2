#!/bin/sh
# Puts the built programs, the scripts and their pages below a folder, and takes away what was put there.
#   tools/install.sh install PREFIX     run at the top of the repository, after a build
#   tools/install.sh uninstall PREFIX
# Each file is written down in lib/tftp-audit/installed, and each folder that was not there before: these and no others
# are taken away. What an older install put there is taken away first.
set -eu

action=$1
prefix=$2
list=lib/tftp-audit/installed
scripts='tftp-explain tftp-extract tftp-ladder tftp-report tftp-trial'

record() {
    printf '%s %s\n' "$1" "$2" >>"$prefix/$list"
}

# Makes a folder and those above it, below the prefix.
make_folder() {
    [ -d "$prefix/$1" ] && return
    case $1 in */*) make_folder "${1%/*}" ;; esac
    install -d "$prefix/$1"
    record folder "$1"
}

# put MODE FOLDER FILE..
put() {
    mode=$1
    folder=$2
    shift 2
    make_folder "$folder"
    for file; do
        put_as "$mode" "$file" "$folder/${file##*/}"
    done
}

# put_as MODE FILE PLACE
put_as() {
    make_folder "${3%/*}"
    install -m "$1" "$2" "$prefix/$3"
    record file "$3"
}

link_scripts() {
    for script in $scripts; do
        put 755 lib/tftp-audit "tools/$script"
        ln -sf "../lib/tftp-audit/$script" "$prefix/bin/$script"
        record file "bin/$script"
    done
}

# What Python made of the modules goes with them.
uninstall() {
    [ -f "$prefix/$list" ] || return 0
    listed=$(cat "$prefix/$list")
    rm -f "$prefix/$list"
    rm -rf "$prefix/lib/tftp-audit/tftp_tools/__pycache__"
    printf '%s\n' "$listed" | sed -n 's/^file //p' | while read -r name; do
        rm -f "$prefix/$name"
    done
    # the folders below first; one that has something of another's stays
    printf '%s\n' "$listed" | sed -n 's/^folder //p' | LC_ALL=C sort -r | while read -r name; do
        rmdir "$prefix/$name" 2>/dev/null || :
    done
}

# The list stands in a folder that is made before it.
begin_list() {
    for folder in lib lib/tftp-audit; do
        [ -d "$prefix/$folder" ] || made="${made-}folder $folder
"
    done
    install -d "$prefix/lib/tftp-audit"
    printf '%s' "${made-}" >"$prefix/$list"
}

put_all() {
    put_as 755 tools/installed.sh bin/tftp-audit
    put_as 755 crates/tftp_audit/out/tftp_audit lib/tftp-audit/tftp-audit
    put 644 lib/tftp-audit tools/commands.sh
    put_as 755 tools/installed_transfers.sh bin/tftp-transfers
    put_as 755 crates/tftp_transfers/out/tftp_transfers lib/tftp-audit/tftp-transfers
    put_as 755 crates/tftp_match/out/tftp_match bin/tftp-match
    put 644 lib/tftp-audit/tftp_tools tools/tftp_tools/*.py
    link_scripts
    put 644 share/man/man1 docs/man/*.1
    put 644 share/tftp-audit/wireshark share/wireshark/tftp-audit.lua
    put 644 share/tftp-audit/schemas docs/schemas/*.json
    put 644 share/doc/tftp-audit README.md CHANGELOG.md SECURITY.md LICENSE LICENSE-MIT LICENSE-APACHE
    put 644 share/doc/tftp-audit/docs docs/*.md
    # they are made of the sources, by make doc
    [ -e docs/contracts/README.md ] || python3 tools/contracts >/dev/null
    put 644 share/doc/tftp-audit/docs/contracts docs/contracts/*.md
    put 644 share/doc/tftp-audit/examples examples/*
    put 644 share/bash-completion/completions share/completions/bash/*
    put 644 share/zsh/site-functions share/completions/zsh/*
    put 644 share/fish/vendor_completions.d share/completions/fish/*
}

case $action in
    install)
        uninstall
        begin_list
        put_all
        ;;
    uninstall) uninstall ;;
    *)
        echo "install.sh: install or uninstall, not '$action'" >&2
        exit 2
        ;;
esac
