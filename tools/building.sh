# What ./tftp-audit, ./tftp-transfers and ./tftp-match share: a program is proved and built where its sources are not those that it
# was built of, or where it was built for another processor. Before it reads this a launcher reads commands.sh, and sets
# `top`, where the repository is; `name` and `crate`, those of its program; `takes`, how long a build takes; `usage`, how
# the program is called, where that is told before it is built; and trial_run, which builds the program, with the words for
# rt that it is given, and tries it. tests/here.sh reads it too.
#   NAME --build   only builds the program, for the processor at hand
#   NAME --ready   only builds it where a call would
#   NAME --gate    proves all from nothing with rt ci, which builds all of them too, for any; its status is rt's

# Where the program of a crate is built.
program_of() {
    printf '%s/crates/%s/out/%s' "$top" "$1" "$1"
}

# What `find` tells of the files that a build reads, and of others.
sources() {
    (cd "$top" && find crates.txt crates/*/src crates/*/specs crates/*/proofs "$@")
}

checksums() {
    sources -type f -exec cksum {} + | LC_ALL=C sort
}

# Names, sizes and times of the files, without reading them. %C@ is when a file was last changed in any way: it cannot
# be set back, as the time of its bytes can.
states() {
    sources "$@" -type f -printf '%p %i %s %C@\n' | cksum
}

# A program's state beside that of the sources.
states_with() {
    states "crates/$1/out/$1"
}

# What a program is to be built for: x86-64-v3, which is processors with AVX2 and what came with it, where the one at
# hand has all of that, and else any. TFTP_AUDIT_CPU says it instead.
processor() {
    if [ -n "${TFTP_AUDIT_CPU-}" ]; then
        echo "$TFTP_AUDIT_CPU"
        return
    fi
    # one line alone: there are some dozens for each processor; other architectures have none
    flags="$(grep -s -m 1 '^flags' /proc/cpuinfo || :) "
    for it in avx2 bmi1 bmi2 f16c fma abm movbe; do
        case $flags in
            *" $it "*) ;;
            *) echo any && return ;;
        esac
    done
    echo x86-64-v3
}

# Beside a program stand the checksums of the sources that it was built of, and its own, and what it was built for;
# nothing does while it is built. The checksums are taken only where the states are not those for which that was last
# found: a checkout that was copied, or a source that was changed back.
is_built() {
    [ -x "$program" ] && [ -f "$program.sources" ] || return
    now=$(states_with "$crate")
    [ "$now" != "$(cat "$program.states" 2>/dev/null)" ] || return 0
    [ "$(checksums && cksum <"$program")" = "$(cat "$program.sources")" ] || return
    # in a checkout that cannot be written they are taken again at each call
    printf '%s\n' "$now" 2>/dev/null >"$program.states" || :
}

# Whether a call can run the program as it is: it was built of the sources at hand, and for any processor or for this
# one. A checkout may have come from another machine, so the one at hand is looked up each time, but where any will do.
is_ready() {
    read -r built_for 2>/dev/null <"$program.processor" || return
    [ "$built_for" = any ] || [ "$built_for" = "$(processor)" ] || return
    is_built
}

# Whether it is also what --build would make.
is_best() {
    is_ready && [ "$built_for" = "$(processor)" ]
}

# Does what builds the programs of these crates for such a processor, and records what they were built of and for, and
# their SHA-256, without which none is packed. An edit meanwhile, even one that was taken back, may stand in a program:
# nothing is recorded then, and it is built again at the next call.
build_by() {
    built_for=$1
    crates=$2
    shift 2
    state=$(states)
    before=$(checksums)
    for it in $crates; do
        built=$(program_of "$it")
        rm -f "$built.sources" "$built.processor" "$built.states" "$built.sha256"
    done
    "$@" || return
    [ "$(states)" = "$state" ] || return 0
    for it in $crates; do
        built=$(program_of "$it")
        echo "$built_for" >"$built.processor"
        sha256sum <"$built" >"$built.sha256"
        printf '%s\n' "$before" "$(cksum <"$built")" >"$built.sources"
    done
}

# The crates of the repository that one is made of, its own first, each with those of them that it stands on; in crates.txt
# a comment goes from a # to the end of the line, and words may stand behind a crate's name.
crates_of() {
    awk -F: -v of="$1" '
        { sub(/#.*/, ""); split($1, words, " ") }
        words[1] != "" { uses[words[1]] = $2 }
        END {
            todo[1] = of
            seen[of]
            for (all = at = 1; at <= all; at++) {
                count = split(uses[todo[at]], names, " ")
                printf "%s:", todo[at]
                for (it = 1; it <= count; it++) {
                    if (!(names[it] in uses)) continue
                    printf " %s", names[it]
                    if (!(names[it] in seen)) { seen[names[it]]; todo[++all] = names[it] }
                }
                print ""
            }
        }' "$top/crates.txt"
}

count_crates() {
    crates_of "$crate" | wc -l
}

# Rules for make: a library is built once those that it stands on are.
rules() {
    for it in $(crates_of "$crate" | sed 's/:.*//'); do
        below=$(crates_of "$it" | sed '1d; s/:.*//' | tr '\n' ' ')
        case $it in
            "$crate") printf 'all: %s\n' "$below" ;;
            *) printf '%s: %s\n\tmkdir "$$COPIES/$@" && "$$TOP/tools/library.sh" "$$COPIES" $@ $^\n' "$it" "$below" ;;
        esac
    done
}

# Builds the libraries that a program stands on, two at a time, before its first build. Each has a copy of its sources, since a
# run of rt waits for others in the folders of all that its crate stands on. It only saves time: what is not built so, for
# want of make or for an error, the program's own build comes to, and tells why.
libraries() {
    [ ! -e "$program" ] || return 0
    cache=${XDG_CACHE_HOME:-${HOME:-${TMPDIR:-/tmp}}/.cache}/tftp-audit
    copies=$(mkdir -p "$cache" && mktemp -d "$cache/build.XXXXXX") || return 0
    # what builds that were ended by force have left
    find "$cache" -maxdepth 1 -name 'build.*' -mtime +1 -exec rm -rf {} +
    rules | MAKEFLAGS= TOP=$top COPIES=$copies make -s -j 2 -f - all || :
    rm -rf "$copies"
}

# How far a build is that began then, by what is said of each crate that was checked: by rt its verdict.
progress() {
    at=$(($(grep -c -e '^logic=proved' -e '^checked ' "$log") + 1))
    [ "$at" -le "$2" ] || at=$2
    seconds=$(($(date +%s) - $1))
    # at most: what was proved before is not proved again
    printf 'crate %d of at most %d, %d min %02d s' "$at" "$2" "$((seconds / 60))" "$((seconds % 60))"
}

# Writes that again each second into one line, while the launcher lives.
show_progress() {
    begun=$(date +%s)
    all=$(count_crates)
    while kill -0 "$$" 2>/dev/null; do
        printf '\r%s: %s\033[K' "$name" "$(progress "$begun" "$all")" >&2
        sleep 1
    done
}

# Does what builds the program while its progress is shown.
watched() {
    show_progress &
    shown=$!
    trap 'kill "$shown"; exit 130' HUP INT TERM
    "$@" >>"$log" 2>&1
    status=$?
    trap - HUP INT TERM
    kill "$shown"
    wait "$shown" 2>/dev/null
    printf '\r\033[K' >&2
    [ "$status" -eq 0 ] || tail -n 12 "$log" >&2
    return "$status"
}

# Does it while all that rt says is passed on.
passed_on() {
    return "$({ { "$@" 2>&1 3>&-; echo "$?" >&3; } | tee -a "$log" >&2; } 3>&1)"
}

# What rt says goes to the file, and, where nobody looks on, to standard error too.
logged() {
    if [ -t 2 ]; then watched "$@"; else passed_on "$@"; fi
}

# Proves all from nothing, and builds the programs, for any processor. What rt writes is kept too; what it said of
# earlier builds is not of these programs.
gate() {
    rm -f "$top"/out/*.log
    mkdir -p "$top/out" || return
    exec 4>&1
    return "$({ { (cd "$top" && rt ci) 3>&- 4>&-; echo "$?" >&3; } | tee "$top/out/gate.log" >&4; } 3>&1)"
}

# The libraries are not built for a processor: rt has no word for that.
build_all() {
    libraries
    if [ "$1" = any ]; then trial_run; else trial_run "--cpu=$1"; fi
}

# A trial run ends with status 0, so another status is that of a build that failed.
build() {
    log=$top/out/$name.log
    mkdir -p "$top/out" && : >"$log" || refuse "cannot write the file '$log'"
    say "proving and building the program: $takes from nothing, less after an edit; what rt says is in $log"
    wanted=$(processor)
    build_by "$wanted" "$crate" logged build_all "$wanted" && return
    refuse "the program was not built, so nothing is run"
}

# Whether some word is a file that can be read, or standard input.
has_file() {
    for word; do
        [ "$word" = - ] || is_readable "$word" || continue
        return 0
    done
    return 1
}

# Whether the program has an option, by its usage, and whether a value stands behind that.
has_option() {
    case $usage in *"[${1}]"* | *"[${1} "* | *"|${1} "*) ;; *) false ;; esac
}

takes_value() {
    case $usage in *"[${1} "*) ;; *) false ;; esac
}

help_unbuilt() {
    cat <<END_OF_HELP
Usage: $usage

The program is not built here, or not of these sources. Any call with other words proves and builds it first, which takes
$takes from nothing; then its own help says more. Its manual page is docs/man/$name.1 of the sources.

  --build  Only build it, for the processor at hand
  --ready  Only build it where a call would
  --gate   Prove all from nothing, which builds all three programs
END_OF_HELP
}

# Answers what needs no program, and refuses an option that it has not, so that nobody waits for a build to be told.
answer_unbuilt() {
    while [ "$#" -gt 0 ]; do
        case $1 in
            --) return ;;
            -h | --help) write_out "$(help_unbuilt)" && exit ;;
            -V | --version) write_out "$name $version" && exit ;;
            -?*) has_option "${1%%=*}" || refuse_option "${1%%=*}" ;;
        esac
        ! takes_value "$1" || [ "$#" -eq 1 ] || shift
        shift
    done
}

# Builds the program where that is due, and becomes it. Its own help calls it by the name under which it was started.
become_program() {
    if ! is_ready; then
        answer_unbuilt "$@"
        build
    fi
    link=$(dirname "$program")/$name
    [ -h "$link" ] || ln -s "$crate" "$link" 2>/dev/null || link=$program
    ask_for_large_pages
    exec "$link" "$@"
}

case ${TFTP_AUDIT_CPU-} in
    '' | any | x86-64-v3) ;;
    *) refuse "TFTP_AUDIT_CPU is any or x86-64-v3, not '$TFTP_AUDIT_CPU'" ;;
esac
program=$(program_of "$crate")
case $#${1-} in
    1--build)
        is_best || build
        exit 0
        ;;
    1--ready)
        is_ready || build
        exit 0
        ;;
    1--gate)
        build_by any 'tftp_audit tftp_transfers tftp_match' gate
        exit
        ;;
esac
