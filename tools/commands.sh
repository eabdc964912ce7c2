# How the launchers speak, and how the proved program tftp-audit is called, in a checkout as where it is installed. The
# program reads a capture from standard input; a file is opened here. Before it reads this a launcher sets `name`, its
# own, and before `run_command` `program`, the proved program's place.
version=0.2.0

# Words in one line, as they can be printed: what is no plain sign of ASCII is escaped byte by byte, as the programs do.
shown() (
    LC_ALL=C
    case $1 in
        *[!\ -~]*) ;;
        *) printf '%s' "$1" && return ;;
    esac
    printf '%s' "$1" | od -An -v -tu1 |
        awk '{ for (at = 1; at <= NF; at++) printf($at < 32 || $at > 126 ? "\\x%02x" : "%c", $at) }'
)

say() {
    printf '%s: %s\n' "$name" "$(shown "$1")" >&2
}

refuse() {
    say "$1"
    exit 2
}

refuse_option() {
    refuse "there is no option '$1'; $name --help says more"
}

is_readable() {
    [ -r "$1" ] && [ ! -d "$1" ]
}

# The last part of what cat says is the system's reason.
refuse_file() {
    why=$(LC_ALL=C cat -- "$1" 2>&1 >/dev/null) || :
    refuse "cannot read the file '$1': ${why##*: }"
}

# Standard output takes these lines, or the call is refused.
write_out() {
    why='Bad file descriptor'
    { why=$(trap '' PIPE && printf '%s\n' "$1" | LC_ALL=C cat 2>&1 >&3); } 2>/dev/null 3>&1 ||
        refuse "standard output cannot be written: ${why##*: }"
}

help() {
    cat <<'END_OF_HELP'
Whether a recorded TFTP transfer was lawful, and if not, which datagram broke which rule

Usage: tftp-audit <COMMAND> [--rollover <N>] [FILE]
       tftp-audit check --losses [FILE]

Commands:
  check    The verdict, in one line
  extract  The file of an accepted capture
  normal   The normal text of an accepted capture, its shortest lossless equal
  show     A line for each datagram, unjudged
  count    How many datagrams the normal text has

Arguments:
  [FILE]  The capture text of one transfer; without it, or with -, standard input

Options:
      --rollover <N>  What is taken to come after block 65535: 0 or 1; show then names the block
                      beside its number. Without it nothing does, and such a block is refused
      --losses        Of check: where a datagram is refused, a second line says which datagrams
                      must be missing so that the capture is lawful, or that none were found
  -h, --help          Print help
  -V, --version       Print version

Status: 0 where the capture is accepted or was shown; 1 where it is refused, aborted, incomplete
or too long when normal; 2 where it is no capture text, or could not be read or judged.
END_OF_HELP
}

is_command() {
    case ${1-} in
        check | extract | normal | show | count) ;;
        *) false ;;
    esac
}

# Whether a file that can be read again begins as a recording does, of pcap or of pcapng.
is_recording() {
    [ -f "$1" ] || return
    case $(od -An -N4 -tx1 <"$1") in
        *a1\ b2\ c3\ d4* | *a1\ b2\ 3c\ 4d* | *d4\ c3\ b2\ a1* | *4d\ 3c\ b2\ a1* | *0a\ 0d\ 0d\ 0a*) ;;
        *) false ;;
    esac
}

# What the program will tell too, but not how it is mended.
warn() {
    say "$1"
    is_wrong=yes
}

# Says what reads a recording. Linux opens standard input anew by its name, so that nothing of it is taken.
warn_of_recording() {
    case $1 in
        -) ! is_recording /proc/self/fd/0 || warn "standard input is a recording: tftp-transfers check - judges it" ;;
        *) ! is_recording "$1" || warn "'$1' is a recording: tftp-transfers check judges it" ;;
    esac
}

# Takes the number that comes after block 65535.
take_rollover() {
    case $1 in
        0 | 1) rollover=$1 ;;
        *) refuse "--rollover takes 0 or 1, not '$1'" ;;
    esac
}

# The option of check that asks for what is missing.
take_losses() {
    [ "$command" = check ] || refuse "--losses is of check alone; $name --help says more"
    losses=yes
}

# Answers an option and ends; refuses a file that cannot be read, and an option that there is not. What else is wrong with the
# words is the program's to tell, and here it is told how it is called. Behind the word -- a file may begin with a -.
take_words() {
    is_wrong=no
    rollover=
    losses=
    case $#:${1-}:${2-} in
        1:-h: | 1:--help: | 2:*:-h | 2:*:--help) write_out "$(help)" && exit ;;
        1:-V: | 1:--version:) write_out "$name $version" && exit ;;
    esac
    if ! is_command "$@"; then
        warn "call it as tftp-audit check|extract|normal|show|count [FILE]; tftp-audit --help says more"
        return
    fi
    command=$1
    shift
    case ${1-} in
        --rollover)
            take_rollover "${2-}"
            shift 2
            ;;
        --rollover=*)
            take_rollover "${1#*=}"
            shift
            ;;
        --losses)
            take_losses
            shift
            ;;
    esac
    case ${1-} in
        --) shift ;;
        -?*) refuse_option "${1%%=*}" ;;
    esac
    [ "$#" -le 1 ] || refuse "'$command' takes one file, not $#"
    file=${1--}
    [ "$file" = - ] || is_readable "$file" || refuse_file "$file"
    warn_of_recording "$file"
}

# Asks the system to lay what a program keeps of a large capture in large pages, which spares up to a fifth of the time
# (glibc 2.35 or later; others pass over it). Who has set tunables keeps them.
ask_for_large_pages() {
    export GLIBC_TUNABLES="${GLIBC_TUNABLES-glibc.malloc.hugetlb=1}"
}

# Becomes the program.
run_command() {
    ask_for_large_pages
    is_command "$@" || exec "$program" "$@"
    set -- "$command" ${rollover:+--rollover "$rollover"} ${losses:+--losses}
    [ "$file" = - ] || exec "$program" "$@" <"$file"
    exec "$program" "$@"
}
