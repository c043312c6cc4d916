# What the script `lif` of the repository and that of a package share: what is said, what the processor has, and how the program
# is called.

say() {
    echo "lif: $1" >&2
}

# Whether the processor has all that is named. Where it can't be seen, nothing is had.
has_flags() {
    flags=" $(sed -n '/^flags/ { p; q; }' /proc/cpuinfo 2>/dev/null) "
    for flag; do
        case $flags in
        *" $flag "*) ;;
        *) return 1 ;;
        esac
    done
}

# Whether the processor has what the third level of x86-64 asks for.
has_third_level() {
    has_flags avx2 bmi1 bmi2 fma movbe f16c abm
}

# Says the forms of the synopsis of a manual page.
say_forms() {
    awk '/^\.Sh/ { on = /SYNOPSIS/ } on && /^\.Cm/ { word = $2 } on && /^\.Ar/ { $1 = "lif " word; print }' "$1"
}

# Whether a source can't be read, as far as that is seen without reading it.
lacks_source() {
    [ ! -r "$1" ] || [ -d "$1" ] || [ -S "$1" ]
}

# Ends as the program does with the words given. First comes the folder of lifrun.py, which says what operators miss at the
# terminal, and then the program. LIF_QUIET=1 has the program run without it.
call() {
    modules=$1 program=$2
    shift 2
    case ${1-}/$# in
    send/6) sends=yes sent=$5 ;;
    sendtwo/8)
        sends=yes sent=$6
        if ! lacks_source "$sent"; then sent=$7; fi
        ;;
    blind/[4-9] | blind/[1-9][0-9]*) sends=yes sent=$3 ;;
    *) sends='' sent='' ;;
    esac
    # `send`, `sendtwo` and `blind` empty the sinks' files before they read a source. So where one can't be read, those files are
    # others, which are thrown away; what is said and the status are the same.
    if [ -n "$sends" ] && lacks_source "$sent" && room=$(mktemp -d); then
        if [ "${LIF_QUIET-}" != 1 ]; then LC_ALL=C cat -- "$sent" 2>&1 >/dev/null | sed 's/^cat: /lif: /' >&2; fi
        trap 'rm -rf -- "$room"' EXIT
        trap 'exit 1' HUP INT TERM
        if [ "$1" = send ]; then
            "$program" send "$2" "$3" "$4" "$room/source" "$room/out"
        elif [ "$1" = sendtwo ]; then
            "$program" sendtwo "$2" "$3" "$4" "$5" "$room/source" "$room/source" "$room/out"
        else
            code=$2
            shift 4
            "$program" blind "$code" "$room/source" "$room/out" "$@"
        fi
        exit
    fi
    if [ "${LIF_QUIET-}" = 1 ] || ! command -v python3 >/dev/null; then exec "$program" "$@"; fi
    exec python3 -ES "$modules/lifrun.py" "$program" "$@"
}
