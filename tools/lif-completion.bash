# Completion of bash for lif and its tools: words, files, and the patterns, sinks and links of networks and codes. To use it in a shell:
#
#     . tools/lif-completion.bash

# The tool that reads the patterns of code files: the one beside this file, or else the installed one.
_lif_estimate=$(cd -- "$(dirname -- "${BASH_SOURCE[0]}")" && pwd)/lif-estimate
if [[ ! -x $_lif_estimate ]]; then _lif_estimate=lif-estimate; fi

# The path that a word stands for.
_lif_path() {
    local word=${1//\\/}
    printf %s "${word/#\~\//$HOME/}"
}

# Offers the files whose names begin so, those with one of the endings alone where there are such, and folders.
_lif_files() {
    local word=$1 ending
    shift
    compopt -o filenames 2>/dev/null
    mapfile -t COMPREPLY < <(for ending; do compgen -f -X "!*$ending" -- "$word"; done; compgen -d -- "$word")
    if ((${#COMPREPLY[@]} == 0)); then
        mapfile -t COMPREPLY < <(compgen -f -- "$word")
    fi
}

# Offers some words.
_lif_words() {
    mapfile -t COMPREPLY < <(compgen -W "$2" -- "$1")
}

# Offers the patterns of a code file; nothing where it is none.
_lif_patterns() {
    _lif_words "$1" "$("$_lif_estimate" "$(_lif_path "$2")" --patterns 2>/dev/null)"
}

# Offers the nodes, the sinks, or the links, of a code file; nothing where it is none.
_lif_nodes() {
    _lif_words "$1" "$("$_lif_estimate" "$(_lif_path "$2")" "$3" 2>/dev/null)"
}

# The nodes of a network text; nothing where no file is there.
_lif_ends() {
    if [[ -f $1 ]]; then awk '$1 == "link" { print $3; print $4 } $1 == "source" || $1 == "sink" { print $2 }' "$1" | sort -u; fi
}

_lif() {
    local word=${COMP_WORDS[COMP_CWORD]}
    COMPREPLY=()
    if ((COMP_CWORD == 1)); then
        _lif_words "$word" "order cuts compile check send demo migrate relay sink blind finish twin sendtwo"
        return
    fi
    case ${COMP_WORDS[1]},$COMP_CWORD in
    order,2 | cuts,2 | compile,2 | twin,2) _lif_files "$word" .net ;;
    compile,3 | check,2 | send,2 | sendtwo,2 | migrate,2 | migrate,3 | relay,2 | sink,2 | blind,2 | finish,3 | twin,6) _lif_files "$word" .lif ;;
    finish,2) _lif_files "$word" .draft ;;
    compile,4 | twin,7) _lif_files "$word" .txt ;;
    twin,3) _lif_words "$word" "$(_lif_ends "$(_lif_path "${COMP_WORDS[2]}")")" ;;
    send,3 | sendtwo,3 | relay,3 | sink,3) _lif_patterns "$word" "${COMP_WORDS[2]}" ;;
    relay,4) _lif_nodes "$word" "${COMP_WORDS[2]}" --nodes ;;
    sink,4) _lif_nodes "$word" "${COMP_WORDS[2]}" --sinks ;;
    send,5 | send,6 | sendtwo,6 | sendtwo,7 | sendtwo,8 | relay,5 | relay,6 | sink,5 | sink,6 | blind,3 | blind,4) _lif_files "$word" "" ;;
    blind,*) _lif_nodes "$word" "${COMP_WORDS[2]}" --links ;;
    esac
}

# The first word of the command line with the ending.
_lif_given() {
    local word
    for word in "${COMP_WORDS[@]:1}"; do
        if [[ $word == *"$1" ]]; then
            _lif_path "$word"
            return
        fi
    done
}

# Names in the network text of the command line: those behind the word.
_lif_names() {
    local net
    net=$(_lif_given .net)
    if [[ -f $net ]]; then awk -v kind="$1" '$1 == kind { print $2 }' "$net"; fi
}

# The links in the network text of the command line, those of bundles by their own names.
_lif_links() {
    local net
    net=$(_lif_given .net)
    if [[ -f $net ]]; then
        awk '$1 == "link" && $5 ~ /^x[0-9]+/ { for (at = 1; at <= substr($5, 2) + 0; at++) print $2 "." at; next }
            $1 == "link" { print $2 }' "$net"
    fi
}

# The nodes of the plan of the command line.
_lif_planned() {
    local plan
    plan=$(_lif_given .json)
    if [[ -f $plan ]]; then sed -nE 's/^ *"(tail|head)": "([^"]*)".*/\2/p' "$plan" | sort -u; fi
}

# The tools: their options and what these take, by their help text, and files.
_lif_tool() {
    local tool=${COMP_WORDS[0]##*/} word=${COMP_WORDS[COMP_CWORD]} before=${COMP_WORDS[COMP_CWORD - 1]} told value
    COMPREPLY=()
    case $tool,$before in
    lif-estimate,--pattern | lif-plan,--pattern) _lif_patterns "$word" "$(_lif_given .lif)" ;;
    *,--pattern) _lif_words "$word" "none $(_lif_names pattern)" ;;
    lif-draw,--sink) _lif_words "$word" "$(_lif_names sink)" ;;
    lif-gain,--second) _lif_words "$word" "$(_lif_ends "$(_lif_given .net)")" ;;
    lif-draw,--failed)
        # Names with a comma between each two: the last one is completed.
        value=${word%"${word##*,}"}
        mapfile -t COMPREPLY < <(compgen -P "$value" -W "$(_lif_links)" -- "${word##*,}")
        ;;
    lif-draw,--report) _lif_files "$word" .txt ;;
    lif-draw,--code) _lif_files "$word" .lif ;;
    lif-draw,-o) _lif_files "$word" .svg .png .pdf ;;
    lif-import,-o) _lif_files "$word" .net ;;
    lif-draft,-o) _lif_files "$word" .draft ;;
    lif-draft,--coefficients) _lif_files "$word" "" ;;
    lif-plan,--places | lif-plan,--addresses | lif-node,--from | lif-node,--to | lif-node,--control | lif-node,--counters)
        _lif_files "$word" ""
        ;;
    *)
        told=$("$(_lif_path "${COMP_WORDS[0]}")" --help 2>/dev/null)
        # What an option takes: its choices are offered, and nothing else of which nothing is known.
        if [[ $before == -* ]]; then value=$(sed -nE "s/^  $before ([^ ]+).*/\1/p" <<<"$told"); fi
        if [[ $value ]]; then
            if [[ $value == {* ]]; then _lif_words "$word" "${value//[\{\},]/ }"; fi
        elif [[ $word == -* ]]; then
            _lif_words "$word" "$(sed -nE 's/^  (-[a-z], )?(--[a-z-]+).*/\2/p' <<<"$told")"
        else
            case $tool in
            lif-import) _lif_files "$word" .graphml .xml .gml .dot .gv .json ;;
            lif-draft) _lif_files "$word" .lif .net ;;
            lif-estimate | lif-plan) _lif_files "$word" .lif ;;
            lif-node)
                if [[ $before == *.json ]]; then _lif_words "$word" "$(_lif_planned)"; else _lif_files "$word" .json; fi
                ;;
            *) _lif_files "$word" .net ;;
            esac
        fi
        ;;
    esac
}

complete -F _lif lif
complete -F _lif_tool lif-draft lif-draw lif-estimate lif-gain lif-import lif-node lif-plan
