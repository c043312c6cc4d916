#compdef lif lif-draft lif-draw lif-estimate lif-gain lif-import lif-node lif-plan
# Completion of zsh for lif and its tools: words, files, and the patterns, sinks and links of networks and codes. It goes as _lif to a
# folder of fpath; the patterns of codes need lif-estimate on the path.

# Offers the patterns of a code file; nothing where it is none.
_lif_patterns() {
    local -a patterns
    patterns=(${(f)"$(lif-estimate ${~${(Q)1}} --patterns 2>/dev/null)"})
    compadd -a patterns
}

# Offers the nodes, the sinks, or the links, of a code file; nothing where it is none.
_lif_nodes() {
    local -a names
    names=(${(f)"$(lif-estimate ${~${(Q)1}} $2 2>/dev/null)"})
    compadd -a names
}

# Offers the nodes of a network text; nothing where no file is there.
_lif_ends() {
    local -aU names
    names=(${(f)"$(awk '$1 == "link" { print $3; print $4 } $1 == "source" || $1 == "sink" { print $2 }' ${~${(Q)1}} 2>/dev/null)"})
    compadd -a names
}

_lif_program() {
    if ((CURRENT == 2)); then
        compadd order cuts compile check send demo migrate relay sink blind finish twin sendtwo
        return
    fi
    case $words[2],$CURRENT in
    order,3 | cuts,3 | compile,3 | twin,3) _files -g '*.net' ;;
    compile,4 | check,3 | send,3 | sendtwo,3 | migrate,3 | migrate,4 | relay,3 | sink,3 | blind,3 | finish,4 | twin,7) _files -g '*.lif' ;;
    finish,3) _files -g '*.draft' ;;
    compile,5 | twin,8) _files -g '*.txt' ;;
    twin,4) _lif_ends $words[3] ;;
    send,4 | sendtwo,4 | relay,4 | sink,4) _lif_patterns $words[3] ;;
    relay,5) _lif_nodes $words[3] --nodes ;;
    sink,5) _lif_nodes $words[3] --sinks ;;
    send,6 | send,7 | sendtwo,7 | sendtwo,8 | sendtwo,9 | relay,6 | relay,7 | sink,6 | sink,7 | blind,4 | blind,5) _files ;;
    blind,*) _lif_nodes $words[3] --links ;;
    esac
}

# Offers names in the network text of the command line: those behind the word, and others.
_lif_names() {
    local -a names nets
    nets=(${(M)words:#*.net})
    names=(${(f)"$(awk -v kind=$1 '$1 == kind { print $2 }' ${~${(Q)nets[1]}} 2>/dev/null)"})
    compadd -- "${@:2}" $names
}

# Offers the links in the network text of the command line, those of bundles by their own names, behind what stands before the
# last comma of the word.
_lif_links() {
    local -a names nets
    local begin=${(M)words[CURRENT]##*,}
    nets=(${(M)words:#*.net})
    names=(${(f)"$(awk '$1 == "link" && $5 ~ /^x[0-9]+/ { for (at = 1; at <= substr($5, 2) + 0; at++) print $2 "." at; next }
        $1 == "link" { print $2 }' ${~${(Q)nets[1]}} 2>/dev/null)"})
    names=($begin${^names})
    compadd -a names
}

# Offers the nodes of the plan of the command line.
_lif_planned() {
    local -aU names
    names=(${(f)"$(sed -nE 's/^ *"(tail|head)": "([^"]*)".*/\2/p' ${~${(Q)1}} 2>/dev/null)"})
    compadd -a names
}

# The tools: their options and what these take, by their help text, and files.
_lif_tool() {
    local word=$words[CURRENT] before=$words[CURRENT-1] value
    local -a told codes options choices
    case ${words[1]:t},$before in
    lif-estimate,--pattern | lif-plan,--pattern)
        codes=(${(M)words:#*.lif})
        _lif_patterns $codes[1]
        ;;
    *,--pattern) _lif_names pattern none ;;
    lif-draw,--sink) _lif_names sink ;;
    lif-gain,--second)
        codes=(${(M)words:#*.net})
        _lif_ends $codes[1]
        ;;
    lif-draw,--failed) _lif_links ;;
    lif-draw,--report) _files -g '*.txt' ;;
    lif-draw,--code) _files -g '*.lif' ;;
    lif-draw,-o) _files -g '*.(svg|png|pdf)' ;;
    lif-import,-o) _files -g '*.net' ;;
    lif-draft,-o) _files -g '*.draft' ;;
    lif-draft,--coefficients) _files ;;
    lif-plan,--places | lif-plan,--addresses | lif-node,--from | lif-node,--to | lif-node,--control | lif-node,--counters) _files ;;
    *)
        told=(${(f)"$(${~words[1]} --help 2>/dev/null)"})
        # What an option takes: its choices are offered, and nothing else of which nothing is known.
        value=''
        if [[ $before == -* ]]; then value=${${${(M)told:#  $before [^ ]*}[1]#  $before }%% *}; fi
        if [[ -n $value ]]; then
            choices=(${(s:,:)${${(M)value:#\{*}//[\{\}]/}})
            if (($#choices)); then compadd -a choices; fi
        elif [[ $word == -* ]]; then
            options=(${${${(M)told:#  (-h, |)--*}##  (-h, |)}%% *})
            compadd -a options
        else
            case ${words[1]:t} in
            lif-import) _files -g '*.(graphml|xml|gml|dot|gv|json)' ;;
            lif-draft) _files -g '*.(lif|net)' ;;
            lif-estimate | lif-plan) _files -g '*.lif' ;;
            lif-node) if [[ $before == *.json ]]; then _lif_planned $before; else _files -g '*.json'; fi ;;
            *) _files -g '*.net' ;;
            esac
        fi
        ;;
    esac
}

_lif() {
    if [[ ${words[1]:t} == lif-* ]]; then _lif_tool; else _lif_program; fi
}

_lif "$@"
