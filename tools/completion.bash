# Completes the words of pipe and of its tools in bash: the options, and within the specification the names of stages, and of files behind < and >.
# Here it is tried by: source tools/completion.bash
# The two lists are those of docs/GUIDE.md; tests/run compares them.
_pipe_stages='< > between block buffer change chop collate console copy count dam deal deblock drop duplicate elastic fanin
    faninany fanout fblock find frlabel gate gather hole inside join juxtapose literal locate lookup merge nfind nlocate overlay
    pad reverse sort specs split strip synchronise take tolabel unique xlate'
_pipe_options='--steps --workers --trace --check --lint --sample --sets'

# _pipe_files TEXT BYTES: the files whose names begin so, and folders with a slash behind them, but for those that have a blank or one of these bytes: a
# specification can't hold their names as they are.
_pipe_files() {
    local file
    compgen -f -- "$1" | while IFS= read -r file; do
        if [[ $file == *["$2 "]* ]]; then
            continue
        fi
        if [[ -d $file ]]; then
            file+=/
        fi
        printf '%s\n' "$file"
    done
}

# _pipe_specification TEXT QUOTE: sets `front` to the part of the text that stays, and `found` to what can stand behind it.
_pipe_specification() {
    local text=$1 ends='|' escape='' options rest
    front='' found=()
    # The characters that are chosen in the parentheses at the front.
    if [[ $text =~ ^(\ *\(([^\)]*)\))(.*)$ ]]; then
        front=${BASH_REMATCH[1]} options=" ${BASH_REMATCH[2],,}" text=${BASH_REMATCH[3]}
        if [[ $options =~ \ (stagesep|sep)\ +([^ ]) ]]; then
            ends=${BASH_REMATCH[2]}
        fi
        if [[ $options =~ \ (endchar|end)\ +([^ ]) ]]; then
            ends+=${BASH_REMATCH[2]}
        fi
        if [[ $options =~ \ (escape|esc)\ +([^ ]) ]]; then
            escape=${BASH_REMATCH[2]}
        fi
    elif [[ $text =~ ^\ *\( ]]; then
        return
    fi
    # The stage that the text ends in, without its label.
    rest=$text
    local k
    for ((k = 0; k < ${#ends}; k++)); do
        rest=${rest##*"${ends:k:1}"}
    done
    if [[ $rest =~ ^\ *[A-Za-z0-9]+:\ *(.*)$ ]]; then
        rest=${BASH_REMATCH[1]}
    fi
    rest=${rest#"${rest%%[! ]*}"}
    front+=${text%"$rest"}
    if [[ $rest =~ ^([<>]\ +)([^ ]*)$ ]]; then
        front+=${BASH_REMATCH[1]}
        mapfile -t found < <(_pipe_files "${BASH_REMATCH[2]}" "$ends$escape$2")
    elif [[ $rest != *' '* ]]; then
        mapfile -t found < <(compgen -W "$_pipe_stages" -- "${rest,,}")
    fi
}

# _pipe_any_file TEXT: answers the files whose names begin so.
_pipe_any_file() {
    compopt -o filenames
    mapfile -t COMPREPLY < <(compgen -f -- "$1")
}

_pipe() {
    local word=${COMP_WORDS[COMP_CWORD]} before=$3 tool=${1##*/} options=$_pipe_options front found=() quote='' earlier
    COMPREPLY=()
    case $tool in
    pipe-draw) options='--names --list --strands --dot --walk' ;;
    pipe-explain) options="--run --look --stage $options" ;;
    pipe-file) options="--print $options" ;;
    pipe-journal) options=--check ;;
    esac
    case $tool,$before in
    pipe-journal,--check) ;;
    *,'<' | *,'>' | *,'>>' | *,'2>' | *,--trace | *,--check | *,--sets)
        _pipe_any_file "$2"
        return
        ;;
    *,--steps | *,--workers | *,--sample | *,--walk) return ;;
    pipe-explain,--stage)
        mapfile -t COMPREPLY < <(compgen -W "$_pipe_stages" -- "${word,,}")
        return
        ;;
    esac
    # One specification is all that there may be. A journal stands behind its own.
    for earlier in "${COMP_WORDS[@]:1:COMP_CWORD-1}"; do
        if [[ $earlier == [\'\"]* ]]; then
            case $tool in
            pipe-journal) _pipe_any_file "$2" ;;
            pipe-draw) ;;
            *) mapfile -t COMPREPLY < <(compgen -W "$options" -- "$word") ;;
            esac
            return
        fi
    done
    case $word in
    -*)
        mapfile -t COMPREPLY < <(compgen -W "$options" -- "$word")
        return
        ;;
    \'* | \"*)
        quote=${word:0:1}
        word=${word:1}
        ;;
    esac
    if [[ $tool == pipe-file ]]; then
        _pipe_any_file "$2"
        return
    fi
    _pipe_specification "$word" "$quote"
    if ((COMP_TYPE == 63)); then
        # They are only listed, and need nothing in front of them.
        COMPREPLY=("${found[@]}")
        return
    fi
    COMPREPLY=("${found[@]/#/$front}")
    if ((${#found[@]} == 1)) && [[ $quote ]]; then
        # The one answer would close the quotes. With a second one they stay open.
        compopt -o nospace
        COMPREPLY+=("${COMPREPLY[0]} ")
    fi
}

complete -F _pipe pipe pipe-draw pipe-explain pipe-file pipe-journal
