# Completion for bash 4.4 or later of vtt: its commands, options and files. To load it: source scripts/vtt-completion.bash

# Offers the words of a list that begin as the current word does.
_vtt_words() {
    mapfile -t COMPREPLY < <(compgen -W "$1" -- "$2")
}

# Offers files: folders and names that end in .vtt, or all names where there are none of these, or where all are asked for.
_vtt_files() {
    local word=${1#[\'\"]}
    compopt -o filenames 2>/dev/null
    if [[ ${2-} != all ]]; then
        mapfile -t COMPREPLY < <({ compgen -d -- "$word"; compgen -f -X '!*.[vV][tT][tT]' -- "$word"; } | sort -u)
    fi
    if ((${#COMPREPLY[@]} == 0)); then
        mapfile -t COMPREPLY < <(compgen -f -- "$word" | sort -u)
    fi
}

# Offers the names of settings. The value may be an open quotation with other settings before the one that is begun.
_vtt_settings() {
    local value=${1#[\'\"]}
    local begun=${value##* }
    if [[ $begun != *:* ]]; then
        compopt -o nospace 2>/dev/null
        mapfile -t COMPREPLY < <(compgen -P "${value%"$begun"}" -W 'vertical: line: position: size: align: region:' -- "$begun")
    fi
}

# Offers what may stand after a command: its words up to the current one are given.
_vtt_arguments() {
    local command=$1 current=${*: -1} options several=
    case $command in
        list) options='--json' ;;
        tree) options='--line --identifier' ;;
        mend) options='--line --identifier --start --end --id --text --text-file --settings -o --output --in-place --backup --diff' ;;
        rewrite) options='-o --output --in-place --backup' several=yes ;;
        check) options='--strict --all' several=yes ;;
        plain) options='-o --output' ;;
        *) return ;;
    esac
    options+=' -q --quiet -h --help'

    # What the words before the current one leave open: an option's value, options that are not given or ruled out, a file.
    local word awaited='' ended='' gone='' plain=0
    for word in "${@:2:$#-2}"; do
        if [[ $awaited ]]; then
            awaited=
        elif [[ $word =~ ^[0-9]*\&?[\<\>]+[\&|]?$ ]]; then
            awaited='>'
        elif [[ $ended || $word == - || $word != -* ]]; then
            plain=$((plain + 1))
        elif [[ $word == -- ]]; then
            ended=yes
        else
            case ${word%%=*} in
                -q | --quiet) gone+=' -q --quiet' ;;
                -h | --help) gone+=' -h --help' ;;
                -o | --output) gone+=' -o --output --in-place --backup --diff' several= ;;
                --in-place) gone+=' --in-place -o --output --diff' ;;
                --backup) gone+=' --backup -o --output --diff' ;;
                --diff) gone+=' --diff -o --output --in-place --backup' ;;
                --line | --identifier) gone+=' --line --identifier' ;;
                --text | --text-file) gone+=' --text --text-file' ;;
                *) gone+=" ${word%%=*}" ;;
            esac
            case $word in
                -o | --output | --line | --identifier | --start | --end | --id | --text | --text-file | --settings) awaited=$word ;;
            esac
        fi
    done
    if ((plain > 1)); then
        gone+=' --line --identifier'
    fi
    if [[ ! $awaited && ! $ended && $current == --*=* ]]; then
        awaited=${current%%=*} current=${current#*=}
    fi

    case $awaited in
        '>' | -o | --output | --text-file) _vtt_files "$current" all ;;
        --settings) _vtt_settings "$current" ;;
        ?*) ;;
        *) _vtt_options_or_files ;;
    esac
}

# Offers options where one is begun or no file may follow, else files. What is known of the line is in the caller's variables.
_vtt_options_or_files() {
    local offered=() option
    if [[ $several ]] || ((plain == 0)); then
        if [[ $ended || $current != -* ]]; then
            _vtt_files "$current"
            return
        fi
    fi
    if [[ ! $ended ]]; then
        for option in $options; do
            [[ " $gone " == *" $option "* ]] || offered+=("$option")
        done
        _vtt_words "${offered[*]}" "$current"
    fi
}

_vtt() {
    local IFS=$' \t\n' commands='list tree mend rewrite check plain'
    # Bash parts words at = and : too. Here they are whole again; of the current one it replaces only what stands after the last such sign.
    local words=() before='' parted='' word
    for word in "${COMP_WORDS[@]:1:COMP_CWORD}"; do
        before=
        if [[ $parted || $word =~ ^[=:]+$ ]] && ((${#words[@]} > 0)); then
            before=${words[-1]}
            words[-1]+=$word
        else
            words+=("$word")
        fi
        parted=
        if [[ $word =~ ^[=:]+$ ]]; then
            parted=yes before=${words[-1]}
        fi
    done
    word=${words[-1]}

    COMPREPLY=()
    case ${#words[@]}:${words[0]} in
        1:-*) _vtt_words '-h --help -V --version' "$word" ;;
        1:*) _vtt_words "$commands help" "$word" ;;
        2:help) _vtt_words "$commands" "$word" ;;
        # Where words are not parted at =, bash would replace the option, too.
        *) [[ $word == --*=* && ! $before ]] || _vtt_arguments "${words[@]}" ;;
    esac
    before=${before#--*=}
    COMPREPLY=("${COMPREPLY[@]#"$before"}")
}

complete -F _vtt vtt ./vtt
