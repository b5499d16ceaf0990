# Completion of `lines` for bash.
_lines() {
    local word=${COMP_WORDS[COMP_CWORD]} before=${COMP_WORDS[COMP_CWORD-1]} command=${COMP_WORDS[1]}
    local kinds="fault lost odd usual header program no-path no-file goes-down below-code past-code no-end same-path overlap file-0 merged dropped"
    local of_file="--raw --address-size --line-str --str --debug-dir --memory-limit --help" options
    COMPREPLY=()
    if [ "$COMP_CWORD" = 1 ]; then
        COMPREPLY=($(compgen -W "where index at source units files rows check stat diff help --help --version" -- "$word"))
        return
    fi
    case $before in
        --raw) COMPREPLY=($(compgen -W "little big" -- "$word")); return ;;
        --address-size) COMPREPLY=($(compgen -W "1 2 4 8" -- "$word")); return ;;
        --deny | --allow) COMPREPLY=($(compgen -W "$kinds" -- "$word")); return ;;
        --index | --output | -o | --exe | -e) COMPREPLY=($(compgen -f -- "$word")); return ;;
        --relative-to | --indexes | --source-dir | --debug-dir) COMPREPLY=($(compgen -d -- "$word")); return ;;
        --bias | --context | -C | --memory-limit) return ;;
    esac
    case $command in
        where) options="$of_file --addresses --exe --basenames --relative-to --bias --functions --pretty --source --source-dir --map --index --indexes --files --json" ;;
        index) options="$of_file --output" ;;
        at) options="$of_file --after-prologue --columns --range --json" ;;
        source) options="$of_file --context --source --source-dir --map --json" ;;
        rows) options="$of_file --whole-paths --json" ;;
        check) options="$of_file --deny --allow --all --json" ;;
        units | files | stat) options="$of_file --json" ;;
        diff) options="$of_file --map --json" ;;
        help) COMPREPLY=($(compgen -W "where index at source units files rows check stat diff" -- "$word")); return ;;
        *) return ;;
    esac
    case $word in
        -*) COMPREPLY=($(compgen -W "$options" -- "$word")) ;;
        *) COMPREPLY=($(compgen -f -- "$word")) ;;
    esac
}
complete -o filenames -F _lines lines
