# The words of gb and gb_ask in bash. In ~/.bashrc: source FOLDER/tools/completions/gb.bash
# Adds the registered tasks that begin with the text before the cursor. It may name a task with the first colon or
# without. Bash parts words at colons: only what follows the last colon is completed.
_gb_tasks() {
    local path typed=${COMP_LINE:0:COMP_POINT}
    typed=${typed##*[[:space:]]}
    for path in $(gb_ask tasks 2>/dev/null | grep -o '^:[^ ]*'); do
        path=${path%:}
        [[ $typed == :* ]] || path=${path#:}
        [[ $path == "$typed"* ]] || continue
        [[ $COMP_WORDBREAKS == *:* ]] && path=${path#"${typed%"${typed##*:}"}"}
        COMPREPLY+=("$path")
    done
}

_gb() {
    local word=${COMP_WORDS[COMP_CWORD]} before=${COMP_WORDS[*]:1:COMP_CWORD-1}
    COMPREPLY=()
    if [[ ${COMP_WORDS[0]##*/} == gb_ask && $COMP_CWORD == 1 ]]; then
        COMPREPLY=($(compgen -W 'why tasks graph check reads makes status fmt help' -- "$word"))
        return
    fi
    case ${COMP_WORDS[0]##*/}:${COMP_WORDS[1]} in
    gb_ask:fmt)
        local IFS=$'\n' forms=
        (( COMP_CWORD == 2 )) && forms=$'--write\n--check'
        compopt -o filenames 2>/dev/null
        COMPREPLY=($(compgen -W "$forms" -- "$word"; compgen -f -- "$word"))
        return ;;
    gb_ask:graph)
        [[ $COMP_CWORD -le 3 && $word == --* ]] &&
            COMPREPLY=($(compgen -W '--why --tree --mermaid --svg --json' -- "$word")) ;;
    gb_ask:why | gb_ask:tasks | gb_ask:check | gb_ask:status)
        [[ $COMP_CWORD == 2 && $word == --* ]] && COMPREPLY=($(compgen -W '--json' -- "$word")) ;;
    gb_ask:reads | gb_ask:makes)
        [[ $COMP_CWORD == 2 && $word == --* ]] && COMPREPLY=($(compgen -W '--json' -- "$word"))
        COMPREPLY+=($(compgen -f -- "$word")) ;;
    gb_ask:help) return ;;
    esac
    case " $before " in
    *" -P " | *" --project-prop ") return ;;
    *" -- "* | *" -x " | *" --exclude-task ") _gb_tasks; return ;;
    esac
    if [[ $word == -* ]]; then
        local options='-x --exclude-task -P --project-prop --continue --rerun-tasks -m --dry-run'
        COMPREPLY+=($(compgen -W "$options" -- "$word"))
    else
        case ${COMP_WORDS[0]##*/}:${COMP_WORDS[1]} in
        gb:* | gb_ask:why | gb_ask:graph) _gb_tasks ;;
        esac
    fi
}
complete -F _gb gb gb_ask
