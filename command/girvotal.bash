# Completion of the command girvotal in bash, made from the table of verbs by src/completion.rs.

_girvotal() {
    local IFS=$' \t\n' current=${COMP_WORDS[COMP_CWORD]} verb='' value='' ended='' word wanted
    local -a operands=() options=()
    local -i place=0
    COMPREPLY=()
    for word in "${COMP_WORDS[@]:1:COMP_CWORD-1}"; do
        if [[ -z $verb ]]; then
            [[ $word == --json ]] && continue
            verb=$word
            # The operands in order, each a file or none that is known, and the options.
            case $verb in
                check) operands=(file) options=(--lint --json --help) ;;
                compile) operands=(file) options=(-o --force --wait --json --help) ;;
                text) operands=(file) options=(--exact --owl --split --json --help) ;;
                classify) operands=(file) options=(-o --force --wait --json --help) ;;
                update) operands=(file file) options=(--dry-run --wait --json --help) ;;
                lookup) operands=(file none none) options=(--json --help) ;;
                list) operands=(file none) options=(--direct --json --help) ;;
                above) operands=(file none) options=(--direct --json --help) ;;
                query) operands=(file none) options=(--json --help) ;;
                diff) operands=(file file) options=(--json --help) ;;
                tree) operands=(file) options=(--dot --html -o --force --wait --json --help) ;;
                change) operands=(file) options=(--out --in --touched --dry-run --wait --json --help) ;;
                add) operands=(file none) options=(--touched --dry-run --wait --json --help) ;;
                withdraw) operands=(file none) options=(--touched --dry-run --wait --json --help) ;;
                write) operands=(file) options=(-o --force --wait --json --help) ;;
                explain) operands=(none) options=(--json --help) ;;
                help) operands=('check compile text classify update lookup list above query diff tree change add withdraw write explain') ;;
                *) return ;;
            esac
        elif [[ -n $value ]]; then
            value=''
        elif [[ $word == *[\<\>] ]]; then
            value=file
        elif [[ -z $ended && $word == -- ]]; then
            ended=yes
        elif [[ -z $ended && $word == -?* ]]; then
            # What follows an option.
            case "$verb $word" in
                'compile -o') value='file' ;;
                'compile --wait') value='none' ;;
                'classify -o') value='file' ;;
                'classify --wait') value='none' ;;
                'update --wait') value='none' ;;
                'tree -o') value='file' ;;
                'tree --wait') value='none' ;;
                'change --out') value='none' ;;
                'change --in') value='none' ;;
                'change --wait') value='none' ;;
                'add --wait') value='none' ;;
                'withdraw --wait') value='none' ;;
                'write -o') value='file' ;;
                'write --wait') value='none' ;;
            esac
        else
            place+=1
        fi
    done
    if [[ -z $verb ]]; then
        wanted='check compile text classify update lookup list above query diff tree change add withdraw write explain help --help --version --json'
    elif [[ -n $value ]]; then
        wanted=$value
    elif [[ -z $ended && ($current == -* || $place -ge ${#operands[@]}) ]]; then
        wanted=${options[*]}
    elif [[ $place -ge ${#operands[@]} ]]; then
        wanted=none
    else
        wanted=${operands[place]}
    fi
    case $wanted in
        file) compopt -o default ;; # by bash itself
        none) ;;
        *) mapfile -t COMPREPLY < <(compgen -W "$wanted" -- "$current") ;;
    esac
}

complete -F _girvotal girvotal
