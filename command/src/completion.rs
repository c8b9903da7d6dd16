//! The completion of the command in bash, made from the table of verbs.

use crate::arguments::{COMMON, Flag, OPTIONS};
use crate::verbs::Verb;

/// What operands and values are called that are files.
const FILES: [&str; 4] = ["TEXT", "CATALOGUE", "STATE", "FILE"];

/// The script for these verbs, which bash-completion loads or a shell sources.
pub fn completion(verbs: &[Verb]) -> String {
    let names: Vec<&str> = verbs.iter().map(|verb| verb.name).collect();
    let options = OPTIONS.map(|flag| flag.name);
    let first = [&names[..], &["help"], &options].concat();
    SCRIPT
        .replace("@FIRST@", &first.join(" "))
        .replace("@NAMES@", &names.join(" "))
        .replace(
            "@VERBS@\n",
            &verbs.iter().map(verb_case).collect::<String>(),
        )
        .replace(
            "@VALUES@\n",
            &verbs.iter().map(value_cases).collect::<String>(),
        )
}

/// All but the three tables.
const SCRIPT: &str = r#"# Completion of the command girvotal in bash, made from the table of verbs by src/completion.rs.

_girvotal() {
    local IFS=$' \t\n' current=${COMP_WORDS[COMP_CWORD]} verb='' value='' ended='' word wanted
    local -a operands=() options=()
    local -i place=0
    COMPREPLY=()
    for word in "${COMP_WORDS[@]:1:COMP_CWORD-1}"; do
        if [[ -z $verb ]]; then
            [[ $word == --json ]] && continue
            verb=$word
            # The operands in order, each a file or none that is known, and the options.
            case $verb in
@VERBS@
                help) operands=('@NAMES@') ;;
                *) return ;;
            esac
        elif [[ -n $value ]]; then
            value=''
        elif [[ $word == *[\<\>] ]]; then
            value=file
        elif [[ -z $ended && $word == -- ]]; then
            ended=yes
        elif [[ -z $ended && $word == -?* ]]; then
            # What follows an option.
            case "$verb $word" in
@VALUES@
            esac
        else
            place+=1
        fi
    done
    if [[ -z $verb ]]; then
        wanted='@FIRST@'
    elif [[ -n $value ]]; then
        wanted=$value
    elif [[ -z $ended && ($current == -* || $place -ge ${#operands[@]}) ]]; then
        wanted=${options[*]}
    elif [[ $place -ge ${#operands[@]} ]]; then
        wanted=none
    else
        wanted=${operands[place]}
    fi
    case $wanted in
        file) compopt -o default ;; # by bash itself
        none) ;;
        *) mapfile -t COMPREPLY < <(compgen -W "$wanted" -- "$current") ;;
    esac
}

complete -F _girvotal girvotal
"#;

/// What is completed where an operand or a value of this name stands.
fn wanted(name: &str) -> &'static str {
    match FILES.contains(&name) {
        true => "file",
        false => "none",
    }
}

/// The case of a verb: its operands and options.
fn verb_case(verb: &Verb) -> String {
    let operands: Vec<&str> = verb.operands.iter().map(|name| wanted(name)).collect();
    let options: Vec<&str> = verb
        .flags
        .iter()
        .chain(&COMMON)
        .map(|flag| flag.name)
        .collect();
    let (operands, options) = (operands.join(" "), options.join(" "));
    format!(
        "                {}) operands=({operands}) options=({options}) ;;\n",
        verb.name
    )
}

/// The cases of a verb's options that a value follows.
fn value_cases(verb: &Verb) -> String {
    let case = |flag: &Flag| {
        let wanted = wanted(flag.value);
        format!(
            "                '{} {}') value='{wanted}' ;;\n",
            verb.name, flag.name
        )
    };
    let valued = verb.flags.iter().filter(|flag| !flag.value.is_empty());
    valued.map(case).collect()
}
