# Behind table.awk: the completions for bash.

function options_of(command, parts, n, i, found) {
    n = offered_of(command, parts)
    for (i = 1; i <= n; i++) if (parts[i] ~ /^--/) found = found parts[i] " "
    return found "--help"
}

# The name of an option, and before it a command that has it as a flag, where there is one.
function flagged(option, name, parts, i, j, n) {
    name = option
    sub(/ .*/, "", name)
    if (!(name in value_of)) return "*:" name
    for (i = 1; i <= count; i++) {
        n = words_of(commands[i], parts)
        for (j = 1; j <= n; j++) if (option_at(parts, j) == option) found = found (found == "" ? "" : " | ") commands[i] ":" name
    }
    return found
}

# What may stand first behind a command: the kind of its first word.
function first_kind(command, parts, n) {
    n = words_of(command, parts)
    return n ? said["word", parts[1], "kind"] : ""
}

END {
    print "# Completions of fux for bash, made from its table of commands."
    print "_fux() {"
    print "    local word=${COMP_WORDS[COMP_CWORD]} before=${COMP_WORDS[COMP_CWORD - 1]} at=1 command options=--help words="
    print "    COMPREPLY=()"
    print "    [[ ${COMP_WORDS[1]} == --unproved ]] && at=2"
    print "    command=${COMP_WORDS[at]}"
    print "    if ((COMP_CWORD == at)); then"
    for (i = 1; i <= count; i++) names = names commands[i] " "
    print "        mapfile -t COMPREPLY < <(compgen -W '" names "--help --version --unproved' -- \"$word\")"
    print "        return"
    print "    fi"
    print "    case $command:$before in"
    for (i = 1; i <= option_count; i++) {
        if (value_of[options[i]] == "") continue
        kind = said["option", options[i], "kind"]
        if (kind ~ /^files?$/) print "        " flagged(options[i]) ") compopt -o filenames; mapfile -t COMPREPLY < <(compgen -f -- \"$word\"); return ;;"
        else print "        " flagged(options[i]) ") mapfile -t COMPREPLY < <(compgen -W '" kind "' -- \"$word\"); return ;;"
    }
    print "    esac"
    print "    case $command in"
    for (i = 1; i <= count; i++) {
        kind = first_kind(commands[i])
        if (kind == "command") kind = names
        words = kind == "file" || kind == "folder" ? "" : kind
        print "        " commands[i] ") options='" options_of(commands[i]) "' words='" words "' ;;"
    }
    print "    esac"
    print "    if [[ $word == -* ]]; then"
    print "        mapfile -t COMPREPLY < <(compgen -W \"$options\" -- \"$word\")"
    print "    elif [[ -n $words ]] && ((COMP_CWORD == at + 1)); then"
    print "        mapfile -t COMPREPLY < <(compgen -W \"$words\" -- \"$word\")"
    print "    else"
    print "        compopt -o filenames"
    print "        mapfile -t COMPREPLY < <(compgen -f -- \"$word\")"
    print "    fi"
    print "}"
    print "complete -F _fux fux"
}
