# Behind table.awk: the completions for zsh.

# A text between single quotes, with what _arguments reads in its own way marked.
function quoted(text) {
    gsub(/:/, "\\:", text)
    gsub(/\[/, "\\[", text)
    gsub(/\]/, "\\]", text)
    gsub(/'/, "'\\''", text)
    return text
}

# What zsh is to offer for a kind of word.
function action(kind) {
    if (kind ~ /^files?$/) return "_files"
    if (kind == "folder") return "_files -/"
    if (kind == "command") return "(" names ")"
    return kind == "" ? "" : "(" kind ")"
}

function arguments(command, parts, n, i, line, kind, option) {
    line = "        (" command ") _arguments '--help[all of this command]'"
    n = offered_of(command, parts)
    for (i = 1; i <= n; i++) {
        if (parts[i] ~ /^--/) {
            option = option_at(parts, i)
            kind = said["option", option, "kind"]
            line = line " \\\n            '" parts[i] (value_of[option] == "" || kind == "files" ? "" : "=") "[" quoted(said["option", option, "line"]) "]"
            if (value_of[option] != "") {
                line = line (kind == "files" ? ":*" : "") ":" value_of[option] ":" action(kind)
                i++
            }
            line = line "'"
        } else {
            line = line " \\\n            ':" parts[i] ":" action(said["word", parts[i], "kind"]) "'"
        }
    }
    print line " ;;"
}

END {
    for (i = 1; i <= count; i++) names = names (i > 1 ? " " : "") commands[i]
    print "#compdef fux"
    print "# Completions of fux for zsh, made from its table of commands."
    print "_fux() {"
    print "    local context state state_descr line"
    print "    typeset -A opt_args"
    print "    local -a fux_commands"
    print "    fux_commands=("
    for (i = 1; i <= count; i++) print "        '" commands[i] ":" quoted(said["command", commands[i], "line"]) "'"
    print "    )"
    print "    _arguments -C '(- *)--help[what the commands are]' '(- *)--version[what this fux is]' \\"
    print "        '--unproved[run what is compiled without a proof]' '1:command:->command' '*::word:->words'"
    print "    case $state in"
    print "        (command) _describe command fux_commands; return ;;"
    print "    esac"
    print "    case $line[1] in"
    for (i = 1; i <= count; i++) arguments(commands[i])
    print "    esac"
    print "}"
    print "_fux \"$@\""
}
