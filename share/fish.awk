# Behind table.awk: the completions for fish.

function quoted(text) {
    gsub(/\\/, "\\\\", text)
    gsub(/'/, "\\'", text)
    return "'" text "'"
}

# What fish is to offer for a kind of word.
function offer(kind) {
    if (kind ~ /^files?$/ || kind == "folder") return " -F"
    return kind == "" ? " -f" : " -f -a " quoted(kind)
}

function arguments(command, parts, n, i, only, option) {
    only = "complete -c fux -n '__fish_seen_subcommand_from " command "'"
    n = offered_of(command, parts)
    print only offer(n && parts[1] !~ /^--/ ? (said["word", parts[1], "kind"] == "command" ? names : said["word", parts[1], "kind"]) : "")
    print only " -l help -d 'all of this command'"
    for (i = 1; i <= n; i++) {
        if (parts[i] !~ /^--/) continue
        option = option_at(parts, i)
        if (value_of[option] == "") {
            print only " -l " substr(parts[i], 3) " -d " quoted(said["option", option, "line"])
        } else {
            print only " -l " substr(parts[i], 3) " -r" offer(said["option", option, "kind"]) " -d " quoted(said["option", option, "line"])
        }
    }
}

END {
    for (i = 1; i <= count; i++) names = names (i > 1 ? " " : "") commands[i]
    print "# Completions of fux for fish, made from its table of commands."
    print "complete -c fux -n __fish_use_subcommand -f"
    for (i = 1; i <= count; i++) {
        print "complete -c fux -n __fish_use_subcommand -a " commands[i] " -d " quoted(said["command", commands[i], "line"])
    }
    print "complete -c fux -n __fish_use_subcommand -l help -d 'what the commands are'"
    print "complete -c fux -n __fish_use_subcommand -l version -d 'what this fux is'"
    print "complete -c fux -n __fish_use_subcommand -l unproved -d 'run what is compiled without a proof'"
    for (i = 1; i <= count; i++) arguments(commands[i])
}
