# Reads share/commands. What it leaves, for the program behind it:
#   commands[1 .. count]        the first words, in order
#   group_of[command]           the heading above it
#   options[1 .. option_count]  the options, each its name with the word for a value where it takes
#                               one; value_of[option] is that word or nothing
#   said[kind, name, field]     the one line of a field: kind is command, word, option or every
#   many[kind, name, field]     how many lines a field has, item[kind, name, field, 1 ..] each of
#                               them

/^#/ { next }
/^$/ { next }
{
    at = index($0, ":")
    field = substr($0, 1, at - 1)
    value = substr($0, at + 2)
}
field == "group" { group = value; next }
field == "command" { kind = field; name = value; commands[++count] = name; group_of[name] = group; next }
field == "word" { kind = field; name = value; next }
field == "every" { kind = field; name = ""; next }
field == "option" {
    kind = field
    name = value
    split(value, part, " ")
    options[++option_count] = name
    value_of[name] = part[2]
    next
}
{
    said[kind, name, field] = value
    item[kind, name, field, ++many[kind, name, field]] = value
}

# The command with what stands behind it.
function whole_form(command) {
    return command (said["command", command, "form"] == "" ? "" : " " said["command", command, "form"])
}

# The same without the options that may be left out.
function short_form(command, form) {
    form = whole_form(command)
    gsub(/ \[--[^]]*\]/, "", form)
    return form
}

# The option at one of the parts of a form: one name may be that of a flag, and in another command
# that of an option with a value.
function option_at(parts, i) {
    return (parts[i] " " parts[i + 1]) in value_of ? parts[i] " " parts[i + 1] : parts[i]
}

# The words of a command's form without brackets, in parts; answers how many.
function words_of(command, parts, form) {
    form = said["command", command, "form"]
    gsub(/[][]/, "", form)
    return split(form, parts, " ")
}

# The same, and behind them what the completions offer more.
function offered_of(command, parts, n, i, more, count) {
    n = words_of(command, parts)
    count = split(said["command", command, "more"], more, " ")
    for (i = 1; i <= count; i++) parts[n + i] = more[i]
    return n + count
}
