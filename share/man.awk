# Behind table.awk: the manual page of fux, in the macros of man.

# A text as troff reads it.
function plain(text) {
    gsub(/\\/, "\\e", text)
    gsub(/-/, "\\-", text)
    sub(/^['.]/, "\\\\\\&&", text)
    return text
}

# A form with its words in italics and all else in bold letters.
function form_of(command, parts, n, i, made, part, front, back) {
    made = "\\fBfux " command "\\fR"
    n = split(said["command", command, "form"], parts, " ")
    for (i = 1; i <= n; i++) {
        part = parts[i]
        front = back = ""
        if (sub(/^\[/, "", part)) front = "["
        if (sub(/\]$/, "", part)) back = "]"
        made = made " " front (part ~ /^--/ ? "\\fB" : "\\fI") plain(part) "\\fR" back
    }
    return made
}

function statuses(kind, command, i, text) {
    for (i = 1; i <= many[kind, command, "status"]; i++) {
        text = item[kind, command, "status", i]
        print ".TP 4"
        print ".B " (text + 0)
        sub(/^[0-9]+ /, "", text)
        print plain(text)
    }
}

function command_part(command, i) {
    print ".SS " form_of(command)
    for (i = 1; i <= many["command", command, "text"]; i++) {
        print ".PP"
        print plain(item["command", command, "text", i])
    }
    print ".PP"
    print "Its status:"
    statuses("command", command)
    print ".PP"
    print "For example:"
    print ".PP"
    print ".nf"
    for (i = 1; i <= many["command", command, "example"]; i++) {
        print ".RS 4"
        print "fux " plain(item["command", command, "example", i])
        print ".RE"
    }
    print ".fi"
}

END {
    print ".TH FUX 1 \"\" \"" plain(ENVIRON["version"]) "\" \"Species counterpoint\""
    print ".SH NAME"
    print "fux \\- compose, mark and certify species counterpoint"
    print ".SH SYNOPSIS"
    for (i = 1; i <= count; i++) {
        if (i > 1) print ".br"
        print form_of(commands[i])
    }
    print ".SH DESCRIPTION"
    print "fux reads a cantus firmus with a range for each other voice, in any of the five species and for two to four voices. It finds the best"
    print "setting, tells every rule that a given setting breaks, and writes certificates of its answers that others can check."
    print ".PP"
    print "Where a file is named,"
    print ".B \\-"
    print "is standard input. A file of that name is"
    print ".BR ./\\- ."
    print ".SH COMMANDS"
    for (i = 1; i <= count; i++) command_part(commands[i])
    print ".SH OPTIONS"
    for (i = 1; i <= option_count; i++) {
        split(options[i], part, " ")
        print ".TP"
        print "\\fB" plain(part[1]) "\\fR" (value_of[options[i]] == "" ? "" : " \\fI" value_of[options[i]] "\\fR")
        print plain(said["option", options[i], "line"])
    }
    print ".TP"
    print "\\fB\\-\\-unproved\\fR"
    print "before a command, and in a clone alone: runs what is compiled without a proof"
    print ".TP"
    print "\\fB\\-\\-version\\fR"
    print "tells what this fux is"
    print ".SH EXIT STATUS"
    print "Of every command that the program does, beside its own:"
    statuses("every", "")
    print ".SH FILES"
    print "The pages and the examples stand in"
    print ".I share/doc/fux"
    print "beside the folder of the script:"
    print ".I docs/formats.md"
    print "has the form of an exercise,"
    print ".I docs/messages.md"
    print "what a message means,"
    print ".I docs/rules.md"
    print "the rules."
}
