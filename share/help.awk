# Behind table.awk: what the script tells by itself. The environment has ask, which says what is
# wanted (see the end), want, the word that it is asked of, fux, the name under which the script is
# called, and examples, the folder of the examples.

BEGIN {
    ask = ENVIRON["ask"]
    want = ENVIRON["want"]
    fux = ENVIRON["fux"]
    examples = ENVIRON["examples"]
}

# A text in lines of 78 letters at most, each behind so many blanks.
function fold(text, blanks, words, n, i, line) {
    n = split(text, words, " ")
    for (i = 1; i <= n; i++) {
        if (line != "" && length(line) + 1 + length(words[i]) > 78 - blanks) {
            printf "%*s%s\n", blanks, "", line
            line = ""
        }
        line = line (line == "" ? "" : " ") words[i]
    }
    printf "%*s%s\n", blanks, "", line
}

# A name, and behind it or below it what it is.
function entry(name, text, width) {
    if (length(name) > width) {
        printf "  %s\n  %*s", name, width, ""
    } else {
        printf "  %-*s", width, name
    }
    printf "  %s\n", text
}

function all(i, group) {
    print "fux composes, marks and certifies species counterpoint."
    for (i = 1; i <= count; i++) {
        if (group_of[commands[i]] != group) {
            group = group_of[commands[i]]
            printf "\n%s\n", group
        }
        entry(short_form(commands[i]), said["command", commands[i], "line"], 35)
    }
    print "\nBefore a command"
    entry("--unproved", "runs what is compiled without a proof", 35)
    entry("--version", "what this fux is", 35)
    printf "\n%s help COMMAND tells all of a command. A file - is standard input.\n", fux
}

# The words and the options of a command, each with what it is.
function parts_of_form(command, parts, n, i, option) {
    n = words_of(command, parts)
    for (i = 1; i <= n; i++) {
        if (parts[i] ~ /^--/) {
            option = option_at(parts, i)
            entry(option, said["option", option, "line"], 11)
            if (value_of[option] != "") i++
        } else if (said["word", parts[i], "line"] != "") {
            entry(parts[i], said["word", parts[i], "line"], 11)
        }
    }
}

# The statuses of a command, the least first; of the program's commands also those of every one.
function statuses(command, number, i) {
    for (number = 0; number < 128; number++) {
        for (i = 1; i <= many["command", command, "status"]; i++) {
            if (item["command", command, "status", i] + 0 == number) print "  " item["command", command, "status", i]
        }
        if (said["command", command, "by"] == "script") continue
        for (i = 1; i <= many["every", "", "status"]; i++) {
            if (item["every", "", "status", i] + 0 == number) print "  " item["every", "", "status", i]
        }
    }
}

function one(command, i, text) {
    fold(fux " " whole_form(command), 0)
    print ""
    for (i = 1; i <= many["command", command, "text"]; i++) {
        fold(item["command", command, "text", i], 0)
        print ""
    }
    parts_of_form(command)
    print "\nStatus"
    statuses(command)
    print "\nFor example"
    for (i = 1; i <= many["command", command, "example"]; i++) {
        text = item["command", command, "example", i]
        gsub(/examples\//, examples "/", text)
        printf "  %s %s\n", fux, text
    }
}

# How many letters have to be put in, left out, changed or swapped with the next one, to make one
# word of another.
function distance(a, b, i, j, cost, d) {
    for (i = 0; i <= length(a); i++) d[i, 0] = i
    for (j = 0; j <= length(b); j++) d[0, j] = j
    for (i = 1; i <= length(a); i++) {
        for (j = 1; j <= length(b); j++) {
            cost = d[i - 1, j - 1] + (substr(a, i, 1) != substr(b, j, 1))
            if (d[i - 1, j] + 1 < cost) cost = d[i - 1, j] + 1
            if (d[i, j - 1] + 1 < cost) cost = d[i, j - 1] + 1
            if (i > 1 && j > 1 && substr(a, i - 1, 2) == substr(b, j, 1) substr(b, j - 1, 1) && d[i - 2, j - 2] + 1 < cost)
                cost = d[i - 2, j - 2] + 1
            d[i, j] = cost
        }
    }
    return d[length(a), length(b)]
}

# The commands that may have been meant: those that the word begins, or that are nearest to it, in
# at most two letters, or fewer where the word is short.
function near(word, i, far, least, found) {
    word = tolower(word)
    least = length(word) < 4 ? 1 : 2
    for (i = 1; i <= count; i++) {
        far[i] = distance(word, commands[i])
        if (length(word) > 1 && index(commands[i], word) == 1 && far[i] > 0) far[i] = 0.5
        if (far[i] < least) least = far[i]
    }
    for (i = 1; i <= count; i++) {
        if (far[i] == least) found = found (found == "" ? "" : " or ") commands[i]
    }
    if (found != "") print found
}

# The kinds of the words that a command needs, or -, and the names of its options that may not be
# left out.
function needed(command, wants_options, parts, n, i, found, form) {
    form = said["command", command, "form"]
    gsub(/\[[^]]*\]/, "", form)
    n = split(form, parts, " ")
    for (i = 1; i <= n; i++) {
        if (parts[i] ~ /^--/) {
            if (wants_options) found = found parts[i] " "
            if (value_of[option_at(parts, i)] != "") i++
        } else if (!wants_options) {
            found = found (said["word", parts[i], "kind"] == "file" ? "file" : "-") " "
        }
    }
    sub(/ $/, "", found)
    print found
}

END {
    if (ask == "all") all()
    if (ask == "one") one(want)
    if (ask == "form") print whole_form(want)
    if (ask == "kinds") needed(want, 0)
    if (ask == "wanted") needed(want, 1)
    if (ask == "near") near(want)
    if (ask == "known") {
        if (!(want in group_of)) exit 1
        print said["command", want, "by"] == "" ? "program" : said["command", want, "by"]
    }
}
