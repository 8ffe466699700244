#!/bin/sh
# Checks, without a proof and without the kit, what share/ and the script promise; its last line
# says so.
#   - The table of commands has the commands that the program has, and no others, in the forms of
#     docs/formats.md.
#   - What is made of the table can be read: the help in 80 columns, the manual page by groff, the
#     completions by their shells, each where that program is there.
#   - The calls of share/calls write what stands there, by each shell that is there, and leave no
#     temporary file. They run in a copy whose program and rt are a few lines that show how they
#     were called: those of share/stand-ins. `sh share/check.sh --write` writes down what they write
#     now.

top=$(CDPATH='' cd "$(dirname "$0")/.." && pwd -P) || exit 1
share=$top/share
work=$(mktemp -d) || exit 1
trap 'rm -rf "$work"' EXIT
run=$work/run
faults=0

fault() {
    echo "share/check.sh: $1"
    faults=$((faults + 1))
}

# same NAME: the two lists that $work/NAME.here and $work/NAME.there hold are the same.
same() {
    diff "$work/$1.here" "$work/$1.there" >"$work/diff" || { fault "$2"; cat "$work/diff"; }
}

# made NAME: what the table comes to by the program NAME.awk.
made() {
    version=now awk -f "$share/table.awk" -f "$share/$1.awk" "$share/commands" >"$work/made.$1" || fault "$1.awk failed"
}

# The words of the program are the quoted words of the file that has a few of them, but for the
# names of options.
verbs() {
    awk -F': ' '
        function tell() { if (name != "" && by == "") print name }
        $1 == "command" { tell(); name = $2; by = "" }
        $1 == "by" { by = $2 }
        END { tell() }' "$share/commands" | sort >"$work/verbs.here"
    sed -n 's/^option: --\([a-z-]*\).*/\1/p' "$share/commands" | sort -u | comm -23 - "$work/verbs.here" >"$work/options"
    for file in "$top"/crates/*/src/*.rt; do
        grep -q '"compose"' "$file" && grep -q '"newcantus"' "$file" && grep -q '"tosmf"' "$file" && grep -o '"[a-z-]*"' "$file"
    done | tr -d '"' | sort -u | grep -vxFf "$work/options" >"$work/verbs.there"
    same verbs "the table has not the commands (<) that the program has (>)"
}

forms() {
    awk '
        $1 == "command:" { name = $2; by = "" }
        $1 == "by:" { by = $2 }
        $1 == "form:" && by == "" { sub(/^form:/, ""); print name $0 }' "$share/commands" | sort >"$work/forms.here"
    sed -n '/^## Words on the command line/,/^## /p' "$top/docs/formats.md" | sed -n '/^`/{p;q;}' | sed 's/; no others.*//' |
        grep -o '`[^`]*`' | tr -d '`' | sort >"$work/forms.there"
    same forms "the table's forms (<) are not those of docs/formats.md (>)"
}

readable() {
    for command in '' $(awk '$1 == "command:" { print $2 }' "$share/commands"); do
        ask=${command:+one}
        ask=${ask:-all} want=$command fux=fux examples=examples awk -f "$share/table.awk" -f "$share/help.awk" "$share/commands" >"$work/help"
        awk 'length($0) > 80' "$work/help" | grep . && fault "help $command is wider than 80 columns"
    done
    made man
    made bash
    made zsh
    made fish
    if command -v groff >/dev/null; then
        groff -man -Tutf8 -ww "$work/made.man" 2>&1 >/dev/null | grep . && fault "groff warns of the manual page"
    fi
    for shell in bash zsh fish; do
        command -v $shell >/dev/null || continue
        $shell -n "$work/made.$shell" || fault "$shell can't read its completions"
    done
}

# A clone in which calls run.
scratch() {
    rm -rf "$run"
    mkdir -p "$run/clone/crates/fux/out" "$run/clone/crates/fux/src" "$run/clone/bench" "$run/kit" "$run/tmp" "$run/bare"
    cp -r "$share" "$top/docs" "$top/examples" "$top/README.md" "$top/CHANGES.md" "$top/crates.txt" "$run/clone"
    cp "$top/bench/README.md" "$run/clone/bench"
    sed "1s|.*|#!$1|" "$top/fux" >"$run/clone/fux"
    cp "$share/stand-ins/program" "$run/clone/crates/fux/out/fux"
    cp "$share/stand-ins/rt" "$run/kit/rt"
    chmod 755 "$run/clone/fux" "$run/clone/crates/fux/out/fux" "$run/kit/rt"
    for tool in awk cat cut dirname find fold head mktemp readlink rm sed tr wc; do
        ln -s "$(command -v $tool)" "$run/bare"
    done
}

# What the calls write, in the form of share/calls.
transcript() {
    while IFS= read -r line; do
        case $line in
            '$ '*)
                printf '%s\n' "$line"
                (cd "$run/clone" && TMPDIR=$run/tmp PATH=$run/kit:$PATH sh -c "${line#??}" >"$work/out" 2>"$work/err" </dev/null)
                status=$?
                sed "s|$run|..|g; s/^/> /" "$work/out"
                sed "s|$run|..|g; s/^/! /" "$work/err"
                echo "= $status"
                ;;
            '' | '#'*)
                printf '%s\n' "$line"
                ;;
        esac
    done <"$share/calls"
    ls -A "$run/tmp"
}

calls() {
    for shell in sh dash bash; do
        path=$(command -v $shell) || continue
        [ $shell = sh ] || [ "$(readlink -f "$path")" != "$(readlink -f "$(command -v sh)")" ] || continue
        scratch "$path"
        transcript >"$work/calls"
        if [ "$1" = --write ]; then
            cp "$work/calls" "$share/calls"
        elif ! diff -u "$share/calls" "$work/calls"; then
            fault "by $shell, the calls write something else than stands in share/calls"
        fi
    done
}

verbs
forms
readable
calls "$1"
[ "$faults" -eq 0 ] || exit 1
echo "share/check.sh: the script, its table and its calls are as they should be"
