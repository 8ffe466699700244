# Read by the script for `install` and `package`: the program with all that goes with it, below a
# folder.
# shellcheck shell=sh disable=SC2154

# put FILE FOLDER MODE
put() {
    if ! mkdir -p "$2" || ! rm -f "$2/${1##*/}" || ! cp "$1" "$2" || ! chmod "$3" "$2/${1##*/}"; then
        fail "$2 can't be written"
    fi
}

# make NAME FOLDER FILE: what the table of commands comes to by the program NAME.awk.
make() {
    mkdir -p "$2" || fail "$2 can't be written"
    version=$(version) awk -f "$share/table.awk" -f "$share/$1.awk" "$share/commands" >"$work/made" || fail "$1.awk failed"
    if ! cp "$work/made" "$2/$3" || ! chmod 644 "$2/$3"; then
        fail "$2 can't be written"
    fi
}

# put_below FOLDER
put_below() {
    put "$program" "$1/libexec/fux" 755
    put "$top/fux" "$1/bin" 755
    for file in commands table.awk help.awk; do
        put "$share/$file" "$1/share/fux" 644
    done
    make man "$1/share/man/man1" fux.1
    make bash "$1/share/bash-completion/completions" fux
    make zsh "$1/share/zsh/site-functions" _fux
    make fish "$1/share/fish/vendor_completions.d" fux.fish
    for file in README.md CHANGES.md; do
        put "$top/$file" "$1/share/doc/fux" 644
    done
    for file in "$top"/docs/*.md; do
        put "$file" "$1/share/doc/fux/docs" 644
    done
    for file in "$top"/docs/pictures/*.svg; do
        put "$file" "$1/share/doc/fux/docs/pictures" 644
    done
    put "$top/bench/README.md" "$1/share/doc/fux/bench" 644
    for file in "$top"/examples/* "$top"/examples/*/*; do
        [ -d "$file" ] && continue
        folder=${file%/*}
        put "$file" "$1/share/doc/fux${folder#"$top"}" 644
    done
}

install_fux() {
    [ $# -eq 1 ] && [ -n "$1" ] || refuse_form install
    have_program ''
    make_work
    put_below "$1"
    say "fux stands in $1/bin, its pages and examples in $1/share/doc/fux"
}

package_fux() {
    [ $# -le 1 ] || refuse_form package
    have_program ''
    make_work
    put_below "$work/fux"
    archive=${1:-fux.tar.gz}
    (cd "$work" && tar --owner=0 --group=0 -cf - fux) | gzip -9n >"$archive" || fail "$archive can't be written"
    say "$archive has a folder fux; fux/bin/fux runs where it is unpacked"
}
