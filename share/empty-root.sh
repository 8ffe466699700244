#!/bin/sh
# Shows what an archive of `fux package` needs: unpacks it in an empty root that has nothing but sh,
# awk, sed and a few small programs, the libraries that ldd names for these and for the program, and
# /dev/null, and runs commands there. As root: sh share/empty-root.sh fux.tar.gz

archive=$1
root=$(mktemp -d) || exit 1
trap 'rm -rf "$root"' EXIT
mkdir "$root/bin" "$root/dev" "$root/unpacked" "$root/tmp" "$root/room"
mknod -m 666 "$root/dev/null" c 1 3 || exit 1
tar -xzf "$archive" -C "$root/unpacked" || exit 1
for tool in sh awk sed cat dirname fold head mktemp readlink rm tr; do
    cp -L "$(command -v $tool)" "$root/bin/$tool" || exit 1
done
for file in "$root"/bin/* "$root/unpacked/fux/libexec/fux/fux"; do
    ldd "$file" | grep -o '/[^ ]*'
done | sort -u | while read -r library; do
    mkdir -p "$root${library%/*}"
    cp -L "$library" "$root$library"
done
echo "The libraries that the program itself needs:"
ldd "$root/unpacked/fux/libexec/fux/fux"

# inside WORDS: what a line of the shell writes there.
inside() {
    echo "$ $1"
    chroot "$root" /bin/sh -c "PATH=/bin:/unpacked/fux/bin; cd /unpacked/fux/share/doc/fux; $1; echo \"= \$?\""
}

inside 'fux --version'
inside 'fux compose examples/first.fux'
inside 'fux compose examples/first.fux | fux print -'
inside 'fux explain examples/class/ben.fux | head -n 4'
inside 'fux class examples/class/list | fold -w 60 | sed -n "/^class/p"'
inside 'fux certify examples/first.fux >/room/first.cert; fux check examples/first.fux /room/first.cert'
inside 'fux mark examples/none.fux'
inside 'fux compos'
inside '/unpacked/fux/libexec/fux/fux newcantus dorian 8 C4 C5'
