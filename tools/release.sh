#!/bin/sh
# Makes an archive of the built compiler: the program, its manual page, the messages and the examples.
#
#     tools/release.sh OUT.tar.gz
#
# The program is for x86-64 Linux; it is linked anew with the static C library (Debian's libc6-dev) by `cc`, so that
# it needs no kit and no library where it runs. Here the kit has to be on PATH.
set -eu
out=${1:?tools/release.sh OUT.tar.gz}
top=$(dirname -- "$(readlink -f -- "$0")")/..
kit=$(dirname -- "$(rt doc)")
folder=$(mktemp -d)
trap 'rm -rf "$folder"' EXIT
"$top/lakdumis" --install "$folder/lakdumis"
cc -static -s -o "$folder/lakdumis/libexec/lakdumis" \
    "$top/crates/stalin_main/out/stalin_main.o" "$kit/c/libos_c.a" "$kit/c/liblibc_c.a"
mkdir -p "$folder/lakdumis/share/lakdumis/examples"
cp "$top"/examples/* "$folder/lakdumis/share/lakdumis/examples/"
cp "$top/docs/LANGUAGE.md" "$top/docs/TUTORIAL.md" "$top/LICENSE" "$folder/lakdumis/share/lakdumis/"
tar -C "$folder" -czf "$out" lakdumis
printf 'wrote %s\n' "$out"
