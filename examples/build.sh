#!/usr/bin/env bash
# Builds the guest or the module in a folder that stands anywhere, also where its path has spaces, at which make splits names:
# FOLDER/image.elf; with --flat FOLDER/NAME.bin, where NAME is the folder's own name; with --module FOLDER/module.elf, at 11000h or at
# ADDRESS. The symbols stand beside it.
# usage: examples/build.sh FOLDER [--flat | --module [ADDRESS]]
set -euo pipefail
usage="usage: examples/build.sh FOLDER [--flat | --module [ADDRESS]]"
case "$#${2:+ $2}" in
    1 | "2 --flat" | "2 --module" | "3 --module") ;;
    *) echo "$usage" >&2; exit 2 ;;
esac
[ -d "$1" ] || { echo "build: there is no folder $1" >&2; exit 1; }
folder=$(realpath "$1")
name=$(basename "$folder")

# The folder has a name without spaces here, and the objects go with it.
work=$(mktemp -d)
trap 'rm -rf "$work"' EXIT
ln -s "$folder" "$work/guest"
build() {
    make -s -C "$(dirname "$0")" OBJECTS="$work/objects" NAMED="$work/guest=$folder" "$work/guest/$1" "${@:2}"
}

if [ $# = 1 ]; then
    build image.elf
elif [ "$2" = --module ]; then
    build module.elf ${3:+PLACE="$3"}
else
    build flat.bin
    mv "$folder/flat.bin" "$folder/$name.bin"
    mv "$folder/flat.symbols" "$folder/$name.symbols"
fi
