#!/bin/sh
# Builds the tools of this folder. They need nothing but rustc.
# Usage: sh second/build.sh FOLDER     (where the programs second, generate and compare are put)
[ $# -eq 1 ] || { echo "usage: sh second/build.sh FOLDER" >&2; exit 2; }
here=$(dirname "$0")
mkdir -p "$1" || exit 2
for tool in second generate compare; do
    rustc -O --edition 2021 -o "$1/$tool" "$here/$tool.rs" || exit 2
done
