#!/usr/bin/env bash
# Runs a program that stands outside the merge gate, in a temporary copy of the crates.
#
# The program's sources lie in bench/NAME, each with .txt at the end of its name, so that the gate doesn't read them.
# The program is proved and built, and then run as COMMAND says, in its folder (by `rt run` where no command is given).
#
# usage: bench/in_a_copy.sh NAME 'CRATES' [COMMAND..]
set -euo pipefail

name="$1"
crates="$2"
shift 2

top="$(cd "$(dirname "$0")/.." && pwd)"
copy="$(mktemp -d)"
trap 'rm -rf "$copy"' EXIT

tar -C "$top" --exclude=out -cf - crates crates.txt HANDLES | tar -C "$copy" -xf -
(cd "$top/bench/$name" && find . -name '*.txt') | while read -r file; do
    mkdir -p "$copy/crates/$name/$(dirname "$file")"
    cp "$top/bench/$name/$file" "$copy/crates/$name/${file%.txt}"
done
mkdir -p "$copy/crates/$name/specs" "$copy/crates/$name/proofs"
touch "$copy/crates/$name/specs/Lib.antt"
echo "$name: $crates" >>"$copy/crates.txt"

cd "$copy/crates/$name"
rt run
if [ "$#" -gt 0 ]; then
    "$@"
fi
