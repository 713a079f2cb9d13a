#!/usr/bin/env bash
# What igsheet prints of each file of the folder printed/. The words of this command are how to run it: the program, or an emulator
# and the program.
set -u
program=("$@")
folder=$(dirname "$0")/printed
told=$(mktemp)
trap 'rm -f "$told"' EXIT
cases=0
wrong=0
for file in "$folder"/*.igs; do
    cases=$((cases + 1))
    if "${program[@]}" <"$file" >"$told" && cmp -s "$told" "${file%.igs}.out"; then continue; fi
    wrong=$((wrong + 1))
    echo "printed: FAILED: $(basename "$file")"
done
echo "printed: $cases files, $wrong wrong"
[ "$wrong" -eq 0 ] && [ "$cases" -gt 0 ]
