#!/usr/bin/env bash
# What a reader has to believe: docs/ARCHITECTURE.md lists just those files of specs/ that do not say on their first line that they are something
# else, and none of them uses one that does.
set -euo pipefail
cd "$(dirname "$0")/../.."
wrong=0
tell() {
    echo "believed: $*"
    wrong=$((wrong + 1))
}

other() {
    case "$(head -n 1 "$1")" in
        "-- The code's form:"* | "-- Worked examples:"* | "-- On the way:"*) return 0 ;;
        *) return 1 ;;
    esac
}

# `crate/File` of a file, and back.
name() {
    local path=${1#crates/}
    echo "${path%%/*}/$(basename "$1" .antt)"
}

listed=$(sed -n '/^## What to read/,/^## /p' docs/ARCHITECTURE.md | grep -o '`[a-z_]*/[A-Z][A-Za-z]*`' | tr -d '`' | sort)
for twice in $(uniq -d <<<"$listed"); do tell "$twice is listed twice"; done

count=0
uses=0
for file in crates/*/specs/*.antt; do
    [ "$(basename "$file")" = Lib.antt ] && continue
    this=$(name "$file")
    if other "$file"; then
        ! grep -qx "$this" <<<"$listed" || tell "$this is listed, and says that it is something else"
        continue
    fi
    count=$((count + 1))
    grep -qx "$this" <<<"$listed" || tell "$this is not listed"
    while read -r used; do
        uses=$((uses + 1))
        [ -f "$used" ] && other "$used" && tell "$this uses $(name "$used")"
    done < <(sed -nE 's/^ *(pub )?use Rattle\.([a-z_]+)\.specs\.([A-Z][A-Za-z]*)([. ].*)?$/crates\/\2\/specs\/\3.antt/p' "$file" | sort -u)
done
for this in $(uniq <<<"$listed"); do
    [ -f "crates/${this%/*}/specs/${this#*/}.antt" ] || tell "$this is listed, and is not there"
done
# A use that is spelt some other way is not seen: then none is.
[ "$uses" -gt 0 ] || tell "no file uses another"
echo "believed: $count definitions, $wrong wrong"
[ "$wrong" -eq 0 ] && [ "$count" -gt 0 ]
