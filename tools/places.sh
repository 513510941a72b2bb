#!/usr/bin/env bash
# Lists the lines of src/ in which a form of the older language can stand, by the points of docs/DESIGN-PASS.md.
#
#   tools/places.sh [POINT ..]     all points by default; a line of its own begins each list, with its count
#
# A line is a candidate and no verdict: the page says which of them are places.
set -euo pipefail
cd "$(dirname "$0")/.."

lines() { # NAME PATTERN: the lines of src/ that match
    local found
    found=$(grep -rnE --include='*.rt' "$2" crates/*/src | sort || true)
    printf '== %s: %d\n%s\n' "$1" "$(grep -c . <<<"$found" || true)" "$found"
}

twins() { # the names that more than one function has, and runs of four lines or more that stand twice
    local found folder
    found=$(grep -rhoE --include='*.rt' '^ *(pub(\(crate\))? )?fn \w+' crates/*/src | grep -oE '\w+$' | sort | uniq -d)
    printf '== 2a names of several functions: %d\n%s\n' "$(grep -c . <<<"$found" || true)" "$found"
    folder=$(mktemp -d)
    while read -r file; do
        mkdir -p "$folder/$(dirname "$file")"
        cp "$file" "$folder/${file%.rt}.rs" # the command reads known endings only
    done < <(find crates/*/src -name '*.rt')
    echo '== 2b lines that stand twice'
    duplicates --repo "$folder" --min-lines 4 --most 100
    rm -rf "$folder"
}

proofs() { # how many goals a crate answers by hand, and how many lemmas it has
    local crate answers lemmas
    for crate in crates/*/; do
        answers=$(find "$crate"proofs -name Answers.antt -exec cat {} + 2>/dev/null | grep -cE '^pub .* : goal\.' || true)
        lemmas=$(find "$crate"proofs -maxdepth 1 -name '*.antt' -exec cat {} + 2>/dev/null | grep -cE '^(abbrev )?pub [^ ]+ : ' || true)
        printf '== 8 %s: %d answers, %d lemmas in proofs/\n' "$(basename "$crate")" "$answers" "$lemmas"
    done
}

point() {
    case $1 in
    1)
        lines '1a enums' '^ *(pub(\(crate\))? )?enum '
        lines '1b flags' ': bool,'
        lines '1c 0 for none' '=> \(?0|unwrap_or\(0|map_or\(0|^ *0$'
        lines '1d codes' 'fn \w+.*-> (Option<)?u8'
        lines '1e faults handed on by a match' 'Err\((fault|e|_)\) =>'
        ;;
    2) twins ;;
    3) lines '3 loops' "^ *(for .* in |while |loop \{)" ;;
    4)
        lines '4a impls of traits with a derive or a conversion' \
            '^impl.*\b(PartialEq|Eq|PartialOrd|Ord|Clone|Copy|From|TryFrom|Into|Display|Debug|Default|Hash)\b.* for '
        lines '4b texts made by hand' "format!|b'0'|b' '|b'\\\\n'"
        lines '4c values built again from their own fields' '^ *\w+: self\.\w+,'
        lines '4d casts' '\bas (u8|u16|u32|u64|usize)\b'
        ;;
    5) printf '== 5: %d\n%s\n' "$(python3 tools/repeated.py | wc -l)" "$(python3 tools/repeated.py)" ;;
    6) lines '6 lengths, indices and arrays' 'usize,|: \[[^]]+; *\w+\]|Vec<usize>|&\[usize\]|buffer: &mut|usize\) ->' ;;
    7) lines '7 switches' 'match |if rule\.|fn\(|dyn |impl Fn|Box<' ;;
    8) proofs ;;
    esac
}

for n in "${@:-1 2 3 4 5 6 7 8}"; do
    for p in $n; do point "$p"; done
done
