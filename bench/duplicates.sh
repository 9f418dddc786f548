#!/usr/bin/env bash
# Lists the places in the crates that say the same twice: six lines or more that are equal, or equal but
# for names. Needs git and the program `duplicates`, which doesn't know Rattle's files: it is shown a
# copy of the last commit in which they have other endings.
#   bench/duplicates.sh src|specs|proofs            the pairs in these folders
#   bench/duplicates.sh src|specs|proofs MOST       the same; status 1 if there are more than MOST
#   bench/duplicates.sh src|specs|proofs --base REV those of which one side has come since REV
set -euo pipefail
folder=${1:?bench/duplicates.sh src|specs|proofs}
top=$(git rev-parse --show-toplevel)
copy=$(mktemp -d)
trap 'rm -rf "$copy"' EXIT

command -v duplicates > /dev/null || { echo 'not tried: there is no program duplicates here'; exit 0; }

# Gives Rattle's files the endings .rs and .antt.rs.
rename() {
    local file
    for file in "$@"; do
        case $file in
            *.rt) mv "$file" "${file%.rt}.rs" ;;
            *) mv "$file" "$file.rs" ;;
        esac
    done
}

# Commits a revision's folders to the copy.
take() {
    local files
    rm -rf "$copy/crates"
    git -C "$top" archive "$1" crates | tar -x -C "$copy"
    find "$copy/crates" -type f ! -path "*/$folder/*" -delete
    mapfile -d '' files < <(find "$copy/crates" -type f \( -name '*.rt' -o -name '*.antt' \) -print0)
    rename "${files[@]}"
    git -C "$copy" add --all
    git -C "$copy" -c user.name=copy -c user.email=copy@localhost commit --quiet --allow-empty -m "$1"
}

git -C "$copy" init --quiet
since=()
if [[ ${2-} == --base ]]; then
    take "${3:?--base REV}"
    since=(--change --base HEAD~1)
fi
take HEAD
found=$(duplicates --repo "$copy" --most 200 --seconds 300 "${since[@]}")
sed 's/\.antt\.rs:/.antt:/g; s/\.rs:/.rt:/g' <<< "$found"
pairs=$(grep -cE '^D[0-9]+ ' <<< "$found" || true)
if [[ ${2-} =~ ^[0-9]+$ ]] && ((pairs > $2)); then
    echo "more than $2 pairs: $pairs"
    exit 1
fi
