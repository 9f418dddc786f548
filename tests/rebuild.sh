#!/usr/bin/env bash
# Builds a program of the last commit in two folders, and compares the files.
#   tests/rebuild.sh [CRATE]        regatta, if no crate is named
# Each folder makes its own libraries. The first proves all that the program uses, in about an hour of
# processor time; the second begins with its proofs. The last line is `N passed, M failed`.
set -uo pipefail
cd "$(dirname "$(realpath "$0")")/.." || exit
crate=${1:-regatta}
room=$(mktemp -d)
trap 'rm -rf "$room"' EXIT

# Builds the program in a folder of its own, and prints its hash: hash_in FOLDER
hash_in() {
    local status
    git clone --quiet --local . "$1" &&
        (cd "$1/crates/$crate" && rt run -- --help) > "$1.log" 2>&1 < /dev/null &&
        sha256sum < "$1/crates/$crate/out/$crate" | cut -d ' ' -f 1
    status=$?
    # `rt` would take these libraries for the other folder, which has the same sources.
    rm -rf "$1"/crates/*/out/rlib
    return $status
}

# The names have different lengths: a folder's name that got into the program would show.
first=$(hash_in "$room/first") || cat "$room/first.log"
second=$(hash_in "$room/a_folder_with_a_longer_name") || cat "$room/a_folder_with_a_longer_name.log"
echo "first  ${first:-not built}"
echo "second ${second:-not built}"
if [[ $first =~ ^[0-9a-f]{64}$ && $first == "$second" ]]; then
    echo "$crate: two folders, one hash"
    echo '1 passed, 0 failed'
else
    echo "$crate: the two builds differ, or one failed"
    echo '0 passed, 1 failed'
    exit 1
fi
