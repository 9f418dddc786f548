#!/usr/bin/env bash
# The whole test: the gate, then the checks of the built program and its tools.
#   tests/gate.sh
# It begins with the commit, or says that there are changes, and with the kit that proves. The SHA-256 of both
# programs comes before the last line, `N passed, M failed` of both, and so does the commit once more if that is
# another by then, or has changes: no release is made of such a log. The status is 1 if anything failed.
set -uo pipefail
cd "$(dirname "$(realpath "$0")")/.." || exit
printed=$(mktemp)
trap 'rm -f "$printed"' EXIT
passed=0 failed=0

# Runs a command that ends with `N passed, M failed`, shows what it prints, and adds its numbers.
# Another last line, nothing passed, or a status without a failure counts as one.
count() {
    local status wrong=1
    "$@" 2>&1 | tee "$printed"
    status=${PIPESTATUS[0]}
    if [[ $(tail -n 1 "$printed") =~ ([0-9]+)\ passed,\ ([0-9]+)\ failed ]]; then
        passed=$((passed + BASH_REMATCH[1]))
        wrong=${BASH_REMATCH[2]}
        if ((wrong == 0 && (status != 0 || BASH_REMATCH[1] == 0))); then
            wrong=1
        fi
    fi
    failed=$((failed + wrong))
}

# The commit that is checked out, and whether there are changes.
tried() {
    local commit
    commit=$(git rev-parse HEAD 2> /dev/null || echo unknown)
    echo "commit $commit$([[ -z $(git status --porcelain 2>&1) ]] || echo ' with changes')"
}

first=$(tried)
echo "$first"
echo "kit $(rt version)"
count rt ci
count tests/all.sh crates/regatta/out/regatta
sha256sum crates/regatta/out/regatta crates/times/out/times
last=$(tried)
[[ $last == "$first" ]] || echo "$last"
echo "$passed passed, $failed failed"
((failed == 0))
