#!/usr/bin/env bash
# Measures which branches of raceoffice/ the tests go through, in every process that they start.
#   tests/coverage.sh PROGRAM [NAME ...]
# The names are those of tests/run.py; without any, all tests are run. It needs Debian's python3-coverage. The
# last lines are a table of the modules with the lines and branches that nothing went through, and the whole in
# per cent. The status is 1 if a test failed. A process that is killed says nothing of itself.
set -uo pipefail
program=$(realpath "${1:?tests/coverage.sh PROGRAM [NAME ...]}")
shift
here=$(dirname "$(realpath "$0")")
python=/usr/bin/python3
"$python" -c 'import coverage' || exit 2
room=$(mktemp -d)
trap 'rm -rf "$room"' EXIT

cat > "$room/rc" << END
[run]
branch = true
parallel = true
sigterm = true
source = $(dirname "$here")/raceoffice
data_file = $room/data
disable_warnings = no-data-collected, module-not-measured, module-not-imported
[report]
precision = 1
show_missing = true
skip_covered = true
END
mkdir "$room/site"
# Python loads it at the start of each process.
printf 'import coverage\ncoverage.process_startup()\n' > "$room/site/sitecustomize.py"
COVERAGE_PROCESS_START=$room/rc PYTHONPATH=$room/site "$python" "$here/run.py" "$program" "$@"
status=$?
"$python" -m coverage combine -q --rcfile "$room/rc"
"$python" -m coverage report --rcfile "$room/rc"
exit "$status"
