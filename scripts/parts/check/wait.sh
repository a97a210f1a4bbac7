#!/usr/bin/env bash
# holds a seat that waits for the turn to sleeping
#
# usage: scripts/check wait [PROGRAM]     crates/shared_board/out/shared_board_tests, which `rt ci` leaves, if none is named
#
# Its test waits a second, so a seat that spins, or yields again and again, takes a second of processor time, and one that sleeps next to
# none. The last line is 'N passed, M failed'.
set -uo pipefail
top=$(realpath "${BASH_SOURCE[0]}")
top=${top%/scripts/*}
program=$(realpath -m -- "${1:-$top/crates/shared_board/out/shared_board_tests}")
test=shared::waits::a_seat_waits_a_second
[ -x "$program" ] || { echo "check wait: no program $program (rt ci makes it)"; echo '0 passed, 1 failed'; exit 1; }
made=$(mktemp -d)
trap 'rm -rf "$made"' EXIT
TIMEFORMAT='%U %S'
{ time timeout 60 "$program" "$test" >"$made/said" 2>&1; } 2>"$made/took"
status=$?
if [ "$status" != 0 ]; then
    cat "$made/said"
    echo "check wait: the test ends with status $status"
elif ! awk '{ exit !($1 + $2 < 0.4) }' "$made/took"; then
    echo "check wait: a wait of a second took $(tr ' ' + <"$made/took") seconds of processor time"
else
    echo '1 passed, 0 failed'
    exit 0
fi
echo '0 passed, 1 failed'
exit 1
