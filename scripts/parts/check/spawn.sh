#!/usr/bin/env bash
# runs `ttp search` and `ttp improve` under limits of address space that let the program start and not all of its workers
#
# usage: scripts/check spawn [PROGRAM]     crates/ttp/out/ttp, which ./build makes, if none is named
#
# A search by 2 and by 16 workers has to answer that a worker can't be started, and write nothing. An improvement by 16 has to write what it
# does without a limit, or whole lines of that and that it is out of memory. The last line is 'N passed, M failed': one case a limit.
set -uo pipefail
top=$(realpath "${BASH_SOURCE[0]}")
top=${top%/scripts/*}
program=$(realpath -m -- "${1:-$top/crates/ttp/out/ttp}")
[ -x "$program" ] || { echo "check spawn: no program $program (./build makes it)" >&2; exit 1; }
cd "$top" || exit 1
made=$(mktemp -d)
trap 'rm -rf "$made"' EXIT
fault='ttp: a worker cannot be started'
passed=0
failed=0

# within KIBIBYTES WORD..: runs the program within so much address space, and keeps output, error and status. A run that doesn't
# end is stopped after a minute, with status 124.
within() {
    (
        ulimit -c 0 -v "$1"
        exec timeout 60 "$program" "${@:2}" <leagues/circular-4.json
    ) >"$made/output" 2>"$made/error"
    status=$?
}

search() { # WORKERS KIBIBYTES
    within "$2" search --workers "$1" --steps 100000 --room 1048576 --seed 1
}

improve() { # WORKERS KIBIBYTES
    within "$2" improve --workers "$1" --effort 1
}

# Whether the last search answered that a worker can't be started, and wrote nothing.
is_spawn() {
    [ "$status" = 1 ] && [ "$(cat "$made/error")" = "$fault" ] && [ ! -s "$made/output" ]
}

# Whether the last improvement wrote all of its text, or whole lines of it and that memory was refused.
is_improved() {
    if [ "$status" = 0 ]; then
        cmp -s "$made/output" "$made/whole"
    else
        [ "$status" = 1 ] && [ "$(cat "$made/error")" = 'ttp: out of memory' ] && [ -z "$(tail -c 1 "$made/output")" ] &&
            cmp -s "$made/output" <(head -c "$(stat -c %s "$made/output")" "$made/whole")
    fi
}

# The least limit, to 64 kibibytes, with which a run by so many workers succeeds.
least() { # COMMAND WORKERS
    local below=0 above=8388608
    while ((above - below > 64)); do
        local middle=$(((below + above) / 2))
        "$1" "$2" "$middle"
        if [ "$status" = 0 ]; then above=$middle; else below=$middle; fi
    done
    echo "$above"
}

# From just below that of so many workers down to where one worker can't start either, in 8 steps.
judge() { # COMMAND WORKERS IS_LAWFUL
    local most one step limit
    most=$(least "$1" "$2")
    one=$(least "$1" 1)
    ((most > one)) || { echo "check spawn: $1 with $2 workers needs no more than with 1"; exit 1; }
    for ((step = 0; step < 8; step++)); do
        limit=$((most - 64 - (most - one - 64) * step / 8))
        "$1" "$2" "$limit"
        if "$3"; then
            passed=$((passed + 1))
        else
            failed=$((failed + 1))
            echo "check spawn: $1 with $2 workers within $limit KiB: status $status"
            head -c 1000 "$made/output" "$made/error"
        fi
    done
}
judge search 2 is_spawn
judge search 16 is_spawn
improve 1 unlimited
cp "$made/output" "$made/whole"
judge improve 16 is_improved
echo "$passed passed, $failed failed"
[ "$failed" = 0 ]
