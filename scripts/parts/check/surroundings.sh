#!/usr/bin/env bash
# holds the program to what no file of cases/ can say, as full devices, closed pipes, a terminal, a small stack, a kill
#
# usage: scripts/check surroundings [PROGRAM]     crates/ttp/out/ttp, which ./build makes, if none is named
#
# There are slow, closed and endless inputs too, the files of `improve` and what happens to them, the installed program, and ./ttp, ./build,
# ./test and ./test-memory. These four are run from a copy of the repository in a path with spaces, and where there is a Rattle kit (its
# command rt) the program unproved, which takes a minute or two. The last line is 'N passed, M failed'; the status is 1 where a case failed.
set -uo pipefail
top=$(realpath "${BASH_SOURCE[0]}")
top=${top%/scripts/*}
. "$top/scripts/parts/common.sh"
program=$(realpath -m -- "${1:-$built/ttp}")
[ -x "$program" ] || { echo "check surroundings: no program $program (./build makes it)" >&2; exit 1; }
cd "$top" || exit 1
made=$(mktemp -d)
trap 'rm -rf "$made"' EXIT
passed=0
failed=0
league=leagues/circular-4.json
sheet=crates/ttp/stdout

# run NAME COMMAND WORD..: runs a command, and keeps output, error and status
run() {
    name=$1
    "${@:2}" >"$made/output" 2>"$made/error"
    status=$?
}

judge() { # TEST..
    if "$@"; then
        passed=$((passed + 1))
    else
        failed=$((failed + 1))
        echo "check surroundings: $name: status $status"
        head -c 2000 "$made/output" "$made/error"
    fi
}

ends() { # STATUS [ERROR]: that status, and that text on standard error
    [ "$status" = "$1" ] && [ "$(cat "$made/error")" = "${2-}" ]
}

is_fault() { # TEXT: status 1, that text on standard error, nothing on standard output
    ends 1 "ttp: $1" && [ ! -s "$made/output" ]
}

is_output() { # FILE: status 0, and that output alone
    ends 0 && cmp -s "$1" "$made/output"
}

has_line() { # STATUS PATTERN: that status, and a line of this pattern in the output
    [ "$status" = "$1" ] && grep -qx "$2" "$made/output"
}

is_last() { # STATUS LINE: that status, and the output's last line
    [ "$status $(tail -n 1 "$made/output")" = "$1 $2" ]
}

steps_of() { # LOG [TEXT]: the steps of all legs, or a fault if the totals of the text aren't those of the log
    python3 scripts/parts/improvements.py "$@" 2>&1
}

tail_of() { # TEXT: from the history on or, without one, from the last sheet on
    local from='^league '
    ! grep -q '^history ' "$1" || from='^history '
    tac "$1" | sed "/$from/q" | tac
}

total_of() { # TEXT: that of its last line
    sed -n '$s/^best \([0-9]\{1,\}\).*/\1/p' "$1"
}

# a history that may get full
run 'a search with the most workers, steps and room' "$program" search --workers 16 --steps 1000000 --room 1048576 <"$league"
told=
! grep -qx 'history 1048576' "$made/output" ||
    told='remark: the history is full, which ends a search early: its room is 1048576, and --room gives no more'
judge ends 0 "$told"
judge has_line 0 'workers 16 steps 1000000 seed 1'
judge has_line 0 'worker 16 made .*'

# inputs
slowly() { { head -c 1 "$league"; sleep 0.1; tail -c +2 "$league"; } | "$program" start; }
run 'a start byte by byte' slowly
judge is_output "$sheet"
run 'a directory as input' "$program" start <.
judge is_fault 'input cannot be read'
run 'a closed input' "$program" start <&-
judge is_fault 'input cannot be read'
run 'an input of 4 MiB' "$program" start < <(head -c 4194304 /dev/zero | tr '\0' ' ')
judge is_fault $'league is not JSON\nttp: see the text: it is empty'
head -c 4194305 /dev/zero | tr '\0' ' ' >"$made/over"
run 'an input of one byte more' "$program" start <"$made/over"
judge is_fault 'input is over 4194304 bytes'
run 'a file of one byte more' "$program" start "$made/over" </dev/null
judge is_fault "$made/over is over 4194304 bytes"
run 'an input without an end' "$program" play < <(yes)
judge is_fault 'input is over 4194304 bytes'
{ echo 'home,away'; head -c 4000000 /dev/zero | tr '\0' ','; } >"$made/commas.csv"
run 'a table of four million empty cells' "$program" report "$league" "$made/commas.csv" </dev/null
judge is_last 3 'no double round robin'
{ echo 'home,away'; yes 1,2 | head -n 1000000; } >"$made/games.csv"
run 'a table of a million games' "$program" report "$league" "$made/games.csv" </dev/null
judge is_last 3 'no double round robin'
{ echo 'round,home,away'; head -c 4000000 /dev/zero; } >"$made/zeros.csv"
run 'a table of zero bytes' "$program" start "$league" --from "$made/zeros.csv" </dev/null
judge is_fault "$made/zeros.csv: row on line 2: \"round\" is no number"

# outputs
full() { "$program" "$@" >/dev/full; }
shut() { "$program" "$@" >&-; }
cropped() { "$program" "${@:2}" > >(head -c "$1" >/dev/null); }
scripts/oracle long-play 20000 >"$made/long"
for words in start 'search --workers 2' 'improve --effort 1' --help --version; do
    # shellcheck disable=SC2086
    run "$words on a full device" full $words <"$league"
    judge ends 1 'ttp: output cannot be written'
done
run 'a closed output' shut start <"$league"
judge ends 1 'ttp: output cannot be written'
# whoever closes a pipe wants no more, so nothing is said
run 'an improvement whose reader ends' cropped 100 improve --effort 1 --workers 1 <leagues/circular-10.json
judge ends 1
run 'a reader that ends while a play is written' cropped 100 play --room 20000 <"$made/long"
judge ends 1
unread() { { sleep 0.2; "$program" "$@"; } > >(true); }
for words in start --help; do
    run "$words whose output nobody reads" unread $words <"$league"
    judge ends 1
done
mute() { "$program" start </dev/null 2>&-; }
run 'a closed standard error' mute
judge ends 1

# a terminal
clear=$'\r\e[K'
cut=$'\e[?7l'
uncut=$'\e[?7h'
# terminal INPUT WORD..: runs the program with standard error on a terminal, which is the output then
terminal() {
    script -qec "$(printf '%q ' "$program" "${@:2}") <$(printf '%q' "$1") >$(printf '%q' "$made/text")" /dev/null </dev/null
}
is_progress() { # STEPS: lines of so many steps, and what takes each of them or the last one away
    local best='best ([0-9]+|none)( left [0-9]+(:[0-5][0-9]){2})?'
    ends 0 && [[ $(<"$made/output") =~ ^(("$clear")+"$cut"[0-9]+\ %\ steps\ [0-9]+\ of\ "$1"\ $best"$uncut")+"$clear"$ ]]
}
if script -qec true /dev/null </dev/null >"$made/error" 2>&1; then
    run 'a long search on a terminal' terminal leagues/circular-10.json search --workers 4 --steps 1000000 --slack 60 --room 1048576
    judge is_progress 4000000
    judge grep -q '^workers 4 steps 1000000 seed 1$' "$made/text"
    run 'a search that fills its room on a terminal' terminal "$league" search --workers 1 --steps 5000 --slack 30
    judge grep -q "$(<cases/search-fills/stderr)" "$made/output"
    run 'an improvement on a terminal' terminal leagues/circular-10.json improve --effort 10 --log "$made/legs"
    judge is_progress 10000000
    judge grep -q '100 % steps 10000000 of 10000000 best' "$made/output"
    # the line is cut at the terminal's width, and without the sequences for that it would take two
    judge test "$(python3 scripts/parts/terminal.py 40 <"$made/output")" = 1
    judge test "$(sed 's/\x1b\[?7[lh]//g' "$made/output" | python3 scripts/parts/terminal.py 40)" -gt 1
    judge test "$(steps_of "$made/legs" "$made/text")" = 10000000
    from_terminal() { printf '\004' | script -qec "$(printf '%q ' "$program") start 2>$(printf '%q' "$made/text")" /dev/null; }
    run 'a start with standard input on a terminal' from_terminal
    judge grep -q '^remark: standard input is read, which is the terminal' "$made/text"
    judge test "$status" = 1
else
    echo 'check surroundings: no pseudo-terminal is to be had here, so what is written on a terminal is not looked at'
fi

# the files that follow an improvement
is_unwritten() { # FILE: status 1 and one line that says so; the text is that of an improvement without files
    ends 1 "ttp: $1: cannot be written" && cmp -s "$made/plain" "$made/output"
}
follows() { # FILE: the file has what the text ends with
    cmp -s <(tail_of "$made/output") "$1"
}
names() { # the files, hidden ones too
    find "$followed" -mindepth 1 -printf '%f\n' | sort | paste -sd ' '
}
followed=$made/followed
mkdir "$followed"
six=("$program" improve leagues/circular-6.json --effort 1)
"${six[@]}" </dev/null >"$made/plain"
run 'an improvement with a file and a log' "${six[@]}" -o "$followed/best.txt" --log "$followed/legs.txt" </dev/null
judge is_output "$made/plain"
judge follows "$followed/best.txt"
judge test "$(steps_of "$followed/legs.txt" "$made/plain")" = 1000000
judge test "$(names)" = 'best.txt legs.txt'
run 'an improvement with its history' "${six[@]}" --history -o "$followed/best.txt" </dev/null
judge ends 0
judge follows "$followed/best.txt"
judge test "$(head -n 1 "$followed/best.txt")" = "history $(sed -n '$s/.* at //p' "$made/output")"
judge cmp -s <(sed '/^history /,/^end$/d; $s/ at .*//' "$made/output") "$made/plain"
run 'an improvement that goes on from its file' "${six[@]}" --from "$followed/best.txt" --output "$followed/best.txt" --seed 2 </dev/null
judge ends 0
judge follows "$followed/best.txt"
judge test "$(total_of "$followed/best.txt")" -le "$(total_of "$made/plain")"
run 'improvements for three seconds' "${six[@]}" --seconds 3 -o "$followed/best.txt" --log "$followed/legs.txt" </dev/null
judge ends 0
judge follows "$followed/best.txt"
# the first one is that without a time, and others follow
tac "$made/plain" | sed -n '/^-----*$/,$p' | tac >"$made/first"
judge cmp -s "$made/first" <(head -n "$(wc -l <"$made/first")" "$made/output")
judge test "$(steps_of "$followed/legs.txt" "$made/output")" -gt 1000000
none=("$program" improve cases/improve-none/league.json --effort 1)
run 'a file of a league that cannot be kept' "${none[@]}" -o "$followed/none.txt" --log="$followed/legs.txt" </dev/null
judge follows "$followed/none.txt"
judge test "$(steps_of "$followed/legs.txt" "$made/output")" = 1000000
for pause in 0 0.2 0.5 1; do
    rm -f "$followed/best.txt"
    "$program" improve leagues/circular-10.json --effort 1000 -o "$followed/best.txt" </dev/null >/dev/null 2>&1 &
    until [ -e "$followed/best.txt" ]; do sleep 0.01; done
    sleep "$pause"
    kill -KILL $!
    { wait $!; } 2>/dev/null
    run "the file of an improvement that was killed after $pause" "$program" report leagues/circular-10.json "$followed/best.txt" </dev/null
    judge is_last 0 "total $(total_of "$followed/best.txt")"
done
# a kill may leave what was written then
rm -f "$followed"/.best.txt.ttp-*
mkdir "$followed/away"
ten=("$program" improve leagues/circular-10.json --effort 10)
"${ten[@]}" >"$made/plain" </dev/null
taken_away() {
    "${ten[@]}" -o "$followed/away/best.txt" </dev/null &
    until [ -e "$followed/away/best.txt" ]; do sleep 0.01; done
    # the program may write there while it is emptied
    until rm -r "$followed/away" 2>/dev/null; do :; done
    wait $!
}
run 'a folder that is taken away while an improvement works' taken_away
judge is_unwritten "$followed/away/best.txt"
"${six[@]}" </dev/null >"$made/plain"
too_long() {
    (
        trap '' XFSZ
        ulimit -f 1
        exec "${six[@]}" --history -o "$followed/old.txt" </dev/null 2>/dev/null | cat >/dev/null
        exit "${PIPESTATUS[0]}"
    )
}
printf 'old\n' >"$followed/old.txt"
run 'a file that gets too long' too_long
judge test "$status $(cat "$followed/old.txt") $(find "$followed" -name '.old*')" = '1 old '
run 'a log on a full device' "${six[@]}" --log /dev/full </dev/null
judge is_unwritten /dev/full
for file in /dev/full /proc/best.txt "$followed" "$followed/best.txt/" "$followed/none.txt/." "$made/missing/best.txt"; do
    run "$file as a file" "${six[@]}" -o "$file" </dev/null
    judge is_fault "$file: cannot be written"
done
run 'a log in a folder that is missing' "${six[@]}" --log "$made/missing/legs.txt" </dev/null
judge is_fault "$made/missing/legs.txt: cannot be written"
if [ "$(id -u)" != 0 ]; then
    mkdir "$followed/locked"
    chmod a-w "$followed/locked"
    run 'a file in a folder that cannot be written' "${six[@]}" -o "$followed/locked/best.txt" </dev/null
    judge is_fault "$followed/locked/best.txt: cannot be written"
fi
rm -r "$followed"
mkdir "$followed"
printf 'mine\n' | tee "$followed/best.txt.new" "$followed/.best.txt.ttp-0" "$followed/.best.txt.ttp-2" >"$made/mine"
run 'a file with others of like names' "${six[@]}" -o "$followed/best.txt" </dev/null
judge is_output "$made/plain"
judge follows "$followed/best.txt"
judge test "$(names)" = '.best.txt.ttp-0 .best.txt.ttp-2 best.txt best.txt.new'
for file in best.txt.new .best.txt.ttp-0 .best.txt.ttp-2; do judge cmp -s "$made/mine" "$followed/$file"; done
rm -r "$followed"
mkdir -p "$followed/end"
ln -s end/best.txt "$followed/link"
ln -s link "$followed/links"
run 'a link that leads nowhere as a file' "${six[@]}" -o "$followed/links" </dev/null
judge is_fault "$followed/links: cannot be written"
run 'a link that leads nowhere as a log' "${six[@]}" --log "$followed/links" </dev/null
judge is_fault "$followed/links: cannot be written"
judge test "$(names)" = 'end link links'
printf 'old\n' >"$followed/end/best.txt"
run 'a link as a file' "${six[@]}" -o "$followed/links" </dev/null
judge is_output "$made/plain"
judge follows "$followed/end/best.txt"
judge test "$(readlink "$followed/link" "$followed/links" | paste -sd ' ')" = 'end/best.txt link'
run 'a link as a log' "${six[@]}" --log "$followed/links" </dev/null
judge is_output "$made/plain"
judge test "$(steps_of "$followed/end/best.txt" "$made/plain")" = 1000000
judge test "$(names)" = 'best.txt end link links'
at_once() {
    "${six[@]}" --seed 3 -o "$followed/best.txt" </dev/null >"$made/third" &
    "${six[@]}" --seed 4 -o "$followed/best.txt" </dev/null >"$made/fourth" && wait $!
}
run 'two improvements with one file' at_once
judge ends 0
judge test "$(names)" = 'best.txt best.txt end link links'
if cmp -s <(tail_of "$made/third") "$followed/best.txt"; then judge true; else judge cmp -s <(tail_of "$made/fourth") "$followed/best.txt"; fi
run 'files that words name twice' scripts/check files "$program"
judge test "$status" = 0
printf '{"format":' >"$followed/league.json"
run 'a file beside a league that is none' "$program" improve "$followed/league.json" -o "$followed/unmade.txt" </dev/null
judge test "$status $(find "$followed" -name '*unmade*')" = '1 '

# a stack of 256 KiB is enough, for the largest inputs too
low() {
    (
        ulimit -s 256
        exec "$program" "$@"
    )
}
is_no_json() { # the fault of a text that is no JSON, and some column of it
    local where=$'ttp: league is not JSON\nttp: see line 1, column '
    [ "$status" = 1 ] && [ ! -s "$made/output" ] && [[ $(<"$made/error") =~ ^"$where"[0-9]+$ ]]
}
python3 - >"$made/largest" <<'END'
import json

teams = list(range(1, 41))
away = [[0 if i == j else 1000000 for j in teams] for i in teams]
rule = {"class": "SE1", "kind": "soft", "weight": 1000000, "teams": teams, "min": 10000}
print(json.dumps({"format": 1, "teams": ["0123456789" * 4] * 40, "distances": away, "rules": [rule] * 256}))
END
run '3,000,000 brackets on a small stack' low start < <(head -c 3000000 /dev/zero | tr '\0' '[')
judge is_no_json
run 'the largest league on a small stack' low start <"$made/largest"
judge has_line 0 'league 40 teams 78 rounds'
cp "$made/output" "$made/sheet"
run 'a report of the largest league on a small stack' low report < <(cat "$made/largest"; echo sheet; cat "$made/sheet")
judge test "$status" = 0
games() { cat leagues/constant-4.json; printf 'sheet\nround 1:'; yes ' 1-2' | head -n 1000000 | tr -d '\n'; }
run 'a report of 1,000,000 games on a small stack' low report < <(games)
judge test "$status $(head -n 1 "$made/output")" = '3 team 1 has 1000000 games in round 1'
run 'a search of 16 workers on the largest league on a small stack' low search --workers 16 --steps 2 <"$made/largest"
judge has_line 0 'workers 16 steps 2 seed 1'
run 'an improvement by 16 workers on a small stack' low improve --workers 16 --effort 1 --log "$made/legs" <leagues/circular-10.json
judge test "$status $(steps_of "$made/legs" "$made/output")" = '0 1000000'
run 'a script of 20,000 lines on a small stack' low play --room 20000 <"$made/long"
judge test "$status" = 0
run 'help on a small stack' low --help </dev/null
judge is_output <("$program" --help)

# the program in a folder with its manual page and completions
scripts/parts/install "$program" "$made/installed"
completed() { # WORD..: what bash makes of the last of these words
    (
        # shellcheck disable=SC1091
        . "$made/installed/share/bash-completion/completions/ttp"
        COMP_WORDS=("$@") COMP_CWORD=$(($# - 1))
        _ttp
        echo "${COMPREPLY[*]}"
    )
}
run 'the installed program' "$made/installed/bin/ttp" start <"$league"
judge is_output "$sheet"
name='completion by bash'
judge test "$(completed ttp i)" = improve
judge test "$(completed ttp play --ro)" = --room
judge test "$(completed ttp improve -o)" = -o
judge test "$(completed ttp report --format h)" = html
judge test "$(completed ttp improve --effort '')" = ''
judge test "$(completed ttp start leagues/constant-4)" = leagues/constant-4.json
for shell in zsh fish; do
    command -v "$shell" >/dev/null || continue
    name="completion by $shell"
    judge "$shell" -n "$(find "$made/installed/share/$shell" -type f)"
done
name='the manual page'
judge test "$(grep -c '^\.SH' "$made/installed/share/man/man1/ttp.1")" = 9
judge grep -q 'effort' "$made/installed/share/man/man1/ttp.1"
if command -v groff >/dev/null; then
    judge test "$(groff -man -ww -Tutf8 "$made/installed/share/man/man1/ttp.1" 2>&1 >/dev/null)" = ''
fi

# ./ttp, ./build, ./test and ./test-memory, in a copy of the repository whose path has spaces
top="$made/a copy of it"
built=$top/crates/ttp/out
mkdir -p "$built"
find build test ttp test-memory crates.txt HANDLES scripts leagues crates -name out -prune -o -type f -print0 |
    xargs -0 cp --parents --target-directory "$top"
cp "$program" "$built/ttp"
note_proved "$(sources_sum)"
ln -s "$top/ttp" "$made/linked"
# all commands that there are, but rt
mkdir "$made/commands"
IFS=: read -ra folders <<<"$PATH"
for folder in "${folders[@]}"; do ln -s "$folder"/* "$made/commands" 2>/dev/null; done
rm -f "$made/commands/rt"
without=(env PATH="$made/commands")
is_kit_missed() { # WHO: status 127, and the one line that says so
    [ "$status" = 127 ] && [ ! -s "$made/output" ] && [[ $(<"$made/error") == "$1: there is no Rattle kit here"* ]]
}
run './ttp from a path with spaces' "${without[@]}" "$top/ttp" start <"$league"
judge is_output "$sheet"
run './ttp through a symbolic link' "${without[@]}" "$made/linked" start <"$league"
judge is_output "$sheet"
source=$top/crates/ttp/src/main.rt
cp "$source" "$made/source"
printf '\n' >>"$source"
run './ttp with another source than was proved' "${without[@]}" "$top/ttp" start <"$league"
judge is_kit_missed ttp
cp "$made/source" "$source"
run './ttp with a source that is again as it was' "${without[@]}" "$top/ttp" start <"$league"
judge is_output "$sheet"
printf '\n' >>"$built/ttp"
run './ttp with another program than was proved' "${without[@]}" "$top/ttp" start <"$league"
judge is_kit_missed ttp
rm "$built/ttp"
run './ttp without a kit' "${without[@]}" "$made/linked" start <"$league"
judge is_kit_missed ttp
for script in build test test-memory; do
    run "./$script without a kit" "${without[@]}" "$top/$script" </dev/null
    judge is_kit_missed "$script"
done
run './build with a word that is none' "${without[@]}" "$top/build" --instal / </dev/null
judge ends 2 'usage: ./build [--install DIR]'
if command -v rt >/dev/null; then
    for words in 'search --workers=2 --steps 600000' 'improve --effort 2' 'improve --effort=1.001 --history'; do
        # shellcheck disable=SC2086
        run "./ttp $words, more than an unproved run can do" "$made/linked" $words <"$league"
        judge test "$status $(grep -c './build makes' "$made/error") $(wc -c <"$made/output")" = '126 1 0'
    done
    # the first command of README
    first=(improve leagues/circular-6.json --effort 0.1)
    echo 7 >"$built/last-seconds"
    run './ttp unproved' "$made/linked" "${first[@]}" </dev/null
    judge cmp -s <("$program" "${first[@]}" </dev/null) "$made/output"
    judge test "$status $(wc -l <"$made/error")" = '0 1'
    judge grep -q 'the last one here took 7 seconds' "$made/error"
    judge test "$(<"$built/last-seconds")" != 7
else
    echo 'check surroundings: there is no Rattle kit here (its command rt), so the program is not run unproved'
fi

echo "$passed passed, $failed failed"
[ "$failed" = 0 ]
