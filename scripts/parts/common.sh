# shellcheck shell=bash disable=SC2034,SC2154
# What ./build, ./ttp, ./test-memory and the gate share. They set `top`, the repository's folder, and source this file.

# What ./build takes where nothing was proved before, in minutes of processor time.
build_minutes=40
# The program's folder. The file proved-sum in it says which program was proved, and of which sources, and proved-stamps when these changed
# last.
built=$top/crates/ttp/out

# need_kit WHO: ends here where there is no Rattle kit.
need_kit() {
    command -v rt >/dev/null && return
    echo "$1: there is no Rattle kit here (its command rt), which proves, builds and tests the program" >&2
    exit 127
}

# The lines of crates.txt for ttp and the crates that it stands on, each after those that it uses itself.
lines_of_ttp() {
    awk '
        { sub(/#.*/, "") }
        NF { name = $1; sub(/:.*/, "", name); line[name] = $0 }
        function visit(name, words, uses, count, i) {
            if (name in seen || !(name in line)) return
            seen[name] = 1
            uses = line[name]
            sub(/^[^:]*:?/, "", uses)
            count = split(uses, words, /[ \t,]+/)
            for (i = 1; i <= count; i++) visit(words[i])
            print line[name]
        }
        END { visit("ttp") }
    ' "$top/crates.txt"
}

# The names in such lines.
names_in() {
    sed 's/^[ \t]*//; s/[ \t:].*//'
}

# find_sources WORD..: find, with these words, over the files of the crates that the program is built from.
find_sources() {
    local names
    mapfile -t names < <(lines_of_ttp | names_in)
    find "${names[@]}" -path '*/out' -prune -o -type f \( -path '*/src/*' -o -path '*/specs/*' -o -path '*/proofs/*' \) "$@"
}

# One checksum over all that the program is built from.
sources_sum() (
    cd "$top/crates" || exit 1
    { lines_of_ttp && find_sources -print0 | LC_ALL=C sort -z | xargs -0 sha256sum; } | sha256sum
)

# One checksum over when these files and the program changed last, and their sizes: while it stays, so does all that is in them.
stamps() (
    cd "$top/crates" || exit 1
    { find_sources -printf '%p %s %C@\n' | LC_ALL=C sort; stat -c '%s %.Z' ../crates.txt "$built/ttp"; } | sha256sum
)

# proved_sum SOURCES: one checksum over the sources of that checksum and the program's own bytes.
proved_sum() {
    { printf '%s\n' "$1" && cat "$built/ttp"; } | sha256sum
}

# note_proved SOURCES: notes that the program was proved and built of the sources of that checksum.
note_proved() {
    local seen
    seen=$(stamps)
    proved_sum "$1" >"$built/proved-sum"
    # a source that changes after this was told by its stamp
    if [ "$(sources_sum)" = "$1" ]; then echo "$seen" >"$built/proved-stamps"; fi
}

# Whether there is a program that was proved of the sources as they are, and is still the one that was built of them.
is_proved() {
    [ -x "$built/ttp" ] && [ -e "$built/proved-sum" ] || return
    if [ -e "$built/proved-stamps" ] && [ "$(stamps)" = "$(cat "$built/proved-stamps")" ]; then return; fi
    [ "$(proved_sum "$(sources_sum)")" = "$(cat "$built/proved-sum")" ]
}
