#!/usr/bin/env bash
# holds the README's worked session to that of a test of crates/cli_tests, and the examples in Rust to their sources
#
# usage: scripts/check readme
#
# Its first `sh` block names a league's file and has a script: together they are the test's input. The block after it is what the command
# behind the program shows of what the test wants to be printed.
set -euo pipefail
top=$(realpath "${BASH_SOURCE[0]}")
top=${top%/scripts/*}
cd "$top"

# the Nth fenced block of the section
block() {
    awk -v wanted="$1" '
        /^## / { inside = ($0 == "## A worked session") }
        inside && /^```/ { if (open) open = 0; else { open = 1; count++ } next }
        inside && open && count == wanted
    ' README.md
}

# the text of a constant, a raw string that ends at a line of its own
constant() {
    awk -v name="$1" '
        index($0, "const " name ":") { named = 1 }
        named && !inside && (at = index($0, "r#\"")) { inside = 1; print substr($0, at + 3); next }
        inside && /^"#;/ { exit }
        inside
    ' crates/cli_tests/src/tests/session.rt
}

session=$(block 1)
if [[ ! ${session%%$'\n'*} =~ ^'./ttp play '([^' ']+)" <<'END' | "(.+)$ ]]; then
    echo "check readme: the session doesn't play a script on a league's file" >&2
    exit 1
fi
league=${BASH_REMATCH[1]} shown_by=${BASH_REMATCH[2]}
diff <(cat "$league"; echo script; sed '1d;$d' <<< "$session") <(constant INPUT)
diff <(block 2) <(constant OUTPUT | bash -c "$shown_by")
scripts/check examples
