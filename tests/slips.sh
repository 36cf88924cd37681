#!/usr/bin/env bash
# Two slips in a host's source that must not compile: a word of an open sitting before the opening,
# and one after the closing. Each is put into a copy of the host's program, and the compiler must
# refuse it because that state has no such call. Prove the host first: (cd crates/host && rt check).
set -u
cd "$(dirname "$0")/.."
refused=0

# slip LABEL OLD NEW MESSAGE
slip() {
    local copy
    copy=$(mktemp -d)
    tar --exclude=out -cf - crates crates.txt | tar -xf - -C "$copy"
    python3 - "$copy/crates/host/src/main.rt" "$2" "$3" <<'P'
import sys
path, old, new = sys.argv[1:]
text = open(path).read()
assert text.count(old) == 1, old
open(path, "w").write(text.replace(old, new))
P
    if (cd "$copy/crates/host" && rt check 2>&1) | grep -q "$4"; then
        echo "$1: refused by the compiler"
        refused=$((refused + 1))
    else
        echo "$1: NOT REFUSED"
    fi
    rm -rf "$copy"
}

slip "a table before the opening" 'sitting.group(&mut catalogue, 10)' 'sitting.base(&mut catalogue, 1, 10)' 'no method named `base` found for type `SettingUp`'
slip "a table after the closing" 'let carried = closed.carried();' 'let carried = closed.base(&mut catalogue, 1, 8);' 'no method named `base` found for type `Closed`'
echo "$refused passed, $((2 - refused)) failed"
[ "$refused" -eq 2 ]
