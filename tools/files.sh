#!/usr/bin/env bash
# What must hold of the repository's files and documents, which needs no proof and no program. It prints the first that
# does not hold, and its status is then 1.
set -u
cd "$(dirname "$0")/.." || exit 1

fail() {
    echo "$1"
    exit 1
}

[ "$(cat HANDLES)" = 'Handles allowed: Net.' ] || fail 'HANDLES is not what it was made.'
[ "$(wc -l < HANDLES)" -eq 1 ] || fail 'HANDLES is not one line.'
for folder in crates/*/; do
    name=$(basename "$folder")
    grep -qE "^$name( |:)" crates.txt || fail "crates.txt does not list $name."
done
python3 tools/lib/manual.py --check || fail 'docs/smbshare.1 is not what tools/lib/manual.py writes.'
python3 tools/lib/refusals.py --check || fail 'The tables of docs/PROFILE.md are not what crates/smb_refusal_table prints.'
python3 tools/edits.py --check || fail 'docs/EDITS.md is not what tools/edits.py writes.'
python3 tools/believed.py --check || fail 'docs/DEFINITIONS.md does not name what a reader must believe.'
python3 tools/bodies.py --check || fail 'docs/BODIES.md is not what tools/bodies.py writes.'
python3 tools/lib/documents.py || fail 'A document names what is not there, or two say the same.'
python3 tools/lib/wording.py || fail 'More comments hide what they name, or more lines are too long.'
python3 tools/frame.py check crates/smb_rows/stdin || fail 'tools/frame.py does not agree with the rows.'
