#!/usr/bin/env bash
# Every test of the repository: what must hold of its files, then `rt ci`, which proves every crate from nothing, tries
# the must-fail edits, and runs the tests, the programs and their rows; and last the tests over the programs that it
# built, and over captures, side by side (`python3 -m tests.run --list` says what they are).
set -u
cd "$(dirname "$0")/.." || exit 1
export RT_JOBS=${RT_JOBS:-$(nproc)}

if ! bash tools/files.sh; then
    echo '0 passed, 1 failed'
    exit 1
fi

log=$(mktemp)
rt ci 2>&1 | tee "$log"
status=${PIPESTATUS[0]}
python3 -m tests.run --jobs "$(nproc)" 2>&1 | tee -a "$log"
[ "${PIPESTATUS[0]}" -eq 0 ] || status=1

# Both counts, as one; what printed none failed.
awk '/^[0-9]+ passed, [0-9]+ failed$/ { passed = $1; failed = $3; proved = 1 }
     /^tests: [0-9]+ passed, [0-9]+ failed$/ { more = $2; less = $4; tried = 1 }
     END { print passed + more " passed, " failed + less + 2 - proved - tried " failed"
           exit proved + tried != 2 }' "$log"
counted=$?
rm -f "$log"
[ "$status" -eq 0 ] && [ "$counted" -eq 0 ]
