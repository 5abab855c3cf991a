#!/usr/bin/env bash
# What can be seen of a change without any proof, in some minutes: what must hold of the files, all rows, the Rust
# tests, the stored run, and the tests over the program and over captures, over builds by `rt try`. What is independent
# runs side by side. The last line is 'quick: N passed, M failed'.
set -um
cd "$(dirname "$0")/.." || exit 1
logs=$(mktemp -d)
program=out/unproved/smbshare

# Each task runs in a process group of its own, and is ended with it.
end() {
    exec 2> /dev/null
    for task in $(jobs -p); do kill -TERM -- "-$task"; done
    wait
    rm -rf "$logs"
}
trap end EXIT
trap 'exit 130' INT
trap 'exit 143' TERM HUP

# Prints a task's count: what passed, and what failed, at least one where its status says so.
count() {
    local name=$1 passed=$2 failed=$3 status=$4
    [ "$status" -eq 0 ] || [ "$failed" -gt 0 ] || failed=1
    echo "$name: $passed passed, $failed failed"
}

files() {
    bash tools/files.sh
    local status=$?
    count files $((status == 0)) 0 $status
}

# A row is one that passed where its line is among those that the program must print.
rows() {
    (cd crates/smb_rows && rt try --seconds 600 < stdin) > "$logs/rows.out"
    local status=$?
    diff crates/smb_rows/stdout "$logs/rows.out" || status=1
    count rows "$(grep -cxFf crates/smb_rows/stdout "$logs/rows.out")" \
        "$(grep -cvxFf "$logs/rows.out" crates/smb_rows/stdout)" $status
}

tests_of() {
    (cd "crates/$1" && rt try --test --seconds 300) > "$logs/$1.out"
    local status=$? result
    result=$(sed -n 's/^test result: .*\. \([0-9]*\) passed; \([0-9]*\) failed;.*/\1 \2/p' "$logs/$1.out")
    grep -vE '^test .* ok$' "$logs/$1.out"
    # shellcheck disable=SC2086
    count "$1" ${result:-0 0} $status
}

run_stored() {
    "$program" replay < crates/smbshare/stdin | diff crates/smbshare/stdout -
    local status=$?
    count stored $((status == 0)) 0 $status
}

the_program() {
    bash tools/serve.sh --build > /dev/null || return
    run_stored
    python3 -m tests.run --unproved --jobs 2 --count 200 serving load hostile words keeping logging captures conform \
        packages
}

# How many tasks run side by side: one a processor, and one for each 2 GB of memory that is free.
lanes=$(awk -v lanes="$(nproc)" '/^MemAvailable:/ { fits = int($2 / 2000000) }
    END { if (fits < lanes) lanes = fits; print lanes < 1 ? 1 : lanes }' /proc/meminfo)

# Begins a task, whose lines go to a file of its name, once there is room for it.
names=() tasks=()
begin() {
    local name=$1
    shift
    while [ "$(jobs -rp | wc -l)" -ge "$lanes" ]; do wait -n; done
    "$@" > "$logs/$name" 2>&1 &
    names+=("$name") tasks+=("$!")
}

echo "quick.sh: rt try builds the program, the rows and two crates of tests, $lanes at a time: some minutes."
begin files files
begin smbshare the_program
begin smb_rows rows
begin smb_tests tests_of smb_tests
begin smb_layer_tests tests_of smb_layer_tests
for i in "${!tasks[@]}"; do
    wait "${tasks[$i]}"
    echo "== ${names[$i]}"
    cat "$logs/${names[$i]}"
done

cat << END
== $SECONDS seconds
Left out: all proofs, the must-fail edits, allocations and what is done where memory runs out, the layout of the files,
and the second compiler. bash tools/test.sh has them all.
END
cd "$logs" || exit 1
awk '/^(files|rows|smb_layer_tests|smb_tests|stored|tests): [0-9]+ passed, [0-9]+ failed$/ {
         passed += $2; failed += $4; tried++ }
     END { failed += 6 - tried; print "quick: " passed " passed, " failed " failed"; exit failed > 0 }' "${names[@]}"
