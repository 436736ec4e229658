#!/bin/sh
# Runs each real program of examples/real, bound at start, by both builds of `fdpic`: it has to end with the exit value and to
# put out the bytes that are listed in tests/real/expected.txt, and each call that begins has to arrive four steps later.
# Called at the project's top, after the gate.
tests=$(cd tests && pwd) || exit 1
out=$(cd crates/fdpic/out && pwd) || exit 1
cd examples/real || exit 1
grep -v '^#' "$tests/real/expected.txt" | while read -r name _ value _ bytes; do
    for program in "$out/fdpic" "$out/fdpic.by-rattle"; do
        report=$("$program" run "$name.job") || exit 1
        printf '%s\n' "$report" | awk -v value="$((value))" -v bytes="$bytes" -f "$tests/as_listed.awk" ||
            { echo "$name: not as listed" >&2; exit 1; }
    done
done
