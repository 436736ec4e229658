#!/bin/sh
# Binds each real program of examples/real, by both builds of `fdpic`, and compares the slots with those that are listed in
# tests/real. Called at the project's top, after the gate.
listed=$(cd tests/real && pwd) || exit 1
out=$(cd crates/fdpic/out && pwd) || exit 1
cd examples/real || exit 1
for listing in "$listed"/*.bind; do
    for program in "$out/fdpic" "$out/fdpic.by-rattle"; do
        "$program" bind "$(basename "$listing" .bind).job" | cmp - "$listing" || exit 1
    done
done
