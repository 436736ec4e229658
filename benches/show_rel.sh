#!/bin/sh
# How long `show` takes for a relocatable file of 60,000 symbols and 100,000 relocations in two sections, beside readelf. The
# program is the one that ./build has built, or FDPIC where that is set; this script is not part of the gate.
#
# usage: benches/show_rel.sh [SYMBOLS [RELOCATIONS]]
set -eu

top=$(cd "$(dirname "$0")/.." && pwd)
program=${FDPIC:-$top/crates/fdpic/out/fdpic}
work=$(mktemp -d)
trap 'rm -rf "$work"' EXIT

if [ ! -x "$program" ]; then
    echo "there is no $program yet: run ./build" >&2
    exit 1
fi

python3 "$top/benches/rel_object.py" "$work/large.o" "${1:-60000}" "${2:-100000}"

# the least time of three, in milliseconds
millis() {
    least=
    for _ in 1 2 3; do
        begin=$(date +%s%N)
        "$@" >"$work/said"
        took=$((($(date +%s%N) - begin) / 1000000))
        [ -n "$least" ] && [ "$took" -ge "$least" ] || least=$took
    done
    echo "$least"
}

cd "$work"
echo "a relocatable file of $(wc -c <large.o) bytes"
took=$(millis "$program" show large.o)
echo "show: $took milliseconds for $(wc -l <said) lines"
if command -v readelf >/dev/null; then
    took=$(millis readelf -aW large.o)
    echo "readelf -aW: $took milliseconds for $(wc -l <said) lines"
fi
