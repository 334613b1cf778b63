#!/usr/bin/env bash
# Time and memory of `edt gen` on the largest sources that are let through, at each doubling of their
# nodes and bytes: both are to grow no faster than the source and its header.
set -eu
top=$(cd "$(dirname "$0")/.." && pwd)
work=$(mktemp -d)
trap 'rm -rf "$work"' EXIT

# source SHAPE NODES BYTES: nodes in a row, or in chains of 63, padded to so many bytes by the names
source_of() {
    python3 - "$1" "$2" "$3" <<'P'
import sys
shape, nodes, size = sys.argv[1], int(sys.argv[2]), int(sys.argv[3])
children = nodes - 1
width = max(4, (size - 20) // children - 4)
names = [format(i, "x").rjust(width, "n") for i in range(children)]
out = ["/dts-v1/; / {"]
if shape == "row":
    out += [f"{name}{{}};" for name in names]
else:
    for first in range(0, children, 63):
        chain = names[first:first + 63]
        out += [f"{name}{{" for name in chain] + ["};"] * len(chain)
out.append("};")
text = "".join(out)
sys.stdout.write(text + " " * max(0, size - len(text)))
P
}

"$top/bin/edt" gen - <<<'/dts-v1/; / { };' >/dev/null
printf '%-6s %8s %10s %12s %8s %10s\n' shape nodes bytes header seconds kilobytes
for shape in row chains; do
    for step in 8 4 2 1; do
        nodes=$((65535 / step))
        bytes=$((2097152 / step))
        [ "$shape" = chains ] && bytes=$((65535 * 12 / step))
        source_of "$shape" "$nodes" "$bytes" >"$work/b.dts"
        /usr/bin/time -f '%e %M' -o "$work/time" "$top/crates/edt/out/edt" gen "$work/b.dts" >"$work/b.h"
        read -r seconds kilobytes <"$work/time"
        printf '%-6s %8d %10d %12d %8s %10s\n' "$shape" "$nodes" "$(stat -c %s "$work/b.dts")" \
            "$(stat -c %s "$work/b.h")" "$seconds" "$kilobytes"
    done
done
if command -v dtc >/dev/null; then
    # dtc reads the same source and writes a tree of its own form, without macros.
    source_of row 65535 2097152 >"$work/b.dts"
    /usr/bin/time -f 'dtc -I dts -O dts, the largest row: %e s, %M kB' dtc -q -I dts -O dts "$work/b.dts" >/dev/null
fi
