#!/usr/bin/env bash
# Time and memory of `edt dts` on sources in several shapes, each at doublings of its size up to the limit of 2 MiB:
# time is to grow with the bytes. Beside it `dtc -I dts -O dts` on the same source, where it is installed.
#
# Shapes: nodes as a board has them, with registers, labels and phandles; as many nodes as the limits let through; nodes
# within nodes; a body in which properties are written and deleted; openings of one node; a chain of
# references; labels on one node; a reference in each cell.
set -eu
top=$(cd "$(dirname "$0")/.." && pwd)
work=$(mktemp -d)
trap 'rm -rf "$work"' EXIT
# EDT may name a built program; bin/edt, which looks first whether the program is current, takes some hundredths of a
# second more.
edt=${EDT:-$top/bin/edt}

# lines of a node each, from 0: what a board's nodes look like
board() {
    awk -v n="$1" 'BEGIN {
        print "/dts-v1/;\n/ {\n#address-cells = <1>;\n#size-cells = <1>;"
        for (i = 0; i < n; i++) {
            gs = i ? sprintf(" gs = <&n%d %d>;", int(i / 2), i) : ""
            printf "n%d: n@%x { compatible = \"g,n\"; #g-cells = <1>; reg = <0x%x 0x1>; k = <%d>;%s };\n", i, i, i, 31 * i % 97, gs
        }
        print "};" }'
}
nodes() { awk -v n="$1" 'BEGIN { print "/dts-v1/;\n/ {"; for (i = 1; i < n; i++) printf "n%x {};\n", i; print "};" }'; }
deep() { awk -v n="$1" 'BEGIN { print "/dts-v1/;\n/ { l0: n { }; };"; for (i = 1; i < n; i++) printf "&l%d { l%d: n { }; };\n", i - 1, i }'; }
deleted() {
    awk -v n="$1" 'BEGIN { print "/dts-v1/;\n/ {"; for (i = 0; i < n; i++) printf "p%d;/delete-property/ p%d;\n", i, i; print "};" }'
}
opened() { awk -v n="$1" 'BEGIN { print "/dts-v1/;\n/ { l: n { }; };"; for (i = 0; i < n; i++) print "&l { };" }'; }
labels() { awk -v n="$1" 'BEGIN { print "/dts-v1/;\n/ {"; for (i = 0; i < n; i++) printf "l%x:", i; print "n { };\n};" }'; }
cells() {
    awk -v n="$1" 'BEGIN { print "/dts-v1/;\n/ { l: n { };"
        for (i = 0; i < n; i += 10000) { printf "p%d = <", i; for (k = i; k < i + 10000 && k < n; k++) printf "&l "; print ">;" }
        print "};" }'
}

# seconds and kilobytes that a command takes on the source
taken() {
    /usr/bin/time -f '%e %M' timeout 120 "$@" 2>"$work/note" >/dev/null || true
    tail -n 1 "$work/note"
}

measure() {
    local shape=$1
    shift
    for n in "$@"; do
        "$shape" "$n" >"$work/source.dts"
        local bytes
        bytes=$(wc -c <"$work/source.dts")
        printf '%-8s %7d %8d bytes  edt %s' "$shape" "$n" "$bytes" "$(taken "$edt" dts "$work/source.dts")"
        if command -v dtc >/dev/null; then
            printf '  dtc %s' "$(taken dtc -q -I dts -O dts "$work/source.dts")"
        fi
        echo
    done
}

echo 'shape    size; seconds and kilobytes'
measure board 2048 4096 8192 16384
measure nodes 8192 16384 32768 65535
measure deep 500 1000 2000 4000
measure deleted 15000 30000 60000
measure opened 15000 30000 60000
measure labels 50000 100000 200000
measure cells 25000 50000 100000
