#!/usr/bin/env bash
# Time and memory of `yaml_profile::read` with `bind_load::load` on binding files of several shapes, each at a
# quarter, a half and the whole of the greatest size of a file, 262,144 bytes. Each file is read as often as makes
# 16, 32 and 64 MiB, so that time is to grow with the bytes.
#
# The repository's programs needn't call `read` for this: a small program that does is added to a copy of the
# crates, and is proved and built there. What was proved here before isn't proved again.
set -eu
top=$(cd "$(dirname "$0")/.." && pwd)
work=$(mktemp -d)
trap 'rm -rf "$work"' EXIT

mkdir -p "$work/repository/crates/reading/src"
for crate in edt_base yaml_profile bind_load; do
    mkdir "$work/repository/crates/$crate"
    cp -a "$top/crates/$crate"/{src,specs,proofs} "$work/repository/crates/$crate/"
done
grep -E '^(edt_base|yaml_profile|bind_load):' "$top/crates.txt" >"$work/repository/crates.txt"
echo 'reading: edt_base yaml_profile bind_load' >>"$work/repository/crates.txt"
cp "$top/HANDLES" "$work/repository/"
cat >"$work/repository/crates/reading/src/main.rt" <<'R'
//! Reads the binding file on standard input 256 times, and tells what it is or the rule that it breaks.
#![tactic(auto)]

use bind_load::load;
use edt_base::{End, Text};
use std::alloc::Global;
use std::io::Read;
use std::process::ExitCode;
use yaml_profile::read;

fn once(alloc: Global, name: &Text, source: &[u8]) -> Result<bool, End> {
    let value = read(alloc, name, source)?;
    match load(alloc, name, &value) {
        Ok(_) => Ok(true),
        Err(End::Fault(_)) => Ok(false),
        Err(end) => Err(end),
    }
}

fn main(rt: HostRuntime) -> ExitCode {
    let alloc = rt.alloc();
    let mut source = Vec::new(alloc);
    let mut block = [0u8; 65_536];
    let mut input = rt.reader();
    for _ in 0..u64::MAX {
        match input.read(&mut block) {
            Ok(0) => break,
            Ok(count) => {
                if source.extend_from_slice(&block[..count]).is_err() {
                    return ExitCode::from(5);
                }
            }
            Err(_) => return ExitCode::from(3),
        }
    }
    let Ok(word) = String::from_str(alloc, "-") else {
        return ExitCode::from(5);
    };
    let name = Text::new(word);
    let mut bindings = 0u32;
    for _ in 0..256 {
        match once(alloc, &name, source.as_slice()) {
            Ok(true) => bindings = bindings.saturating_add(1),
            Ok(false) => {}
            Err(End::Fault(fault)) => {
                let _ = println!(rt; "{}", fault.rule);
                return ExitCode::from(0);
            }
            Err(End::Memory(_)) => return ExitCode::from(5),
        }
    }
    let _ = println!(rt; "{}", if bindings == 256 { "binding" } else { "value" });
    ExitCode::from(0)
}
R

echo "proving and building the program (the log: $work/build.log)" >&2
program=$work/repository/crates/reading/out/reading
(cd "$work/repository/crates/reading" && echo 'a: 1' | rt run) >"$work/build.log" 2>&1 || true
if [ ! -x "$program" ]; then
    echo "the program was not built; the end of the log:" >&2
    tail -n 20 "$work/build.log" >&2
    exit 1
fi

# file_of SHAPE BYTES: a file of about so many bytes
file_of() {
    python3 - "$1" "$2" <<'P'
import sys
shape, size = sys.argv[1], int(sys.argv[2])

def rows(head, row, tail=""):
    """The head, so many different rows as there is room for, and the tail."""
    out, left, i = [head], size - len(head) - len(tail), 0
    while True:
        piece = row(i)
        if len(piece) > left:
            return "".join(out) + tail
        out.append(piece)
        left -= len(piece)
        i += 1

def prop(i):
    return (f"  prop-{i:x}:\n    type: int\n    required: true\n    description: |\n"
            f"      The property of this number, with some words\n      on more than one line.\n    enum: [1, 2, {i}]\n")

shapes = {
    "binding": lambda: rows('description: A device\ncompatible: "v,device"\ninclude: [base.yaml]\nproperties:\n', prop),
    "newlines": lambda: "\n" * size,
    "comments": lambda: rows("", lambda i: f"# {i:x}\n"),
    "line": lambda: "a: " + "x" * (size - 4) + "\n",
    "spaces": lambda: "a: x" + " " * (size - 5) + "\n",
    "keys": lambda: rows("", lambda i: f"k{i:x}: 1\n"),
    "dashes": lambda: rows("", lambda i: "- a\n"),
    "flow": lambda: rows("[", lambda i: f"{i:x}, ", "]\n"),
    "nested": lambda: rows("", lambda i: "- " + "[" * 31 + "]" * 31 + "\n"),
    "deep": lambda: rows("", lambda i: "".join(" " * (2 * k) + f"k{i:x}:\n" for k in range(32))),
    "plain": lambda: rows("a: x\n", lambda i: "  some words\n"),
    "double": lambda: 'a: "' + "t" * (size - 6) + '"\n',
    "escapes": lambda: 'a: "' + "\\n" * ((size - 6) // 2) + '"\n',
    "quoted": lambda: rows('a: "', lambda i: "some words \n\n", '"\n'),
    "literal": lambda: rows("a: |\n", lambda i: "  some words\n"),
    "folded": lambda: rows("a: >\n", lambda i: "  some words\n\n"),
    "blank": lambda: "a: |\n  x\n" + "\n" * (size - 9),
}
sys.stdout.write(shapes[shape]())
P
}

printf '%-10s %8s %8s %9s %10s\n' shape bytes answer seconds kilobytes
for shape in binding newlines comments line spaces keys dashes flow nested deep plain double escapes quoted literal folded blank; do
    for step in 4 2 1; do
        file_of "$shape" $((262144 / step)) >"$work/b.yaml"
        status=0
        /usr/bin/time -f '%e %M' -o "$work/time" timeout 120 "$program" <"$work/b.yaml" >"$work/out" || status=$?
        [ "$status" = 0 ] && ours=$(tail -n 1 "$work/time") || ours="(status $status) -"
        # shellcheck disable=SC2086
        printf '%-10s %8d %8s %9s %10s\n' "$shape" "$(stat -c %s "$work/b.yaml")" "$(cat "$work/out")" ${ours/ (/(}
    done
done
