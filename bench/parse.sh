#!/usr/bin/env bash
# Time and memory of `dts_parse::parse` on sources of 2 MiB in several shapes, each at a quarter, a half and the
# whole of its size: time is to grow with the bytes. Beside it `dtc` on the same source, where it is installed.
#
# The repository's programs needn't call `parse` for this: a small program that does is added to a copy of the
# crates, and is proved and built there. What was proved here before isn't proved again.
set -eu
top=$(cd "$(dirname "$0")/.." && pwd)
work=$(mktemp -d)
trap 'rm -rf "$work"' EXIT

mkdir -p "$work/repository/crates/reading/src"
for crate in edt_base dts_lex dts_parse; do
    mkdir "$work/repository/crates/$crate"
    cp -a "$top/crates/$crate"/{src,specs,proofs} "$work/repository/crates/$crate/"
done
grep -E '^(edt_base|dts_lex|dts_parse):' "$top/crates.txt" >"$work/repository/crates.txt"
echo 'reading: edt_base dts_parse' >>"$work/repository/crates.txt"
cp "$top/HANDLES" "$work/repository/"
cat >"$work/repository/crates/reading/src/main.rt" <<'R'
//! Reads the source on standard input and tells how many statements it has, or the rule that it breaks.
#![tactic(auto)]

use dts_parse::parse;
use edt_base::{End, Text};
use std::io::Read;
use std::process::ExitCode;

fn main(rt: HostRuntime) -> ExitCode {
    let alloc = rt.alloc();
    let mut source = Vec::new(alloc);
    let mut block = [0u8; 65_536];
    let mut input = rt.reader();
    for _ in 0..u64::MAX {
        match input.read(&mut block) {
            Ok(0) => break,
            Ok(count) => {
                if source.extend_from_slice(&block[..count]).is_err() {
                    return ExitCode::from(5);
                }
            }
            Err(_) => return ExitCode::from(3),
        }
    }
    let Ok(name) = String::from_str(alloc, "-") else {
        return ExitCode::from(5);
    };
    match parse(alloc, &Text::new(name), source.as_slice(), true) {
        Ok(script) => {
            let _ = println!(rt; "{}", script.stmts.len());
            ExitCode::from(0)
        }
        Err(End::Fault(fault)) => {
            let _ = println!(rt; "{}", fault.rule);
            ExitCode::from(1)
        }
        Err(End::Memory(_)) => ExitCode::from(5),
    }
}
R

echo "proving and building the program (the log: $work/build.log)" >&2
program=$work/repository/crates/reading/out/reading
(cd "$work/repository/crates/reading" && echo '/dts-v1/;' | rt run) >"$work/build.log" 2>&1 || true
if [ ! -x "$program" ]; then
    echo "the program was not built; the end of the log:" >&2
    tail -n 20 "$work/build.log" >&2
    exit 1
fi

# source_of SHAPE BYTES: a source of about so many bytes
source_of() {
    python3 - "$1" "$2" <<'P'
import sys
shape, size = sys.argv[1], int(sys.argv[2])

def rows(row):
    """So many different rows as there is room for."""
    out, left, i = [], size - 30, 0
    while True:
        piece = row(i)
        if len(piece) > left:
            return "".join(out)
        out.append(piece)
        left -= len(piece)
        i += 1

def name(i):
    return format(i, "x")

chain = 63
brackets = 61
long_sum = "+".join(["1"] * 2047)
bodies = {
    "nodes": lambda: rows(lambda i: f"n{name(i)}{{}};\n"),
    "properties": lambda: rows(lambda i: f"p{name(i)};\n"),
    "cells": lambda: "p=<" + "100 " * ((size - 40) // 4) + ">;",
    "pairs": lambda: "p=[" + "0a" * ((size - 40) // 2) + "];",
    "text": lambda: 'p="' + "t" * (size - 40) + '";',
    "chains": lambda: rows(lambda i: f"n{name(i)}{{" + "a{" * (chain - 1) + "};" * chain),
    "brackets": lambda: "p=<" + rows(lambda i: "(" * brackets + "1" + ")" * brackets) + ">;",
    "sums": lambda: "p=<" + rows(lambda i: f"({long_sum})") + ">;",
    "signs": lambda: "p=<" + rows(lambda i: "(" + "-" * 4092 + "1)") + ">;",
    "labels": lambda: rows(lambda i: f"l{name(i)}:") + "n{};",
    "comments": lambda: rows(lambda i: f"/* {name(i)} */\n"),
}
sys.stdout.write("/dts-v1/; / {" + bodies[shape]() + "};")
P
}

# An answer that takes longer than this is not waited for.
patience=20

# seconds_of COMMAND..: its time and its memory, or why there are none
seconds_of() {
    local status=0
    /usr/bin/time -f '%e %M' -o "$work/time" timeout "$patience" "$@" >"$work/out" 2>"$work/err" <"$work/b.dts" || status=$?
    case $status in
    0) tail -n 1 "$work/time" ;;
    124) echo "over:$patience -" ;;
    *) echo "fails:$status -" ;;
    esac
}

printf '%-11s %8s %8s %9s %10s %9s %10s\n' shape bytes answer seconds kilobytes dtc kilobytes
for shape in nodes properties cells pairs text chains brackets sums signs labels comments; do
    for step in 4 2 1; do
        source_of "$shape" $((2097152 / step)) >"$work/b.dts"
        read -r seconds kilobytes <<<"$(seconds_of "$program")"
        answer=$(cat "$work/out")
        dtc_seconds=- dtc_kilobytes=-
        if command -v dtc >/dev/null; then
            read -r dtc_seconds dtc_kilobytes <<<"$(seconds_of dtc -q -I dts -O dtb -o /dev/null -)"
        fi
        printf '%-11s %8d %8s %9s %10s %9s %10s\n' "$shape" "$(stat -c %s "$work/b.dts")" "$answer" \
            "$seconds" "$kilobytes" "$dtc_seconds" "$dtc_kilobytes"
    done
done
