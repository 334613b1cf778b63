#!/usr/bin/env bash
# Time and memory of reading definitions and of expanding, at each doubling of the size, and of `cpp` and
# `clang -E` on the same files where they are installed. `chain`, `back` and `calls` are to grow as the
# text does, times the binary digits of the size, since each name is barred for all that follow; `wide`
# is refused with C7 at once, whatever its size; `bytes` ends with want of memory; the others are to grow
# no faster than the text. The program that is timed is made in a copy of the repository.
set -eu
top=$(cd "$(dirname "$0")/.." && pwd)
work=$(mktemp -d)
trap 'rm -rf "$work"' EXIT

mkdir -p "$work/copy/crates/expand_bench/src"
cp "$top/crates.txt" "$work/copy"
[ -f "$top/HANDLES" ] && cp "$top/HANDLES" "$work/copy"
for crate in "$top"/crates/*; do
    mkdir -p "$work/copy/crates/${crate##*/}"
    for part in src specs proofs; do
        [ -d "$crate/$part" ] && cp -r "$crate/$part" "$work/copy/crates/${crate##*/}"
    done
done
echo 'expand_bench: edt_base c_tokens c_macro' >>"$work/copy/crates.txt"
cat >"$work/copy/crates/expand_bench/src/main.rt" <<'R'
//! Expands the text on standard input, each line by the definitions before it, and writes what comes out.
#![tactic(auto)]

use c_macro::{Defs, expand};
use c_tokens::{CEnd, Lines, show};
use edt_base::{MemSink, write_text};
use std::alloc::Global;
use std::io;
use std::io::{Read, Write};

const ROOM: u64 = 1 << 26;

fn expanded(alloc: Global, text: &[u8], out: &mut MemSink) -> Result<(), CEnd> {
    let mut defs = Defs::new(alloc);
    let mut lines = Lines::new(text);
    for _ in 0..u64::MAX {
        let Some(line) = lines.next(alloc)? else {
            return Ok(());
        };
        if line.directive {
            defs.apply(&line)?;
        } else {
            let toks = expand(alloc, &defs, &line.toks)?;
            let _ = show(&toks, out);
            let _ = write_text(out, b"\n");
        }
    }
    Ok(())
}

fn read_all(alloc: Global, stream: &mut impl Read) -> io::Result<Vec<u8>> {
    let mut all = Vec::new(alloc);
    let mut block = [0u8; 65_536];
    for _ in 0..u64::MAX {
        let count = stream.read(&mut block)?;
        if count == 0 {
            break;
        }
        all.extend_from_slice(&block[..count])?;
    }
    Ok(all)
}

fn main(rt: HostRuntime) -> io::Result<()> {
    let alloc = rt.alloc();
    let text = read_all(alloc, &mut rt.reader())?;
    let mut out = MemSink::new(alloc, ROOM, ROOM, Vec::new(alloc))?;
    if expanded(alloc, text.as_slice(), &mut out).is_err() {
        println!(rt; "refused")?;
    }
    rt.stdout().write_all(out.bytes())
}
R

echo "expand.sh: proving and building first, which takes some minutes" >&2
(cd "$work/copy/crates/expand_bench" && rt run) >"$work/run.log" 2>&1 </dev/null || true
program=$work/copy/crates/expand_bench/out/expand_bench
[ -x "$program" ] || { tail -n 20 "$work/run.log" >&2; exit 1; }

# text_of KIND SIZE
text_of() {
    python3 - "$1" "$2" <<'P'
import sys
kind, size = sys.argv[1], int(sys.argv[2])
if kind == "header":
    print("\n".join(f"#define DT_N_S_soc_S_uart_{i:x}_P_reg_IDX_0_VAL_ADDRESS {i + 1073741824}" for i in range(size)))
    print(f"DT_N_S_soc_S_uart_{size - 1:x}_P_reg_IDX_0_VAL_ADDRESS")
elif kind == "chain":
    print("\n".join(f"#define a{i} a{i + 1}" for i in range(size - 1)))
    print(f"#define a{size - 1} z\na0")
elif kind == "back":
    print("\n".join(f"#define a{i} a{i + 1} a0" for i in range(size - 1)))
    print(f"#define a{size - 1} z\na0")
elif kind == "calls":
    print("\n".join(f"#define f{i}(x) f{i + 1}(x)" for i in range(size)))
    print(f"#define f{size}(x) x\nf0(1)")
elif kind == "wide":
    print("#define f(x) " + "x " * size + "\nf(" + "1 " * size + ")")
elif kind == "bytes":
    print("#define k0(x) x\n" + "\n".join(f"#define k{i}(x) k{i - 1}(x##x)" for i in range(1, size + 1)))
    print(f"k{size}(a)")
elif kind == "units":
    print("#define n0")
    for k in range(1, size + 1):
        print(f"#define n{k}" + f" n{k - 1}" * 16)
    print(f"n{size}")
elif kind == "nest":
    print("#define f(x) x\n" + "f(" * size + "1" + ")" * size)
else:
    names = ", ".join(f"p{i}" for i in range(size))
    print(f"#define f({names}) {' '.join(f'p{i}' for i in reversed(range(size)))}")
    print("f(" + ", ".join(str(i) for i in range(size)) + ")")
P
}

printf '%-10s %8s %10s %8s %10s\n' kind size bytes seconds kilobytes
for whole in header:50000 header:100000 header:200000 chain:25000 chain:50000 chain:100000 back:1024 back:2048 back:4096 calls:500 calls:1000 calls:2000 \
    wide:8192 wide:16384 wide:32768 bytes:40 nest:2500 nest:5000 nest:10000 \
    params:1024 params:2048 params:4096 units:4 units:5 units:6 units:7; do
    kind=${whole%:*} size=${whole#*:}
    text_of "$kind" "$size" >"$work/t.c"
    /usr/bin/time -f '%e %M' -o "$work/time" "$program" <"$work/t.c" >"$work/out"
    read -r seconds kilobytes <"$work/time"
    printf '%-10s %8d %10d %8s %10s\n' "$kind" "$size" "$(stat -c %s "$work/t.c")" "$seconds" "$kilobytes"
    for other in "cpp -P" "clang -E -P -x c"; do
        command -v "${other%% *}" >/dev/null || continue
        # shellcheck disable=SC2086
        if (ulimit -v 8000000 && /usr/bin/time -f '%e %M' -o "$work/time" timeout 60 $other "$work/t.c" >"$work/out" 2>"$work/note"); then
            read -r seconds kilobytes <"$work/time"
            printf '%-10s %8d %10s %8s %10s\n' "  ${other%% *}" "$size" "" "$seconds" "$kilobytes"
        else
            printf '%-10s %8d %10s\n' "  ${other%% *}" "$size" refused
        fi
    done
done
