#!/usr/bin/env bash
# Time of `dt_names::clash`, and of `head_write::measure` and `head_write::emit` into memory, on bound trees of a
# root alone, at each doubling of what is bound to it: once with registers alone and once with properties of several
# types, entries, interrupts and instances, up to headers of 18 and 38 MB. All three are to grow no faster than the
# header, and `clash` is to take well under a second for 200,000 definitions. No definition clashes or is repeated.
# Behind these one interrupt with a name of a megabyte and many cells: its header would have up to 200 GB and is only
# searched and measured, neither of which is to spell the name for each cell.
#
# The repository's programs needn't call them for this: a small program that does is added to a copy of the
# crates, and is proved and built there. What was proved here before isn't proved again. With KEEP=FOLDER the program
# is left there, as FOLDER/heading, to be run under a profiler.
set -eu
top=$(cd "$(dirname "$0")/.." && pwd)
work=$(mktemp -d)
trap 'rm -rf "$work"' EXIT

heading=$work/repository/crates/heading
mkdir -p "$heading/src" "$heading/proofs"
for crate in edt_base dt_names head_write; do
    mkdir "$work/repository/crates/$crate"
    cp -a "$top/crates/$crate"/{src,specs,proofs} "$work/repository/crates/$crate/"
done
grep -E '^(edt_base|dt_names|head_write):' "$top/crates.txt" >"$work/repository/crates.txt"
echo 'heading: dt_names edt_base head_write indexmap' >>"$work/repository/crates.txt"
cp "$top/HANDLES" "$work/repository/"
cat >"$heading/src/main.rt" <<'R'
//! Tells the number of definitions and the length of headers, and the time that the search for clashes,
//! measuring and writing take.
#![tactic(auto)]

mod long;
mod mixed;
mod root;

use dt_names::{Clash, Facts, clash};
use edt_base::{Bound, MemSink, Reg};
use head_write::{emit, measure};
use root::{bare, bound, text};
use std::alloc::{AllocError, Global};
use std::test::Fail;
use std::time::Instant;

fn registers(alloc: Global, count: u32) -> Result<Vec<Reg>, AllocError> {
    let mut regs = Vec::with_capacity(alloc, count as usize)?;
    for at in 0..count {
        let name = format!(in alloc; "transmit-FIFO@{at}")?;
        regs.push(Reg {
            addr: Some(0x4000_0000 + 4096 * u128::from(at)),
            size: Some(4096),
            name: Some(text(alloc, name.as_str())?),
        })?;
    }
    Ok(regs)
}

fn with_registers(alloc: Global, count: u32) -> Result<Bound, AllocError> {
    let mut node = bare(alloc);
    node.regs = registers(alloc, count)?;
    bound(alloc, node, Vec::new(alloc))
}

fn definitions(bound: &Bound) -> u64 {
    let mut facts = Facts::new(bound);
    let mut count = 0u64;
    for _ in 0..u64::MAX {
        if facts.next().is_none() {
            break;
        }
        count = count.saturating_add(1);
    }
    count
}

fn write(rt: HostRuntime, bound: &Bound) -> Result<(usize, u128), Fail> {
    let alloc = rt.alloc();
    let mut sink = MemSink::new(alloc, 64_000_000, u64::MAX, Vec::new(alloc))?;
    let before = Instant::now(&rt)?;
    emit(bound, &mut sink)?;
    let written = before.elapsed(&rt)?.as_micros();
    Ok((sink.bytes().len(), written))
}

// A header that is too long for memory isn't written.
fn time(rt: HostRuntime, of: &str, bound: &Bound) -> Result<(), Fail> {
    let alloc = rt.alloc();
    let count = definitions(bound);
    let before = Instant::now(&rt)?;
    let found = clash(alloc, bound)?;
    let searched = before.elapsed(&rt)?.as_micros();
    let found = match found {
        Clash::At(_) => "clash",
        Clash::Doubles(places) => if places.is_empty() { "none" } else { "doubles" },
    };
    let before = Instant::now(&rt)?;
    let len = measure(bound);
    let measured = before.elapsed(&rt)?.as_micros();
    let (held, written) = if len <= 64_000_000 { write(rt, bound)? } else { (0, 0) };
    println!(rt; "{of:>9} {count:>11} {len:>13} {held:>9} {found:>8} {searched:>10} {measured:>11} {written:>9}")?;
    Ok(())
}

fn main(rt: HostRuntime) -> Result<(), Fail> {
    let alloc = rt.alloc();
    for count in [3_750, 7_500, 15_000, 30_000, 60_000] {
        time(rt, "registers", &with_registers(alloc, count)?)?;
    }
    for count in [375, 750, 1_500, 3_000, 6_000] {
        time(rt, "mixed", &mixed::root(alloc, count)?)?;
    }
    for count in [6_250, 12_500, 25_000, 50_000, 100_000] {
        time(rt, "long name", &long::root(alloc, count)?)?;
    }
    Ok(())
}
R
cat >"$heading/src/root.rt" <<'R'
//! Bound trees of a root alone.

ghost use Rattle.std.specs.Prelude.{◌≡◌, ◌<◌, [], None, All, IfOk, IfSome, IsTrue, length};
ghost use Rattle.edt_base.specs.BoundData.{IsInst};
ghost use Rattle.edt_base.specs.EntryData.{EntryData};
ghost use Rattle.edt_base.specs.PropData.{IsTyped};
ghost use Rattle.edt_base.specs.ValData.{IsOfType, HasNodesBelow, is_tested, tested_count, val_data};

use edt_base::{Bound, BoundNode, Inst, NodeId, NodeRec, Prop, PropType, Text, Tree, Val};
use indexmap::IndexMap;
use std::alloc::{AllocError, Global};

pub(crate) fn text(alloc: Global, of: &str) -> Result<Text, AllocError>
    ensures { IfOk result (λ t. t ≡ of.now) }
{
    Ok(Text::new(String::from_str(alloc, of)?))
}

fn tree(alloc: Global) -> Result<Tree, AllocError>
    ensures { IfOk result (λ t. length t.nodes ≡ 1) }
{
    let root = NodeRec {
        name: text(alloc, "/")?,
        path: text(alloc, "/")?,
        parent: None,
        children: Vec::new(alloc),
        labels: Vec::new(alloc),
        props: IndexMap::new(alloc),
        compats: Vec::new(alloc),
        status: text(alloc, "okay")?,
    };
    let nodes = vec![in alloc; root]?;
    Tree::new(alloc, nodes, Vec::new(alloc), Vec::new(alloc))
}

/// A node to which nothing is bound.
pub(crate) fn bare(alloc: Global) -> BoundNode
    ensures props { result.props ≡ [] }
    ensures irqs { result.irqs ≡ [] }
    ensures needs { result.needs ≡ [] }
    ensures supports { result.supports ≡ [] }
    ensures bus { result.bus ≡ None }
    ensures ord { result.ord ≡ 0 }
{
    BoundNode {
        props: Vec::new(alloc),
        regs: Vec::new(alloc),
        ranges: Vec::new(alloc),
        irqs: Vec::new(alloc),
        needs: Vec::new(alloc),
        supports: Vec::new(alloc),
        ord: 0,
        bus: None,
        buses: Vec::new(alloc),
    }
}

/// The tree of a root alone with what is bound to it.
pub(crate) fn bound(alloc: Global, node: BoundNode, insts: Vec<Inst>) -> Result<Bound, AllocError>
    requires first { node.ord ≡ 0 }
    requires props { All (IsTyped 1) node.props }
    requires irqs { All (λ (irq : EntryData). irq.controller < 1) node.irqs }
    requires needs { All (λ id. id < 1) node.needs }
    requires supports { All (λ id. id < 1) node.supports }
    requires bus { IfSome node.bus (λ id. id < 1) }
    requires insts { All (IsInst 1) insts.items }
{
    let tree = tree(alloc)?;
    tree.is_well_formed();
    let nodes = vec![in alloc; node]?;
    let order = vec![in alloc; NodeId(0)]?;
    Bound::new(alloc, tree, nodes, order, insts, Vec::new(alloc))
}

/// Adds a property of which `enum` isn't tested.
pub(crate) fn add(
    alloc: Global,
    props: &mut Vec<Prop>,
    name: &str,
    ty: PropType,
    val: Val,
) -> Result<(), AllocError>
    requires before { All (IsTyped 1) props.old.items }
    requires val { IsOfType ty (val_data val) }
    requires nodes { HasNodesBelow 1 (val_data val) }
    ensures { All (IsTyped 1) props.new.items }
{
    props.push(Prop {
        name: text(alloc, name)?,
        ty,
        val,
        choices: Vec::new(alloc),
    })?;
    Ok(())
}

/// Adds a property with the choices of its values.
pub(crate) fn add_choices(
    alloc: Global,
    props: &mut Vec<Prop>,
    name: &str,
    ty: PropType,
    val: Val,
    choices: Vec<(u32, Text)>,
) -> Result<(), AllocError>
    requires before { All (IsTyped 1) props.old.items }
    requires val { IsOfType ty (val_data val) }
    requires nodes { HasNodesBelow 1 (val_data val) }
    requires tested { IsTrue (is_tested ty) }
    requires many { length choices.items ≡ tested_count (val_data val) }
    ensures { All (IsTyped 1) props.new.items }
{
    props.push(Prop {
        name: text(alloc, name)?,
        ty,
        val,
        choices,
    })?;
    Ok(())
}
R
cat >"$heading/src/long.rt" <<'R'
//! Roots with one interrupt that has a name of a megabyte and many cells.

ghost use Rattle.std.specs.Prelude.{◌<◌, All, IfOk};
ghost use Rattle.edt_base.specs.EntryData.{EntryData};

use crate::root::{bare, bound, text};
use edt_base::{Bound, Irq, NodeId, Text};
use std::alloc::{AllocError, Global};

fn long_name(alloc: Global) -> Result<Text, AllocError> {
    let mut name = String::new(alloc);
    for _ in 0..1_000_000 {
        name.push('n')?;
    }
    Ok(Text::new(name))
}

fn cells(alloc: Global, count: u32) -> Result<Vec<(Text, u64)>, AllocError> {
    let mut cells = Vec::with_capacity(alloc, count as usize)?;
    for at in 0..count {
        let name = format!(in alloc; "cell-{at}")?;
        cells.push((text(alloc, name.as_str())?, u64::from(at)))?;
    }
    Ok(cells)
}

fn interrupts(alloc: Global, count: u32) -> Result<Vec<Irq>, AllocError>
    ensures { IfOk result (λ irqs. All (λ (irq : EntryData). irq.controller < 1) irqs.items) }
{
    let irq = Irq {
        controller: NodeId(0),
        cells: cells(alloc, count)?,
        name: Some(long_name(alloc)?),
    };
    Ok(vec![in alloc; irq]?)
}

pub(crate) fn root(alloc: Global, count: u32) -> Result<Bound, AllocError> {
    let mut node = bare(alloc);
    node.irqs = interrupts(alloc, count)?;
    bound(alloc, node, Vec::new(alloc))
}
R
cat >"$heading/src/mixed.rt" <<'R'
//! Roots with properties, entries, interrupts and instances.

ghost use Rattle.std.specs.Prelude.{◌<◌, All, IfOk};
ghost use Rattle.edt_base.specs.BoundData.{IsInst};
ghost use Rattle.edt_base.specs.EntryData.{EntryData};
ghost use Rattle.edt_base.specs.PropData.{IsTyped};

use crate::root::{add, add_choices, bare, bound, text};
use edt_base::{Bound, Entry, Inst, Irq, NodeId, Prop, PropType, Text, Val};
use std::alloc::{AllocError, Global};

// An int with a choice, and a string.
fn add_plain(alloc: Global, props: &mut Vec<Prop>, at: u32) -> Result<(), AllocError>
    requires { All (IsTyped 1) props.old.items }
    ensures { All (IsTyped 1) props.new.items }
{
    let name = format!(in alloc; "clock-frequency-{at}")?;
    let choice = vec![in alloc; (2, text(alloc, "24000000")?)]?;
    let val = Val::Int(24_000_000);
    add_choices(alloc, props, name.as_str(), PropType::Int, val, choice)?;
    let name = format!(in alloc; "vendor,label-{at}")?;
    let val = Val::Str(text(alloc, "The label of a \"device\"")?);
    add(alloc, props, name.as_str(), PropType::Str, val)
}

fn add_array(alloc: Global, props: &mut Vec<Prop>, at: u32) -> Result<(), AllocError>
    requires { All (IsTyped 1) props.old.items }
    ensures { All (IsTyped 1) props.new.items }
{
    let name = format!(in alloc; "calibration-values-{at}")?;
    let val = Val::Ints(vec![in alloc; 1, 20, 300, 4000, 50_000, 600_000, 7_000_000, at]?);
    add(alloc, props, name.as_str(), PropType::Array, val)
}

fn cells(alloc: Global, at: u32) -> Result<Vec<(Text, u32)>, AllocError> {
    Ok(vec![in alloc;
        (text(alloc, "channel")?, at),
        (text(alloc, "period")?, 20_000_000),
        (text(alloc, "flags")?, 1),
    ]?)
}

fn entry(alloc: Global, name: &str, at: u32) -> Result<Entry, AllocError>
    ensures { IfOk result (λ e. e.controller < 1) }
{
    Ok(Entry {
        controller: NodeId(0),
        cells: cells(alloc, at)?,
        name: Some(text(alloc, name)?),
    })
}

fn add_entries(alloc: Global, props: &mut Vec<Prop>, at: u32) -> Result<(), AllocError>
    requires { All (IsTyped 1) props.old.items }
    ensures { All (IsTyped 1) props.new.items }
{
    let name = format!(in alloc; "backlight-pwms-{at}")?;
    let first = entry(alloc, "Left", at)?;
    let second = entry(alloc, "Right", at)?;
    let val = Val::Entries(vec![in alloc; Some(first), Some(second)]?);
    add(alloc, props, name.as_str(), PropType::PhandleArray, val)
}

fn properties(alloc: Global, count: u32) -> Result<Vec<Prop>, AllocError>
    ensures { IfOk result (λ props. All (IsTyped 1) props.items) }
{
    let mut props = Vec::new(alloc);
    for at in 0..count {
        add_plain(alloc, &mut props, at)?;
        add_array(alloc, &mut props, at)?;
        add_entries(alloc, &mut props, at)?;
    }
    Ok(props)
}

fn interrupt(alloc: Global, at: u32) -> Result<Irq, AllocError>
    ensures { IfOk result (λ irq. irq.controller < 1) }
{
    let name = format!(in alloc; "transfer-done-{at}")?;
    Ok(Irq {
        controller: NodeId(0),
        cells: vec![in alloc;
            (text(alloc, "irq")?, u64::from(at)),
            (text(alloc, "priority")?, 7),
        ]?,
        name: Some(text(alloc, name.as_str())?),
    })
}

fn interrupts(alloc: Global, count: u32) -> Result<Vec<Irq>, AllocError>
    ensures { IfOk result (λ irqs. All (λ (irq : EntryData). irq.controller < 1) irqs.items) }
{
    let mut irqs = Vec::new(alloc);
    for at in 0..count {
        irqs.push(interrupt(alloc, at)?)?;
    }
    Ok(irqs)
}

fn instance(alloc: Global, at: u32) -> Result<Inst, AllocError>
    ensures { IfOk result (λ i. IsInst 1 i) }
{
    let compat = format!(in alloc; "vendor,device-{at}")?;
    Ok(Inst {
        compat: text(alloc, compat.as_str())?,
        nodes: vec![in alloc; NodeId(0)]?,
        okay: 1,
    })
}

fn instances(alloc: Global, count: u32) -> Result<Vec<Inst>, AllocError>
    ensures { IfOk result (λ insts. All (IsInst 1) insts.items) }
{
    let mut insts = Vec::new(alloc);
    for at in 0..count {
        insts.push(instance(alloc, at)?)?;
    }
    Ok(insts)
}

/// A root with so many of each.
pub(crate) fn root(alloc: Global, count: u32) -> Result<Bound, AllocError> {
    let mut node = bare(alloc);
    node.props = properties(alloc, count)?;
    node.irqs = interrupts(alloc, count)?;
    bound(alloc, node, instances(alloc, count)?)
}
R

# What the search for proofs doesn't find by itself: that a property behind others is kept like them, and what the
# loops keep.
mkdir -p "$heading"/proofs/root/{add,add_choices} "$heading"/proofs/mixed/{properties,interrupts,instances}
cat >"$heading/proofs/root/add/Answers.antt" <<'A'
use Rattle.std.proofs.Common.{inl}
use Rattle.head_write.proofs.Roots.{typed_behind}
use Rattle.heading.proofs.root.add.Goals as goal

pub returns : goal.returns
returns c = typed_behind c.push.new.self.items c.args.props.now.items _ c.in_ok-push.ensures.items c.requires.before (record {
  val = c.requires.val;
  nodes = c.requires.nodes;
  choices = inl c.new.ensures.items;
})
A
cat >"$heading/proofs/root/add_choices/Answers.antt" <<'A'
use Rattle.std.proofs.Common.{inr}
use Rattle.head_write.proofs.Roots.{typed_behind}
use Rattle.heading.proofs.root.add_choices.Goals as goal

pub returns : goal.returns
returns c = typed_behind c.push.new.self.items c.args.props.now.items _ c.in_ok-push.ensures.items c.requires.before (record {
  val = c.requires.val;
  nodes = c.requires.nodes;
  choices = inr (c.requires.tested, c.requires.many);
})
A
kept() {
    cat >"$heading/proofs/mixed/$1/Invariants.antt" <<A
use Rattle.std.proofs.Common.{◌<◌, All}
$3
use Rattle.heading.proofs.mixed.$1.Given as goal

abbrev pub invariant-loop-at : goal.invariant-loop-at
invariant-loop-at l = All ($4) l.$2.items
A
}
kept properties props 'use Rattle.edt_base.specs.PropData.{IsTyped}' 'IsTyped 1'
kept interrupts irqs 'use Rattle.edt_base.specs.EntryData.{EntryData}' 'λ (irq : EntryData). irq.controller < 1'
kept instances insts 'use Rattle.edt_base.specs.BoundData.{IsInst}' 'IsInst 1'

echo "proving and building the program (the log: $work/build.log)" >&2
program=$heading/out/heading
(cd "$heading" && rt run) >"$work/build.log" 2>&1 || true
if [ ! -x "$program" ]; then
    echo "the program was not built; the end of the log:" >&2
    tail -n 20 "$work/build.log" >&2
    exit 1
fi
[ -z "${KEEP:-}" ] || cp "$program" "$KEEP/heading"
printf '%9s %11s %13s %9s %8s %10s %11s %9s\n' bound definitions measured written found 'clash, us' 'measure, us' 'emit, us'
"$program"
