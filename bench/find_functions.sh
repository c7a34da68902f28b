#!/usr/bin/env bash
# Measures lookups by address in an SFrame section in memory: `bench/find_functions.sh [FUNCTIONS] [LOOKUPS]`, a million of both
# if it isn't said. The program that it makes in a folder of its own is proved and built like any other; it makes a section of
# so many functions, checks it, finds addresses that follow no order, and prints both times.
set -eu
functions=${1:-1000000}
lookups=${2:-1000000}
top=$(cd "$(dirname "$0")/.." && pwd)
command -v rt >/dev/null || { echo "no rt" >&2; exit 1; }
work=$(mktemp -d)
trap 'rm -rf "$work"' EXIT

crate=$work/crates/find_functions
mkdir -p "$crate/src" "$crate/specs" "$crate/proofs/main"
cp "$top/HANDLES" "$work"
for name in elf_format elf_words sframe_format sframe_order sframe_find; do
  mkdir "$work/crates/$name"
  cp -r "$top/crates/$name/src" "$top/crates/$name/specs" "$top/crates/$name/proofs" "$work/crates/$name"
  grep "^$name:" "$top/crates.txt"
done >"$work/crates.txt"
echo "find_functions: sframe_find" >>"$work/crates.txt"
touch "$crate/specs/Lib.antt" "$crate/proofs/Lib.antt"

cat >"$crate/proofs/main/Invariants.antt" <<'END'
use Rattle.find_functions.proofs.main.Given as goal

abbrev pub ghosts-find_all : goal.ghosts-find_all
ghosts-find_all a = record { name = a.blank.name; parts = a.blank.parts }
END

cat >"$crate/src/main.rt" <<END
//! Makes an SFrame section, checks it, finds functions in it by address, and prints the times.
#![tactic(auto)]

ghost use Rattle.std.specs.Prelude.{◌≡◌, ◌<◌};

use sframe_find::{OrderedFrames, Steps, check_sframe};
use std::alloc::{AllocError, Global};
use std::io;
use std::marker::Brand;
use std::sync::ledger::{Blank, Ledger};
use std::time::Instant;

const FUNCTIONS: u32 = $functions;
const LOOKUPS: u32 = $lookups;

/// Returns a section of functions of 16 bytes, one after another, each with one byte of FREs.
fn section_of(alloc: Global, count: u32) -> Result<Vec<u8>, AllocError> {
    let mut bytes = Vec::new(alloc);
    bytes.extend_from_slice(&[0xe2, 0xde, 2, 1, 3, 0, 0xf8, 0])?;
    for number in [count, count, count, 0, count.wrapping_mul(20)] {
        bytes.extend_from_slice(&u32::to_le_bytes(number))?;
    }
    for index in 0..count {
        for number in [index.wrapping_mul(16), 16, index, 1, 0] {
            bytes.extend_from_slice(&u32::to_le_bytes(number))?;
        }
    }
    for _ in 0..count {
        bytes.push(0)?;
    }
    Ok(bytes)
}

/// Finds functions at addresses that follow no order, and returns the sum of their indexes.
fn find_all<L: Ledger>(frames: &OrderedFrames, blank: Blank) -> u64
    requires name { blank.name ≡ L.name }
    requires parts { blank.parts ≡ L.parts }
    requires some { 0 < blank.parts }
{
    let mut steps = Steps::<L>::new(blank);
    let mut state: u64 = 1;
    let mut sum: u64 = 0;
    for _ in 0..LOOKUPS {
        state = state.wrapping_mul(6_364_136_223_846_793_005).wrapping_add(1_442_695_040_888_963_407);
        let address = 4096 + (state >> 33) % (16 * u64::from(FUNCTIONS) + 1);
        if let Some(index) = frames.find(address, &mut steps) {
            sum = sum.wrapping_add(index as u64);
        }
    }
    sum
}

fn main(rt: HostRuntime) -> io::Result<()> {
    let Ok(section) = section_of(rt.alloc(), FUNCTIONS) else {
        println!(rt; "out of memory")?;
        return Ok(());
    };
    let start = Instant::now(&rt)?;
    let Ok(frames) = check_sframe(&section, 4096) else {
        println!(rt; "the section is refused")?;
        return Ok(());
    };
    let checked = start.elapsed(&rt)?.as_micros();
    let start = Instant::now(&rt)?;
    let sum = find_all::<Brand>(&frames, Blank::new(1));
    let found = start.elapsed(&rt)?.as_micros();
    println!(rt; "{FUNCTIONS} functions are checked in {checked} us, {LOOKUPS} addresses found in {found} us (sum of indexes {sum})")?;
    Ok(())
}
END

cd "$crate"
rt run >"$work/log" 2>&1 || { cat "$work/log" >&2; exit 1; }
for _ in 1 2 3; do out/find_functions; done
