#!/bin/sh
# Times both rolls against a Rust program with the same arrays and method, and prints the ratios.
# It proves and builds a small library over the rolls outside the repository, and needs rustc.
set -eu
here=$(cd "$(dirname "$0")/.." && pwd)
work=$(mktemp -d)
trap 'rm -rf "$work"' EXIT
mkdir -p "$work/crates/rolls_bench/src" "$work/crates/rolls_bench/specs" "$work/crates/rolls_bench/proofs"
(cd "$here/crates" && tar --exclude=out --exclude=must-fail -cf - rights rising roll) | tar -xf - -C "$work/crates"
touch "$work/crates/rolls_bench/specs/Lib.antt" "$work/crates/rolls_bench/proofs/Lib.antt"
printf 'rights:\nrising: rights\nroll: rights rising arrayvec\nrolls_bench staticlib: rights roll\n' > "$work/crates.txt"
cat > "$work/crates/rolls_bench/src/lib.rt" <<'SOURCE'
// Puts 2,048 pairs, asks 65,536 questions and takes all pairs, on either roll.
#![tactic(auto)]

use rights::Pair;
use roll::PairRoll;
use roll::ReachRoll;
use roll::RollMut;

const NONE: Pair = Pair {
    member: 0,
    group: 0,
};

fn member_at(i: u32) -> u16 {
    (1 + i.wrapping_mul(1031) % 2048 % 246) as u16
}

fn group_at(i: u32) -> u16 {
    let j = i.wrapping_mul(1031) % 2048;
    (2 + j % 246 + j / 246) as u16
}

fn put_all<R: RollMut>(roll: &mut R) -> u32 {
    let mut sum: u32 = 0;
    for i in 0..2048u32 {
        if roll.put(member_at(i), group_at(i)).is_ok() {
            sum = sum.wrapping_add(1);
        }
    }
    sum
}

fn ask_row<R: RollMut>(roll: &R, s: u16) -> u32 {
    let mut sum: u32 = 0;
    for g in 0..256u16 {
        if roll.within(s, g) {
            sum = sum.wrapping_add(1);
        }
    }
    sum
}

fn ask_all<R: RollMut>(roll: &R) -> u32 {
    let mut sum: u32 = 0;
    for s in 0..256u16 {
        sum = sum.wrapping_add(ask_row(roll, s));
    }
    sum
}

fn take_all<R: RollMut>(roll: &mut R) -> u32 {
    let mut sum: u32 = 0;
    for i in 0..2048u32 {
        if roll.take(member_at(i), group_at(i)).is_ok() {
            sum = sum.wrapping_add(1);
        }
    }
    sum
}

fn run<R: RollMut>(roll: &mut R, parts: u32) -> u32 {
    let mut sum = put_all(roll);
    if parts >= 1 {
        sum = sum.wrapping_add(ask_all(roll));
    }
    if parts >= 2 {
        sum = sum.wrapping_add(take_all(roll));
    }
    sum
}

#[unsafe(no_mangle)]
pub extern "C" fn pair_run(parts: u32) -> u32 {
    let mut list = [NONE; 2048];
    let mut roll = PairRoll::new(&mut list, 2048);
    run(&mut roll, parts)
}

#[unsafe(no_mangle)]
pub extern "C" fn reach_run(parts: u32) -> u32 {
    let mut list = [NONE; 2048];
    let mut roll = ReachRoll::new(&mut list, 2048);
    run(&mut roll, parts)
}
SOURCE
cd "$work"
(cd crates/rolls_bench && ${RT:-rt} lib)
rustc -O -C target-cpu=x86-64 --edition 2024 -o rolls "$here/bench/rolls/main.rs" -L "$work/crates/rolls_bench/out" -l static=rolls_bench
./rolls
