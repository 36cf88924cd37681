#!/bin/sh
# Times both books against a Rust program with the same arrays and method, and prints the ratios.
# It proves and builds a small library over the books outside the repository, and needs rustc.
set -eu
here=$(cd "$(dirname "$0")/.." && pwd)
work=$(mktemp -d)
trap 'rm -rf "$work"' EXIT
mkdir -p "$work/crates/books_bench/src" "$work/crates/books_bench/specs" "$work/crates/books_bench/proofs"
(cd "$here/crates" && tar --exclude=out --exclude=must-fail -cf - rights rising book) | tar -xf - -C "$work/crates"
touch "$work/crates/books_bench/specs/Lib.antt" "$work/crates/books_bench/proofs/Lib.antt"
printf 'rights:\nrising: rights\nbook: rights rising\nbooks_bench staticlib: book rights\n' > "$work/crates.txt"
cat > "$work/crates/books_bench/src/lib.rt" <<'SOURCE'
// Puts 4,000 entries in a scattered order, reads all places in order and takes all entries, on either book.
#![tactic(auto)]

use book::Book;
use book::Cell;
use book::Cells;
use book::Plain;
use rights::Entry;
use rights::Privilege;
use rights::Right;
use rights::Sign;
use rights::Strength;

const WEAK: Right = Right::Access(Privilege::Select, Sign::Plus, Strength::Weak);
const STRONG: Right = Right::Access(Privilege::Select, Sign::Plus, Strength::Strong);
const DENIED: Right = Right::Access(Privilege::Insert, Sign::Minus, Strength::Weak);
const FORBIDDEN: Right = Right::Access(Privilege::Update, Sign::Minus, Strength::Strong);

const NONE: Entry = Entry {
    subject: 0,
    table: 0,
    grantor: 0,
    right: WEAK,
};

const EMPTY: Cell = Cell {
    subject: 0,
    table: 0,
    grantor: 0,
    rights: 0,
    earlier: 0,
};

fn right_of(k: u32) -> Right {
    match k {
        0 => WEAK,
        1 => STRONG,
        2 => DENIED,
        _ => FORBIDDEN,
    }
}

fn entry(i: u32) -> Entry {
    let j = i.wrapping_mul(2657) % 4000;
    let group = j / 200;
    Entry {
        subject: (1 + j % 200) as u8,
        table: (group % 5) as u8,
        grantor: 1,
        right: right_of(group / 5),
    }
}

fn put_all<B: Book>(book: &mut B) -> u32 {
    let mut sum: u32 = 0;
    for i in 0..4000u32 {
        if book.put(entry(i)).is_ok() {
            sum = sum.wrapping_add(1);
        }
    }
    sum
}

fn read_all<B: Book>(book: &B) -> u32 {
    let mut sum: u32 = 0;
    for k in 0..4000usize {
        if let Some(e) = book.at(k) {
            sum = sum.wrapping_add(u32::from(e.subject));
        }
    }
    sum
}

fn take_all<B: Book>(book: &mut B) -> u32 {
    let mut sum: u32 = 0;
    for i in 0..4000u32 {
        if book.take(entry(i)).is_ok() {
            sum = sum.wrapping_add(1);
        }
    }
    sum
}

fn run<B: Book>(book: &mut B, parts: u32) -> u32 {
    let mut sum = put_all(book);
    if parts >= 1 {
        sum = sum.wrapping_add(read_all(book));
    }
    if parts >= 2 {
        sum = sum.wrapping_add(take_all(book));
    }
    sum
}

#[unsafe(no_mangle)]
pub extern "C" fn plain_run(parts: u32) -> u32 {
    let mut list = [NONE; 4096];
    let mut book = Plain::new(&mut list, 4096);
    run(&mut book, parts)
}

#[unsafe(no_mangle)]
pub extern "C" fn cells_run(parts: u32) -> u32 {
    let mut list = [EMPTY; 4096];
    let mut book = Cells::new(&mut list, 4096);
    run(&mut book, parts)
}
SOURCE
cd "$work"
(cd crates/books_bench && ${RT:-rt} lib)
rustc -O -C target-cpu=x86-64 --edition 2024 -o books "$here/bench/books/main.rs" -L "$work/crates/books_bench/out" -l static=books_bench
./books
