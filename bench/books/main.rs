// Times the proved books against a Rust program with the same arrays and method: 4,000 entries put
// in a scattered order, all places read in order, all entries taken. The last three lines show what
// the plain book would gain if its language moved a whole block at once.
use std::hint::black_box;
use std::marker::PhantomData;
use std::time::Instant;

unsafe extern "C" {
    fn plain_run(parts: u32) -> u32;
    fn cells_run(parts: u32) -> u32;
}

// A right by its bit number, looked up in a list as the proved book does.
#[derive(Clone, Copy, PartialEq)]
enum Right {
    Access(u8, u8, u8),
    Admin(u8, u8, u8),
}

fn rows() -> [Right; 32] {
    let mut rows = [Right::Access(0, 0, 0); 32];
    for (k, row) in rows.iter_mut().enumerate() {
        let (p, a, b) = ((k / 4 % 4) as u8, (k / 2 % 2) as u8, (k % 2) as u8);
        *row = if k < 16 { Right::Access(p, a, b) } else { Right::Admin(p, a, b) };
    }
    rows
}

#[derive(Clone, Copy, PartialEq)]
struct Entry {
    subject: u8,
    table: u8,
    grantor: u8,
    right: Right,
}

fn bit_number(rows: &[Right; 32], right: Right) -> u8 {
    for (k, row) in rows.iter().enumerate() {
        if *row == right {
            return k as u8;
        }
    }
    32
}

fn key(e: &Entry) -> (u8, u8, u8) {
    (e.subject, e.table, e.grantor)
}

fn precedes(rows: &[Right; 32], e: &Entry, f: &Entry) -> bool {
    key(e) < key(f) || (key(e) == key(f) && bit_number(rows, e.right) < bit_number(rows, f.right))
}

trait Book {
    fn at(&self, k: usize) -> Option<Entry>;
    fn put(&mut self, e: Entry) -> bool;
    fn take(&mut self, e: Entry) -> bool;
}

// the first place whose element does not come before what is sought
fn place<T>(list: &[T], before: impl Fn(&T) -> bool) -> usize {
    let (mut low, mut high) = (0, list.len());
    while low < high {
        let mid = low + (high - low) / 2;
        if before(&list[mid]) {
            low = mid + 1;
        } else {
            high = mid;
        }
    }
    low
}

// How the front of a list is shifted: element after element, as the proved books do it, or by one
// move of the whole block, which their language does not have.
trait Shift {
    fn up<T: Copy>(list: &mut [T], k: usize, used: usize);
    fn down<T: Copy>(list: &mut [T], k: usize, used: usize);
}

struct Elements;

impl Shift for Elements {
    fn up<T: Copy>(list: &mut [T], k: usize, used: usize) {
        for j in (k..used).rev() {
            list[j + 1] = list[j];
        }
    }

    fn down<T: Copy>(list: &mut [T], k: usize, used: usize) {
        for j in k + 1..used {
            list[j - 1] = list[j];
        }
    }
}

struct Block;

impl Shift for Block {
    fn up<T: Copy>(list: &mut [T], k: usize, used: usize) {
        list.copy_within(k..used, k + 1);
    }

    fn down<T: Copy>(list: &mut [T], k: usize, used: usize) {
        list.copy_within(k + 1..used, k);
    }
}

struct Plain<'a, S: Shift> {
    shift: PhantomData<S>,
    rows: [Right; 32],
    list: &'a mut [Entry],
    count: usize,
    ceiling: usize,
}

impl<S: Shift> Plain<'_, S> {
    fn find(&self, e: &Entry) -> Result<usize, usize> {
        let k = place(&self.list[..self.count], |x| precedes(&self.rows, x, e));
        if k < self.count && !precedes(&self.rows, e, &self.list[k]) { Ok(k) } else { Err(k) }
    }
}

impl<S: Shift> Book for Plain<'_, S> {
    fn at(&self, k: usize) -> Option<Entry> {
        if k < self.count { Some(self.list[k]) } else { None }
    }

    fn put(&mut self, e: Entry) -> bool {
        let Err(k) = self.find(&e) else { return false };
        if self.count == self.ceiling {
            return false;
        }
        S::up(self.list, k, self.count);
        self.list[k] = e;
        self.count += 1;
        true
    }

    fn take(&mut self, e: Entry) -> bool {
        let Ok(k) = self.find(&e) else { return false };
        S::down(self.list, k, self.count);
        self.count -= 1;
        true
    }
}

#[derive(Clone, Copy)]
struct Cell {
    subject: u8,
    table: u8,
    grantor: u8,
    rights: u32,
    earlier: usize,
}

struct Cells<'a> {
    rows: [Right; 32],
    list: &'a mut [Cell],
    used: usize,
    count: usize,
    ceiling: usize,
}

impl Cells<'_> {
    fn find(&self, e: &Entry) -> Result<usize, usize> {
        let cells = &self.list[..self.used];
        let k = place(cells, |c| (c.subject, c.table, c.grantor) < key(e));
        if k < self.used && (cells[k].subject, cells[k].table, cells[k].grantor) == key(e) { Ok(k) } else { Err(k) }
    }

    // counts anew from cell i on
    fn recount(&mut self, i: usize) {
        let mut count = 0;
        if i > 0 {
            let last = self.list[i - 1];
            count = last.earlier + last.rights.count_ones() as usize;
        }
        for cell in &mut self.list[i..self.used] {
            cell.earlier = count;
            count += cell.rights.count_ones() as usize;
        }
        self.count = count;
    }
}

impl Book for Cells<'_> {
    fn at(&self, k: usize) -> Option<Entry> {
        if k >= self.count {
            return None;
        }
        let cells = &self.list[..self.used];
        let cell = cells[place(cells, |c| c.earlier <= k) - 1];
        let mut left = k - cell.earlier;
        for bit in 0..32 {
            if cell.rights >> bit & 1 == 1 {
                if left == 0 {
                    return Some(Entry {
                        subject: cell.subject,
                        table: cell.table,
                        grantor: cell.grantor,
                        right: self.rows[bit],
                    });
                }
                left -= 1;
            }
        }
        None
    }

    fn put(&mut self, e: Entry) -> bool {
        let bit = bit_number(&self.rows, e.right);
        match self.find(&e) {
            Ok(i) => {
                if self.list[i].rights >> bit & 1 == 1 || self.count == self.ceiling {
                    return false;
                }
                self.list[i].rights ^= 1 << bit;
                self.recount(i);
            }
            Err(i) => {
                if self.count == self.ceiling {
                    return false;
                }
                Elements::up(self.list, i, self.used);
                self.list[i] = Cell {
                    subject: e.subject,
                    table: e.table,
                    grantor: e.grantor,
                    rights: 1 << bit,
                    earlier: 0,
                };
                self.used += 1;
                self.recount(i);
            }
        }
        true
    }

    fn take(&mut self, e: Entry) -> bool {
        let bit = bit_number(&self.rows, e.right);
        let Ok(i) = self.find(&e) else { return false };
        if self.list[i].rights >> bit & 1 == 0 {
            return false;
        }
        if self.list[i].rights.count_ones() > 1 {
            self.list[i].rights ^= 1 << bit;
        } else {
            Elements::down(self.list, i, self.used);
            self.used -= 1;
        }
        self.recount(i);
        true
    }
}

fn entry(i: u32) -> Entry {
    let j = i.wrapping_mul(2657) % 4000;
    let group = j / 200;
    let right = match group / 5 {
        0 => Right::Access(0, 0, 0),
        1 => Right::Access(0, 0, 1),
        2 => Right::Access(1, 1, 0),
        _ => Right::Access(3, 1, 1),
    };
    Entry { subject: (1 + j % 200) as u8, table: (group % 5) as u8, grantor: 1, right }
}

fn run(book: &mut impl Book, parts: u32) -> u32 {
    let mut sum = (0..4000).filter(|i| book.put(entry(*i))).count() as u32;
    if parts >= 1 {
        sum += (0..4000).filter_map(|k| book.at(k)).map(|e| u32::from(e.subject)).sum::<u32>();
    }
    if parts >= 2 {
        sum += (0..4000).filter(|i| book.take(entry(*i))).count() as u32;
    }
    sum
}

fn rust_plain<S: Shift>(parts: u32) -> u32 {
    let mut list = [Entry { subject: 0, table: 0, grantor: 0, right: Right::Access(0, 0, 0) }; 4096];
    run(&mut Plain::<S> { shift: PhantomData, rows: rows(), list: &mut list, count: 0, ceiling: 4096 }, parts)
}

fn rust_cells(parts: u32) -> u32 {
    let mut list = [Cell { subject: 0, table: 0, grantor: 0, rights: 0, earlier: 0 }; 4096];
    run(&mut Cells { rows: rows(), list: &mut list, used: 0, count: 0, ceiling: 4096 }, parts)
}

// one run, in milliseconds, and what it answered
fn time(f: fn(u32) -> u32, parts: u32) -> (f64, u32) {
    let from = Instant::now();
    let sum = black_box(f(black_box(parts)));
    (from.elapsed().as_secs_f64() * 1000.0, sum)
}

// the least times of either, run in turn so that both meet the same machine
fn least(ours: fn(u32) -> u32, theirs: fn(u32) -> u32, parts: u32) -> (f64, f64) {
    let mut best = (f64::MAX, f64::MAX);
    for _ in 0..51 {
        let (a, x) = time(ours, parts);
        let (b, y) = time(theirs, parts);
        assert_eq!(x, y, "different answers");
        best = (best.0.min(a), best.1.min(b));
    }
    best
}

fn main() {
    let parts = ["4,000 puts", "puts, 4,000 places read", "puts, reads, 4,000 takes"];
    for (book, ours, theirs) in [
        ("plain book", (|p| unsafe { plain_run(p) }) as fn(u32) -> u32, rust_plain::<Elements> as fn(u32) -> u32),
        ("cell book", |p| unsafe { cells_run(p) }, rust_cells),
        ("plain book against block moves", |p| unsafe { plain_run(p) }, rust_plain::<Block>),
    ] {
        for (p, what) in parts.iter().enumerate() {
            let (a, b) = least(ours, theirs, p as u32);
            println!("{book}, {what}: {a:.2} ms, Rust {b:.2} ms, ratio {:.2}", a / b);
        }
    }
}
