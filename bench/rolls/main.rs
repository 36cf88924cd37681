// Times the proved rolls against a Rust program with the same arrays and method: 2,048 pairs put,
// 65,536 within questions, all pairs taken.
use std::hint::black_box;
use std::time::Instant;

unsafe extern "C" {
    fn pair_run(parts: u32) -> u32;
    fn reach_run(parts: u32) -> u32;
}

#[derive(Clone, Copy, PartialEq)]
struct Pair {
    member: u8,
    group: u8,
}

struct Store<'a> {
    list: &'a mut [Pair],
    count: usize,
    most: usize,
}

fn precedes(p: Pair, q: Pair) -> bool {
    p.member < q.member || (p.member == q.member && p.group < q.group)
}

fn place(pairs: &[Pair], p: Pair) -> usize {
    let mut low = 0;
    let mut high = pairs.len();
    while low < high {
        let mid = low + (high - low) / 2;
        if precedes(pairs[mid], p) {
            low = mid + 1;
        } else {
            high = mid;
        }
    }
    low
}

fn find(pairs: &[Pair], p: Pair) -> Option<usize> {
    let k = place(pairs, p);
    if k < pairs.len() && pairs[k] == p { Some(k) } else { None }
}

fn walk(pairs: &[Pair], s: u8) -> [bool; 256] {
    let mut marks = [false; 256];
    let mut found = [0u8; 256];
    marks[s as usize] = true;
    found[0] = s;
    let mut count = 1;
    let mut next = 0;
    while next < count {
        let m = found[next];
        let mut k = place(pairs, Pair { member: m, group: 0 });
        while k < pairs.len() && pairs[k].member == m {
            let h = pairs[k].group;
            if !marks[h as usize] {
                marks[h as usize] = true;
                found[count] = h;
                count += 1;
            }
            k += 1;
        }
        next += 1;
    }
    marks
}

fn both_subjects(m: u16, g: u16) -> Option<Pair> {
    if m == 0 || m > 255 || g == 0 || g > 255 {
        return None;
    }
    Some(Pair { member: m as u8, group: g as u8 })
}

impl Store<'_> {
    fn fresh(&self, m: u16, g: u16) -> Result<Pair, u8> {
        let Some(p) = both_subjects(m, g) else { return Err(3) };
        if find(&self.list[0..self.count], p).is_some() {
            return Err(7);
        }
        Ok(p)
    }

    fn add(&mut self, p: Pair) -> Result<(), u8> {
        if self.count == self.most {
            return Err(12);
        }
        let k = place(&self.list[0..self.count], p);
        self.list.copy_within(k..self.count, k + 1);
        self.list[k] = p;
        self.count += 1;
        Ok(())
    }

    fn take_out(&mut self, m: u16, g: u16) -> Result<(), u8> {
        let Some(p) = both_subjects(m, g) else { return Err(3) };
        let Some(k) = find(&self.list[0..self.count], p) else { return Err(8) };
        self.list.copy_within(k + 1..self.count, k);
        self.count -= 1;
        Ok(())
    }
}

trait Roll {
    fn put(&mut self, m: u16, g: u16) -> Result<(), u8>;
    fn take(&mut self, m: u16, g: u16) -> Result<(), u8>;
    fn within(&self, s: u16, g: u16) -> bool;
}

struct PairRoll<'a>(Store<'a>);

impl Roll for PairRoll<'_> {
    fn put(&mut self, m: u16, g: u16) -> Result<(), u8> {
        let p = self.0.fresh(m, g)?;
        if walk(&self.0.list[0..self.0.count], p.group)[p.member as usize] {
            return Err(11);
        }
        self.0.add(p)
    }

    fn take(&mut self, m: u16, g: u16) -> Result<(), u8> {
        self.0.take_out(m, g)
    }

    fn within(&self, s: u16, g: u16) -> bool {
        match both_subjects(s, g) {
            Some(p) => walk(&self.0.list[0..self.0.count], p.member)[p.group as usize],
            None => false,
        }
    }
}

struct ReachRoll<'a> {
    store: Store<'a>,
    table: [[bool; 256]; 256],
}

impl Roll for ReachRoll<'_> {
    fn put(&mut self, m: u16, g: u16) -> Result<(), u8> {
        let p = self.store.fresh(m, g)?;
        if self.table[p.group as usize][p.member as usize] {
            return Err(11);
        }
        self.store.add(p)?;
        let above = self.table[p.group as usize];
        for s in 0..256 {
            if self.table[s][p.member as usize] {
                for h in 0..256 {
                    self.table[s][h] |= above[h];
                }
            }
        }
        Ok(())
    }

    fn take(&mut self, m: u16, g: u16) -> Result<(), u8> {
        self.store.take_out(m, g)?;
        for s in 0..256 {
            if self.table[s][m as usize] {
                self.table[s] = walk(&self.store.list[0..self.store.count], s as u8);
            }
        }
        Ok(())
    }

    fn within(&self, s: u16, g: u16) -> bool {
        match both_subjects(s, g) {
            Some(p) => self.table[p.member as usize][p.group as usize],
            None => false,
        }
    }
}

fn pair_at(i: u32) -> (u16, u16) {
    let j = i * 1031 % 2048;
    let m = 1 + j % 246;
    (m as u16, (m + 1 + j / 246) as u16)
}

fn run<R: Roll>(roll: &mut R, parts: u32) -> u32 {
    let mut sum = 0;
    for i in 0..2048 {
        let (m, g) = pair_at(i);
        if roll.put(m, g).is_ok() {
            sum += 1;
        }
    }
    if parts >= 1 {
        for s in 0..256 {
            for g in 0..256 {
                if roll.within(s, g) {
                    sum += 1;
                }
            }
        }
    }
    if parts >= 2 {
        for i in 0..2048 {
            let (m, g) = pair_at(i);
            if roll.take(m, g).is_ok() {
                sum += 1;
            }
        }
    }
    sum
}

const NONE: Pair = Pair { member: 0, group: 0 };

fn rust_pair(parts: u32) -> u32 {
    let mut list = [NONE; 2048];
    run(&mut PairRoll(Store { list: &mut list, count: 0, most: 2048 }), parts)
}

fn rust_reach(parts: u32) -> u32 {
    let mut list = [NONE; 2048];
    let mut table = [[false; 256]; 256];
    for s in 0..256 {
        table[s][s] = true;
    }
    run(&mut ReachRoll { store: Store { list: &mut list, count: 0, most: 2048 }, table }, parts)
}

// The least of five runs, in milliseconds.
fn time(f: impl Fn(u32) -> u32, parts: u32) -> f64 {
    (0..5)
        .map(|_| {
            let start = Instant::now();
            black_box(f(black_box(parts)));
            start.elapsed().as_secs_f64() * 1000.0
        })
        .fold(f64::INFINITY, f64::min)
}

fn main() {
    type Run = fn(u32) -> u32;
    let rolls: [(&str, Run, Run); 2] = [
        ("pair roll", |p| unsafe { pair_run(p) }, rust_pair),
        ("reach roll", |p| unsafe { reach_run(p) }, rust_reach),
    ];
    for (name, proved, rust) in rolls {
        for parts in 0..3 {
            assert_eq!(proved(parts), rust(parts), "{name}: the two disagree");
        }
        for (parts, what) in [(0, "puts"), (1, "puts and questions"), (2, "puts, questions and takes")] {
            let a = time(proved, parts);
            let b = time(rust, parts);
            println!("{name}, {what}: proved {a:.2} ms, Rust {b:.2} ms, ratio {:.2}", a / b);
        }
    }
}
