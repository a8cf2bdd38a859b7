//! The plain Rust that `scripts/cells_speed.py` compares maps of cells with: the same form, a list that rises and one pass.

use std::hint::black_box;

#[derive(Clone, Copy, PartialEq, Eq, PartialOrd, Ord)]
#[allow(dead_code)]
enum RegionId {
    Global,
    Frame(u32),
    OldFrame(u32),
    Heap(u32),
    OldHeap(u32),
}

#[derive(Clone, Copy, PartialEq, Eq)]
struct Si {
    stride: u32,
    lo: i32,
    hi: i32,
}

#[derive(Clone, Copy, PartialEq, Eq)]
struct Part {
    region: RegionId,
    si: Si,
}

#[derive(Clone, PartialEq, Eq)]
#[allow(dead_code)]
enum ValueSet {
    Top,
    One(Part),
    Many(Vec<Part>),
}

#[derive(Clone, Copy, PartialEq, Eq, PartialOrd, Ord)]
struct Cell {
    region: RegionId,
    start: i32,
    end: i32,
}

#[derive(Clone, PartialEq, Eq)]
struct Entry {
    cell: Cell,
    value: ValueSet,
}

fn gcd(mut a: u32, mut b: u32) -> u32 {
    while b != 0 {
        (a, b) = (b, a % b);
    }
    a
}

impl Si {
    fn join(&self, other: &Si) -> Si {
        if self == other {
            return *self;
        }
        let lo = self.lo.min(other.lo);
        let hi = self.hi.max(other.hi);
        let stride = gcd(gcd(self.stride, other.stride), self.lo.abs_diff(other.lo));
        if stride == 0 {
            return Si { stride, lo, hi: lo };
        }
        let turns = (hi as i64 - lo as i64) / stride as i64;
        Si { stride, lo, hi: (lo as i64 + turns * stride as i64) as i32 }
    }

    fn below(&self, other: &Si) -> bool {
        if self == other {
            return true;
        }
        let fits = other.stride == 0 && self.stride == 0 && self.lo == other.lo
            || other.stride != 0 && self.stride % other.stride == 0 && self.lo.abs_diff(other.lo) % other.stride == 0;
        other.lo <= self.lo && self.hi <= other.hi && fits
    }
}

impl ValueSet {
    fn parts(&self) -> Option<&[Part]> {
        match self {
            ValueSet::Top => None,
            ValueSet::One(part) => Some(std::slice::from_ref(part)),
            ValueSet::Many(parts) => Some(parts),
        }
    }

    fn join(&self, other: &ValueSet) -> ValueSet {
        let (Some(xs), Some(ys)) = (self.parts(), other.parts()) else {
            return ValueSet::Top;
        };
        if let ([x], [y]) = (xs, ys) {
            if x.region == y.region {
                return ValueSet::One(Part { region: x.region, si: x.si.join(&y.si) });
            }
        }
        let mut out = xs.to_vec();
        for y in ys {
            let place = out.partition_point(|x| x.region < y.region);
            match out.get_mut(place) {
                Some(x) if x.region == y.region => x.si = x.si.join(&y.si),
                _ => out.insert(place, *y),
            }
        }
        ValueSet::Many(out)
    }

    fn below(&self, other: &ValueSet) -> bool {
        match (self.parts(), other.parts()) {
            (_, None) => true,
            (None, _) => false,
            (Some(xs), Some(ys)) => xs.iter().all(|x| ys.iter().any(|y| x.region == y.region && x.si.below(&y.si))),
        }
    }
}

fn join(xs: &[Entry], ys: &[Entry]) -> Vec<Entry> {
    let mut out = Vec::new();
    let (mut i, mut j) = (0, 0);
    while i < xs.len() && j < ys.len() {
        let (x, y) = (&xs[i], &ys[j]);
        if x.cell == y.cell {
            let value = x.value.join(&y.value);
            if value.parts().is_some() {
                out.push(Entry { cell: x.cell, value });
            }
            i += 1;
            j += 1;
        } else if x.cell < y.cell {
            i += 1;
        } else {
            j += 1;
        }
    }
    out
}

fn below(xs: &[Entry], ys: &[Entry]) -> bool {
    let mut i = 0;
    for y in ys {
        while i < xs.len() && xs[i].cell < y.cell {
            i += 1;
        }
        if i == xs.len() || xs[i].cell != y.cell || !xs[i].value.below(&y.value) {
            return false;
        }
    }
    true
}

fn map_of(cells: u32, second: bool) -> Vec<Entry> {
    let mut out = Vec::new();
    for k in 0..cells {
        let other = if second && k % 10 == 0 { 8 } else { 0 };
        let one = |value| Si { stride: 0, lo: value, hi: value };
        let first = Part { region: RegionId::Global, si: one(k as i32 + other) };
        let value = if k % 33 != 0 {
            ValueSet::One(first)
        } else {
            ValueSet::Many(vec![first, Part { region: RegionId::Frame(4096), si: one(-(k as i32)) }])
        };
        let start = k as i32 * 4 - 65536;
        out.push(Entry { cell: Cell { region: RegionId::Frame(4096), start, end: start + 4 }, value });
    }
    out
}

fn main() {
    let words: Vec<String> = std::env::args().skip(1).collect();
    let number = |k: usize| words.get(k).and_then(|w| w.parse().ok()).unwrap_or(0u32);
    let (map, same, second) = (map_of(number(1), false), map_of(number(1), false), map_of(number(1), true));
    let mut count = 0;
    for _ in 0..number(2) {
        let (map, same, second) = (black_box(&map), black_box(&same), black_box(&second));
        count += match words[0].as_str() {
            "clone" => black_box(map.clone()).len(),
            "equal" => usize::from(black_box(map == same)),
            "join" => black_box(join(map, second)).len(),
            "below" => usize::from(black_box(below(map, same))),
            _ => 0,
        };
    }
    println!("{count}");
}
