//! The measures of crates/bench_regions in plain Rust, by the same elimination: `ROUNDS`, `pairs FACES ROUNDS` or
//! `triples FACES ROUNDS`; and `layers ROUNDS`, that of crates/bench_layers. The checksum is printed.

mod layers;

use std::hint::black_box;

const FACTOR: u64 = 6364136223846793005;

const FACES: [(i32, i32, i32, u8); 16] = [
    (0, 0, 10, 4),
    (7, 3, 11, 2),
    (-14, 6, 9, 1),
    (21, -9, 12, 4),
    (-28, 12, 10, 2),
    (5, 15, 11, 1),
    (12, -18, 9, 4),
    (-19, 21, 12, 2),
    (26, 24, 10, 1),
    (-3, -27, 11, 4),
    (10, 30, 9, 2),
    (-17, -1, 12, 1),
    (24, 4, 10, 4),
    (-1, 7, 11, 2),
    (8, -10, 9, 1),
    (-15, 13, 12, 4),
];

const RIGHT: [(i32, i32); 16] = [
    (0, -1),
    (1, -2),
    (1, -1),
    (2, -1),
    (1, 0),
    (2, 1),
    (1, 1),
    (1, 2),
    (0, 1),
    (-1, 2),
    (-1, 1),
    (-2, 1),
    (-1, 0),
    (-2, -1),
    (-1, -1),
    (-1, -2),
];

const SIDES: [&[u8]; 8] = [
    &[0, 4, 8, 12],
    &[0, 6, 12],
    &[2, 6, 10, 14],
    &[0, 4, 10],
    &[0, 4, 8, 12],
    &[4, 8, 14],
    &[0, 5, 8, 13],
    &[2, 8, 12],
];

/// The coordinates of directions 0 to 7: a whole number and a multiple of `sqrt 2 - 1`.
const UPPER: [((i128, i128), (i128, i128)); 8] = [
    ((1, 0), (0, 0)),
    ((1, 0), (0, 1)),
    ((1, 0), (1, 0)),
    ((0, 1), (1, 0)),
    ((0, 0), (1, 0)),
    ((0, -1), (1, 0)),
    ((-1, 0), (1, 0)),
    ((-1, 0), (0, 1)),
];

const TANGENTS: [[u8; 8]; 8] = [
    [0, 1, 0, 0, 0, 0, 0, 1],
    [0, 0, 1, 1, 0, 1, 0, 1],
    [0, 0, 0, 1, 0, 0, 0, 0],
    [0, 0, 0, 0, 1, 1, 0, 1],
    [0, 0, 0, 0, 0, 1, 0, 0],
    [0, 0, 0, 0, 0, 0, 1, 1],
    [0, 0, 0, 0, 0, 0, 0, 1],
    [0, 0, 0, 0, 0, 0, 0, 0],
];

const ROOTS: [[u8; 8]; 8] = [
    [0, 0, 0, 0, 0, 0, 0, 0],
    [0, 0, 1, 2, 0, 3, 1, 2],
    [0, 0, 0, 1, 0, 1, 2, 1],
    [0, 0, 0, 0, 0, 2, 1, 3],
    [0, 0, 0, 0, 0, 0, 0, 0],
    [0, 0, 0, 0, 0, 0, 1, 2],
    [0, 0, 0, 0, 0, 0, 0, 1],
    [0, 0, 0, 0, 0, 0, 0, 0],
];

/// `(a + b * sqrt 2) / 2^k`.
#[derive(Clone, Copy)]
struct Wide {
    a: i128,
    b: i128,
    k: u8,
}

#[derive(Clone, Copy)]
struct Edge {
    offset: Wide,
    scaled: Wide,
}

#[derive(Clone, Copy)]
struct Region {
    edges: [Option<Edge>; 16],
}

#[derive(Clone, Copy)]
struct Interval {
    lower: Option<Wide>,
    upper: Option<Wide>,
    closed: bool,
}

impl Wide {
    fn minus(self, other: Wide) -> Wide {
        Wide {
            a: (self.a << other.k) - (other.a << self.k),
            b: (self.b << other.k) - (other.b << self.k),
            k: self.k + other.k,
        }
        .reduced()
    }

    fn times(self, other: Wide) -> Wide {
        Wide {
            a: self.a * other.a + 2 * (self.b * other.b),
            b: self.a * other.b + self.b * other.a,
            k: self.k + other.k,
        }
        .reduced()
    }

    fn over_unit(self, i: u8, j: u8) -> Wide {
        let (a, b) = match (i, j) {
            (0, 0) => (1, 0),
            (0, 1) => (0, 1),
            (0, 2) => (2, 0),
            (0, _) => (0, 2),
            (_, 0) => (1, 1),
            (_, 1) => (2, 1),
            (_, 2) => (2, 2),
            (_, _) => (4, 2),
        };
        self.times(Wide { a, b, k: j })
    }

    fn reduced(self) -> Wide {
        let Wide {
            mut a,
            mut b,
            mut k,
        } = self;
        while k > 0 && a % 2 == 0 && b % 2 == 0 {
            a /= 2;
            b /= 2;
            k -= 1;
        }
        Wide { a, b, k }
    }

    fn is_negative(self) -> bool {
        let (a, b) = (self.a, self.b);
        if a >= 0 && b >= 0 {
            return false;
        }
        if a < 0 && b < 0 {
            return true;
        }
        let whole_wins =
            2 * b.unsigned_abs() * b.unsigned_abs() < a.unsigned_abs() * a.unsigned_abs();
        (a >= 0) != whole_wins
    }

    fn is_less(self, other: Wide) -> bool {
        self.minus(other).is_negative()
    }
}

impl Edge {
    fn through(n: u8, x: i32, y: i32) -> Edge {
        let ((u, ut), (v, vt)) = UPPER[n as usize % 8];
        // (u + ut * t) * y - (v + vt * t) * x, with t = sqrt 2 - 1
        let (x, y) = (x as i128, y as i128);
        let tangents = ut * y - vt * x;
        let offset = Wide {
            a: u * y - v * x - tangents,
            b: tangents,
            k: 0,
        };
        Edge {
            offset,
            scaled: offset.times(Wide { a: -1, b: 1, k: 0 }),
        }
    }

    fn risen(&self, k: usize) -> Wide {
        if k == 1 || k == 7 {
            self.scaled
        } else {
            self.offset
        }
    }
}

impl Interval {
    fn above(self, limit: Wide) -> Interval {
        let lower = match self.lower {
            Some(lower) if !lower.is_less(limit) => lower,
            _ => limit,
        };
        Interval {
            lower: Some(lower),
            ..self
        }
    }

    fn below(self, limit: Wide) -> Interval {
        let upper = match self.upper {
            Some(upper) if upper.is_less(limit) => upper,
            _ => limit,
        };
        Interval {
            upper: Some(upper),
            ..self
        }
    }

    fn narrowed(self, m: usize, n: usize, first: Wide, second: Wide) -> Interval {
        if m < n {
            self.above(first.minus(second).over_unit(TANGENTS[m][n], ROOTS[m][n]))
        } else if n < m {
            self.below(second.minus(first).over_unit(TANGENTS[n][m], ROOTS[n][m]))
        } else {
            Interval {
                closed: self.closed || !first.is_less(second),
                ..self
            }
        }
    }

    fn has_number(&self) -> bool {
        !self.closed
            && match (self.lower, self.upper) {
                (Some(lower), Some(upper)) => lower.is_less(upper),
                _ => true,
            }
    }
}

impl Region {
    fn narrow(&mut self, n: usize, edge: &Edge) {
        let tighter = match &self.edges[n] {
            None => true,
            Some(old) if n < 8 => old.offset.is_less(edge.offset),
            Some(old) => edge.offset.is_less(old.offset),
        };
        if tighter {
            self.edges[n] = Some(*edge);
        }
    }

    fn both(&self, other: &Region) -> Region {
        let mut region = *self;
        for n in 0..16 {
            if let Some(edge) = &other.edges[n] {
                region.narrow(n, edge);
            }
        }
        region
    }

    /// Whether in some direction a line of one and the opposite one of the other leave nothing between them.
    fn is_apart(&self, other: &Region) -> bool {
        let ends_before = |first: &Region, second: &Region, n: usize| match (&first.edges[n], &second.edges[n + 8]) {
            (Some(right), Some(left)) => !right.offset.is_less(left.offset),
            _ => false,
        };
        (0..8).any(|n| ends_before(self, other, n) || ends_before(other, self, n))
    }

    fn is_open_nonempty(&self) -> bool {
        let zero = Wide { a: 0, b: 0, k: 0 };
        let mut heights = Interval {
            lower: None,
            upper: None,
            closed: false,
        };
        if let Some(edge) = &self.edges[0] {
            heights = heights.narrowed(0, 4, edge.offset, zero);
        }
        if let Some(edge) = &self.edges[8] {
            heights = heights.narrowed(4, 0, zero, edge.offset);
        }
        for n in 1..8 {
            if let Some(right) = &self.edges[n] {
                for k in 1..8 {
                    if let Some(left) = &self.edges[k + 8] {
                        heights = heights.narrowed(n, k, right.risen(k), left.risen(n));
                    }
                }
            }
        }
        heights.has_number()
    }
}

fn face(x: i32, y: i32, radius: i32, step: u8) -> Region {
    let mut region = Region { edges: [None; 16] };
    for n in (0..16).step_by(step as usize) {
        let (u, v) = RIGHT[n as usize];
        region.narrow(n as usize, &Edge::through(n, x + u * radius, y + v * radius));
    }
    region
}

fn crowded(n: u32) -> Region {
    let (x, y, radius) = ((n * 29 % 103) as i32, ((n * n * 7 + n * 31) % 101) as i32, 8 + (n % 5) as i32);
    let mut region = Region { edges: [None; 16] };
    for &n in SIDES[n as usize % 8] {
        let (u, v) = RIGHT[n as usize];
        region.narrow(n as usize, &Edge::through(n, x + u * radius, y + v * radius));
    }
    region
}

fn meet(first: &Region, second: &Region) -> bool {
    !first.is_apart(second) && first.both(second).is_open_nonempty()
}

fn crowd_round(crowd: &[Region], with_triples: bool, sum: u64) -> u64 {
    let mut pairs: Vec<(usize, usize)> = Vec::new();
    for (i, first) in crowd.iter().enumerate() {
        for (j, second) in crowd.iter().enumerate().skip(i + 1) {
            if meet(first, second) {
                pairs.push((i, j));
            }
        }
    }
    let mut sum = sum;
    for (p, &(i, j)) in pairs.iter().enumerate() {
        sum = sum.wrapping_mul(FACTOR).wrapping_add(i as u64).wrapping_mul(FACTOR).wrapping_add(j as u64);
        if !with_triples {
            continue;
        }
        let common = crowd[i].both(&crowd[j]);
        for (t, &(other, k)) in pairs.iter().enumerate().skip(p + 1) {
            if other != i {
                break;
            }
            if pairs.binary_search(&(j, k)).is_ok() && common.both(&crowd[k]).is_open_nonempty() {
                sum = sum.wrapping_mul(FACTOR).wrapping_add(t as u64);
            }
        }
    }
    sum
}

fn tests_round(faces: &[Region], sum: u64) -> u64 {
    let mut sum = sum;
    for first in faces {
        for second in faces {
            let answer = first.both(second).is_open_nonempty();
            sum = sum.wrapping_mul(FACTOR).wrapping_add(u64::from(answer));
        }
    }
    sum
}

fn main() {
    let words: Vec<String> = std::env::args().skip(1).collect();
    let number = |n: usize| words.get(n).map_or(1, |w| w.parse().expect("a number"));
    let measure = words.first().map_or("", |w| w.as_str());
    let mut sum: u64 = 0;
    if measure == "pairs" || measure == "triples" {
        let crowd: Vec<Region> = (0..number(1)).map(crowded).collect();
        for _ in 0..number(2) {
            sum = crowd_round(black_box(&crowd), measure == "triples", sum);
        }
    } else if measure == "layers" {
        for _ in 0..number(1) {
            sum = layers::layers_round(black_box(sum));
        }
    } else {
        let faces: Vec<Region> = FACES.iter().map(|&(x, y, radius, step)| face(x, y, radius, step)).collect();
        for _ in 0..number(0) {
            sum = tests_round(black_box(&faces), sum);
        }
    }
    println!("{sum}");
}
