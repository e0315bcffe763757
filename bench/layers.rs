//! The measure of crates/bench_layers in plain Rust: the pairs of 128 folded strips and the rules of their orders, by the
//! same tests of regions. The strips are folded by a formula here, so faces and folding are not repeated.

use super::{Edge, FACTOR, Interval, Region, Wide, meet};

const FACES: usize = 128;

#[derive(Clone, Copy, PartialEq, Eq, PartialOrd, Ord)]
enum Rule {
    Fixed { p: u32, under: bool },
    Equal { p: u32, q: u32, same: bool },
    Even { p: u32, q: u32, r: u32, s: u32, odd: bool },
    NotCyclic { ij: u32, jk: u32, ik: u32 },
}

/// The image of a crease between faces a and b: it is upright.
#[derive(Clone, Copy)]
struct Crease {
    a: usize,
    b: usize,
    x: i32,
    low: i32,
    high: i32,
}

/// What is strictly inside each folded strip, and the folded creases.
fn folded() -> (Vec<Region>, Vec<Crease>) {
    let side = |k: usize| if k < FACES { -200 + 2 * k as i32 } else { 200 };
    let (mut insides, mut creases) = (Vec::new(), Vec::new());
    let (mut sign, mut shift) = (1, 0);
    for f in 0..FACES {
        if f > 0 {
            let x = sign * side(f) + shift;
            creases.push(Crease { a: f - 1, b: f, x, low: -200, high: 200 });
            sign = -sign;
            shift = x - sign * side(f);
        }
        let (from, to) = (sign * side(f) + shift, sign * side(f + 1) + shift);
        let mut region = Region { edges: [None; 16] };
        for (n, x, y) in [(0, 0, -200), (4, from.max(to), 0), (8, 0, 200), (12, from.min(to), 0)] {
            region.narrow(n as usize, &Edge::through(n, x, y));
        }
        insides.push(region);
    }
    (insides, creases)
}

impl Interval {
    /// The part along direction `along` from (x, y) that the line in direction n of an edge leaves.
    fn cut(self, n: usize, edge: &Edge, along: usize, x: i32, y: i32) -> Interval {
        let here = Edge::through(n as u8, x, y).offset;
        if n < 8 {
            self.narrowed(n, along, edge.offset, here)
        } else {
            self.narrowed(along, n - 8, here, edge.offset)
        }
    }
}

fn runs_into(region: &Region, crease: &Crease) -> bool {
    let whole = |n: i32| Wide { a: n as i128, b: 0, k: 0 };
    let mut between = Interval {
        lower: Some(whole(0)),
        upper: Some(whole(crease.high - crease.low)),
        closed: false,
    };
    for n in 0..16 {
        if let Some(edge) = &region.edges[n] {
            between = between.cut(n, edge, 4, crease.x, crease.low);
        }
    }
    between.has_number()
}

fn place(pairs: &[(usize, usize)], f: usize, g: usize) -> Option<u32> {
    let pair = (f.min(g), f.max(g));
    pairs.binary_search(&pair).ok().map(|p| p as u32)
}

fn has_nothing_left(region: &Region, n: u8, crease: &Crease) -> bool {
    let mut left = *region;
    left.narrow(n as usize, &Edge::through(n, crease.x, crease.low));
    !left.is_open_nonempty()
}

fn tortilla(insides: &[Region], pairs: &[(usize, usize)], c: &Crease, u: usize) -> Option<Rule> {
    let p = place(pairs, c.a, u)?;
    let q = place(pairs, c.b, u)?;
    let same = (c.a < u) == (c.b < u);
    runs_into(&insides[u], c).then_some(Rule::Equal { p, q, same })
}

fn taco(insides: &[Region], pairs: &[(usize, usize)], c: &Crease, d: &Crease) -> Option<Rule> {
    if d.a <= c.a || c.x != d.x || c.low.max(d.low) >= c.high.min(d.high) {
        return None;
    }
    let p = place(pairs, c.a, d.a)?;
    let q = place(pairs, c.b, d.a)?;
    let r = place(pairs, c.a, d.b)?;
    let s = place(pairs, c.b, d.b)?;
    place(pairs, c.a, c.b)?;
    place(pairs, d.a, d.b)?;
    let one_side = [4, 12].iter().any(|&n| {
        [c.a, c.b, d.a, d.b].iter().all(|&f| has_nothing_left(&insides[f], n, c))
    });
    let odd = ((c.a < d.a) == (c.b < d.a)) != ((c.a < d.b) == (c.b < d.b));
    one_side.then_some(Rule::Even { p, q, r, s, odd })
}

fn are_sides(c: &Crease, i: usize, j: usize) -> bool {
    (c.a == i && c.b == j) || (c.a == j && c.b == i)
}

fn pairs_of(insides: &[Region], creases: &[Crease]) -> Vec<(usize, usize)> {
    let mut pairs = Vec::new();
    for i in 0..FACES {
        for j in i + 1..FACES {
            if meet(&insides[i], &insides[j]) || creases.iter().any(|c| are_sides(c, i, j)) {
                pairs.push((i, j));
            }
        }
    }
    pairs
}

fn rules_of(insides: &[Region], creases: &[Crease], pairs: &[(usize, usize)]) -> Vec<Rule> {
    let mut rules = Vec::new();
    for (p, &(i, j)) in pairs.iter().enumerate() {
        for under in [false, true] {
            // all are mountains, and the faces of even places have their fronts up
            if creases.iter().any(|c| are_sides(c, i, j) && (i % 2 == 1) == under) {
                rules.push(Rule::Fixed { p: p as u32, under });
            }
        }
    }
    for c in creases {
        rules.extend((0..FACES).filter_map(|u| tortilla(insides, pairs, c, u)));
    }
    for c in creases {
        rules.extend(creases.iter().filter_map(|d| taco(insides, pairs, c, d)));
    }
    for (ij, &(i, j)) in pairs.iter().enumerate() {
        let common = insides[i].both(&insides[j]);
        for (ik, &(other, k)) in pairs.iter().enumerate().skip(ij + 1) {
            if other != i {
                break;
            }
            if let Some(jk) = place(pairs, j, k).filter(|_| common.both(&insides[k]).is_open_nonempty()) {
                rules.push(Rule::NotCyclic { ij: ij as u32, jk, ik: ik as u32 });
            }
        }
    }
    rules.sort_unstable();
    rules.dedup();
    rules
}

fn is_broken(rule: &Rule, over: &[bool]) -> bool {
    let at = |p: u32| over[p as usize];
    match *rule {
        Rule::Fixed { p, under } => at(p) == under,
        Rule::Equal { p, q, same } => (at(p) == at(q)) != same,
        Rule::Even { p, q, r, s, odd } => (at(p) ^ at(q) ^ at(r) ^ at(s)) != odd,
        Rule::NotCyclic { ij, jk, ik } => at(ij) == at(jk) && at(jk) != at(ik),
    }
}

/// Takes in the layers of the strips: the faces, the pairs, how many rules there are, and which some lists break first.
pub fn layers_round(sum: u64) -> u64 {
    let fold = |sum: u64, word: u64| sum.wrapping_mul(FACTOR).wrapping_add(word);
    let (insides, creases) = folded();
    let pairs = pairs_of(&insides, &creases);
    let rules = rules_of(&insides, &creases, &pairs);
    let mut sum = fold(sum, FACES as u64);
    for &(i, j) in &pairs {
        sum = fold(fold(sum, i as u64 + 1), j as u64 + 1);
    }
    sum = fold(sum, rules.len() as u64);
    for number in 0..8 {
        let mut state = number;
        let mut over = Vec::with_capacity(pairs.len());
        for &(i, j) in &pairs {
            state = fold(state, 1);
            over.push(if j == i + 1 { i % 2 == 0 } else { state >> 63 == 0 });
        }
        sum = fold(sum, rules.iter().position(|rule| is_broken(rule, &over)).unwrap_or(0) as u64);
    }
    sum
}
