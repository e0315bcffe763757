//! The measures of crates/bench_editing in plain Rust, by the same methods: the first word says what is measured, the second
//! one how many times, and the checksum is printed.

mod pattern;

use pattern::{Checksum, Kind, Line, Pattern, Point, Sign, line};
use std::collections::HashMap;
use std::hint::black_box;

#[derive(Clone, Copy)]
struct Ray {
    direction: u8,
    kind: Kind,
}

/// How many faults there are around a vertex, by Kawasaki, Maekawa and the big-little-big lemma.
fn faults_around(fan: &[Ray]) -> usize {
    let n = fan.len();
    let sector = |k: usize| {
        let turn = (fan[(k + 1) % n].direction + 16 - fan[k % n].direction) % 16;
        if turn == 0 { 16 } else { turn }
    };
    let mut count = 0;
    if n % 2 == 1 || (0..n).step_by(2).map(|k| sector(k) as u32).sum::<u32>() != 8 {
        count += 1;
    }
    let mountains = fan.iter().filter(|ray| ray.kind == Kind::Mountain).count();
    if mountains.abs_diff(n - mountains) != 2 {
        count += 1;
    }
    count
        + (0..n)
            .filter(|k| {
                sector(*k) < sector(k + n - 1) && sector(*k) < sector(k + 1) && fan[*k].kind == fan[(k + 1) % n].kind
            })
            .count()
}

fn check(pattern: &Pattern) -> Vec<Point> {
    let mut fans: HashMap<Point, Vec<Ray>> = HashMap::new();
    let mut vertices = Vec::new();
    for piece in &pattern.pieces {
        let s = &piece.segment;
        let kind = piece.kind;
        fans.entry(s.from).or_default().push(Ray { direction: s.direction, kind });
        fans.entry(s.to).or_default().push(Ray { direction: (s.direction + 8) % 16, kind });
        vertices.extend([s.from, s.to].into_iter().filter(|v| pattern.place(v) == Sign::Pos));
    }
    vertices.sort_unstable();
    vertices.dedup();
    let mut faults = Vec::new();
    for v in vertices {
        let fan = fans.get_mut(&v).unwrap();
        fan.sort_unstable_by_key(|ray| ray.direction);
        faults.extend(std::iter::repeat_n(v, faults_around(fan)));
    }
    faults
}

/// 660 mountains at 45 degrees, beside one another.
fn slanted() -> Vec<Line> {
    (0..660).map(|n| n * 15 - 4950).map(|x| line(Kind::Mountain, (x - 960, -960), (x + 960, 960))).collect()
}

/// An edge of the sheet beside 2,000 valleys, 190,000 times.
fn bordered() -> Vec<Line> {
    let edge = line(Kind::Edge, (-6400, -6400), (6400, -6400));
    apart().into_iter().chain(std::iter::repeat_n(edge, 190_000)).collect()
}

/// 160,000 auxiliary lines, of which 2,000 are different.
fn repeated() -> Vec<Line> {
    (0..160_000).map(|n| n * 7 % 2000 - 1000).map(|x| line(Kind::Aux, (x, -64), (x, x + 1024))).collect()
}

/// 2,000 valleys apart from one another.
fn apart() -> Vec<Line> {
    (0..2000)
        .map(|n| (n * 7 % 50 * 250 - 6200, n / 50 * 300 - 6000))
        .map(|(x, y)| line(Kind::Valley, (x, y), (x + 160, y + 160)))
        .collect()
}

/// A crease across 660 others, of each of these kinds in turn.
fn crossed(kinds: [Kind; 2], rounds: u32) -> Option<u64> {
    let mut pattern = Pattern::load(&slanted())?;
    for n in 0..rounds {
        let mut next = pattern.clone();
        next.add(black_box(&line(kinds[n as usize % 2], (-6400, 0), (6400, 0))))?;
        pattern = next;
    }
    Some(Checksum::of(&pattern))
}

fn loaded(lines: &[Line], rounds: u32) -> Option<u64> {
    let mut pattern = Pattern::empty();
    for _ in 0..rounds {
        pattern = Pattern::load(black_box(lines))?;
    }
    Some(Checksum::of(&pattern))
}

fn checked(rounds: u32) -> Option<u64> {
    let pattern = Pattern::load(&apart())?;
    let mut sum = Checksum(0);
    for _ in 0..rounds {
        for v in check(black_box(&pattern)) {
            sum.fold_point(&v);
        }
    }
    Some(sum.0)
}

fn main() {
    let mut words = std::env::args().skip(1);
    let name = words.next().unwrap_or_default();
    let rounds = words.next().map_or(1, |digits| digits.parse().expect("a count of rounds"));
    let sum = match name.as_str() {
        "crossing" => crossed([Kind::Valley, Kind::Mountain], rounds),
        "held" => crossed([Kind::Valley, Kind::Valley], rounds),
        "edges" => loaded(&bordered(), rounds),
        "lines" => loaded(&repeated(), rounds),
        "check" => checked(rounds),
        _ => loaded(&apart(), rounds),
    };
    println!("{}", sum.expect("all lines are accepted"));
}
