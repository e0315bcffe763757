//! Exact numbers, segments and crease patterns in plain Rust, as the proved program has them, and a checksum. Each measure uses a part of
//! them.
#![allow(dead_code)]

use std::cmp::Ordering;

pub const FACTOR: u64 = 6364136223846793005;
pub const MOST_PIECES: usize = 2000;

#[derive(Clone, Copy, PartialEq, Eq)]
pub enum Sign {
    Neg,
    Zero,
    Pos,
}

/// `(a + b * sqrt 2) / 2^k` with `|a|, |b| <= 2^36` and `k <= 16`, with the least k.
#[derive(Clone, Copy, PartialEq, Eq, Hash)]
pub struct Number {
    pub a: i64,
    pub b: i64,
    pub k: u8,
}

/// The same with wider parts.
#[derive(Clone, Copy, PartialEq, Eq, PartialOrd, Ord)]
pub struct Wide {
    pub a: i128,
    pub b: i128,
    pub k: u8,
}

#[derive(Clone, Copy, PartialEq, Eq, Hash, PartialOrd, Ord)]
pub struct Point {
    pub x: Number,
    pub y: Number,
}

/// From the lesser end to the greater one, in one of the 16 directions.
#[derive(Clone, Copy)]
pub struct Segment {
    pub from: Point,
    pub to: Point,
    pub direction: u8,
}

#[derive(Clone, Copy, PartialEq, Eq)]
pub enum Kind {
    Edge,
    Mountain,
    Valley,
    Aux,
}

#[derive(Clone, Copy)]
pub struct Piece {
    pub kind: Kind,
    pub segment: Segment,
}

#[derive(Clone, Copy)]
pub struct Line {
    pub kind: Kind,
    pub from: Point,
    pub to: Point,
}

#[derive(Clone)]
pub struct Pattern {
    pub corners: Vec<Point>,
    /// The direction of the side from each corner.
    pub sides: Vec<u8>,
    pub pieces: Vec<Piece>,
    pub aux: Vec<Segment>,
}

impl Sign {
    pub fn of(a: i128, b: i128) -> Sign {
        if a >= 0 && b >= 0 {
            return if a == 0 && b == 0 { Sign::Zero } else { Sign::Pos };
        }
        if a <= 0 && b <= 0 {
            return Sign::Neg;
        }
        let (a2, b2) = (a.unsigned_abs() * a.unsigned_abs(), 2 * b.unsigned_abs() * b.unsigned_abs());
        if (a > 0) == (b2 < a2) { Sign::Pos } else { Sign::Neg }
    }
}

impl Wide {
    pub const ZERO: Wide = Wide { a: 0, b: 0, k: 0 };

    pub fn plus(self, other: Wide) -> Wide {
        Wide {
            a: (self.a << other.k) + (other.a << self.k),
            b: (self.b << other.k) + (other.b << self.k),
            k: self.k + other.k,
        }
        .reduced()
    }

    pub fn negated(self) -> Wide {
        Wide { a: -self.a, b: -self.b, k: self.k }
    }

    pub fn minus(self, other: Wide) -> Wide {
        self.plus(other.negated())
    }

    pub fn times(self, other: Wide) -> Wide {
        Wide {
            a: self.a * other.a + 2 * (self.b * other.b),
            b: self.a * other.b + self.b * other.a,
            k: self.k + other.k,
        }
        .reduced()
    }

    pub fn reduced(self) -> Wide {
        let Wide { mut a, mut b, mut k } = self;
        while k > 0 && a % 2 == 0 && b % 2 == 0 {
            a /= 2;
            b /= 2;
            k -= 1;
        }
        Wide { a, b, k }
    }

    pub fn sign(self) -> Sign {
        Sign::of(self.a, self.b)
    }

    pub fn narrow(self) -> Option<Number> {
        let limit = 1 << 36;
        if self.a.unsigned_abs() <= limit && self.b.unsigned_abs() <= limit && self.k <= 16 {
            Some(Number { a: self.a as i64, b: self.b as i64, k: self.k })
        } else {
            None
        }
    }
}

impl Number {
    pub fn wide(self) -> Wide {
        Wide { a: self.a as i128, b: self.b as i128, k: self.k }
    }
}

impl PartialOrd for Number {
    fn partial_cmp(&self, other: &Number) -> Option<Ordering> {
        Some(self.cmp(other))
    }
}

impl Ord for Number {
    fn cmp(&self, other: &Number) -> Ordering {
        let a = ((self.a as i128) << other.k) - ((other.a as i128) << self.k);
        let b = ((self.b as i128) << other.k) - ((other.b as i128) << self.k);
        match Sign::of(a, b) {
            Sign::Neg => Ordering::Less,
            Sign::Zero => Ordering::Equal,
            Sign::Pos => Ordering::Greater,
        }
    }
}

/// A coordinate of a direction.
#[derive(Clone, Copy)]
pub enum Part {
    Nought,
    One,
    Tangent,
    MinusOne,
    MinusTangent,
}

impl Part {
    pub fn of(direction: u8) -> (Part, Part) {
        match direction {
            0 => (Part::One, Part::Nought),
            1 => (Part::One, Part::Tangent),
            2 => (Part::One, Part::One),
            3 => (Part::Tangent, Part::One),
            4 => (Part::Nought, Part::One),
            5 => (Part::MinusTangent, Part::One),
            6 => (Part::MinusOne, Part::One),
            7 => (Part::MinusOne, Part::Tangent),
            8 => (Part::MinusOne, Part::Nought),
            9 => (Part::MinusOne, Part::MinusTangent),
            10 => (Part::MinusOne, Part::MinusOne),
            11 => (Part::MinusTangent, Part::MinusOne),
            12 => (Part::Nought, Part::MinusOne),
            13 => (Part::Tangent, Part::MinusOne),
            14 => (Part::One, Part::MinusOne),
            _ => (Part::One, Part::MinusTangent),
        }
    }

    pub fn times(self, w: Wide) -> Wide {
        let tangent = Wide { a: 2 * w.b - w.a, b: w.a - w.b, k: w.k };
        match self {
            Part::Nought => Wide::ZERO,
            Part::One => w,
            Part::Tangent => tangent,
            Part::MinusOne => w.negated(),
            Part::MinusTangent => tangent.negated(),
        }
    }
}

pub const TANGENTS: [[u8; 8]; 8] = [
    [0, 1, 0, 0, 0, 0, 0, 1],
    [0, 0, 1, 1, 0, 1, 0, 1],
    [0, 0, 0, 1, 0, 0, 0, 0],
    [0, 0, 0, 0, 1, 1, 0, 1],
    [0, 0, 0, 0, 0, 1, 0, 0],
    [0, 0, 0, 0, 0, 0, 1, 1],
    [0, 0, 0, 0, 0, 0, 0, 1],
    [0, 0, 0, 0, 0, 0, 0, 0],
];

pub const ROOTS: [[u8; 8]; 8] = [
    [0, 0, 0, 0, 0, 0, 0, 0],
    [0, 0, 1, 2, 0, 3, 1, 2],
    [0, 0, 0, 1, 0, 1, 2, 1],
    [0, 0, 0, 0, 0, 2, 1, 3],
    [0, 0, 0, 0, 0, 0, 0, 0],
    [0, 0, 0, 0, 0, 0, 1, 2],
    [0, 0, 0, 0, 0, 0, 0, 1],
    [0, 0, 0, 0, 0, 0, 0, 0],
];

/// The inverse of `(sqrt 2 - 1)^i * (sqrt 2)^j`.
pub fn unit_inverse(i: u8, j: u8) -> Wide {
    let (a, b) = match (i, j) {
        (0, 0) => (1, 0),
        (0, 1) => (0, 1),
        (0, 2) => (2, 0),
        (0, _) => (0, 2),
        (_, 0) => (1, 1),
        (_, 1) => (2, 1),
        (_, 2) => (2, 2),
        (_, _) => (4, 2),
    };
    Wide { a, b, k: j }
}

pub fn cross(direction: u8, x: Wide, y: Wide) -> Wide {
    let (u, v) = Part::of(direction);
    u.times(y).minus(v.times(x))
}

pub fn side_from(q: &Point, direction: u8, p: &Point) -> Sign {
    let x = p.x.wide().minus(q.x.wide());
    let y = p.y.wide().minus(q.y.wide());
    cross(direction, x, y).sign()
}

pub fn goes_along(direction: u8, p: &Point, q: &Point) -> bool {
    let x = q.x.wide().minus(p.x.wide());
    let y = q.y.wide().minus(p.y.wide());
    let (u, v) = Part::of(direction);
    cross(direction, x, y).sign() == Sign::Zero && u.times(x).plus(v.times(y)).sign() == Sign::Pos
}

pub fn direction(p: &Point, q: &Point) -> Option<u8> {
    (0..16).find(|n| goes_along(*n, p, q))
}

impl Segment {
    pub fn new(p: &Point, q: &Point) -> Option<Segment> {
        let (from, to) = match p.cmp(q) {
            Ordering::Less => (*p, *q),
            Ordering::Greater => (*q, *p),
            Ordering::Equal => return None,
        };
        Some(Segment { from, to, direction: direction(&from, &to)? })
    }

    pub fn ends(&self) -> (Point, Point) {
        (self.from, self.to)
    }

    pub fn has_between(&self, p: &Point) -> bool {
        self.from < *p && *p < self.to && side_from(&self.from, self.direction, p) == Sign::Zero
    }

    pub fn has(&self, p: &Point) -> bool {
        *p == self.from || *p == self.to || self.has_between(p)
    }

    pub fn parts(&self, p: &Point, q: &Point) -> bool {
        let one = side_from(&self.from, self.direction, p);
        let other = side_from(&self.from, self.direction, q);
        one != Sign::Zero && other != Sign::Zero && one != other
    }

    pub fn touches(&self, other: &Segment) -> bool {
        if self.to < other.from || other.to < self.from {
            return false;
        }
        other.has(&self.from)
            || other.has(&self.to)
            || self.has(&other.from)
            || self.has(&other.to)
            || (self.parts(&other.from, &other.to) && other.parts(&self.from, &self.to))
    }

    pub fn meets(&self, other: &Segment) -> Option<Point> {
        let (l, m) = if self.direction % 8 < other.direction % 8 { (self, other) } else { (other, self) };
        let (n, o) = (l.direction % 8, m.direction % 8);
        let inverse = unit_inverse(TANGENTS[n as usize][o as usize], ROOTS[n as usize][o as usize]);
        let l_offset = cross(n, l.from.x.wide(), l.from.y.wide());
        let m_offset = cross(o, m.from.x.wide(), m.from.y.wide());
        let (l_x, l_y) = Part::of(n);
        let (m_x, m_y) = Part::of(o);
        let coordinate = |of_m: Part, of_l: Part| of_m.times(l_offset).minus(of_l.times(m_offset)).times(inverse).narrow();
        Some(Point { x: coordinate(m_x, l_x)?, y: coordinate(m_y, l_y)? })
    }
}

impl Pattern {
    pub fn empty() -> Pattern {
        let corner = |x, y| Point { x: whole(x), y: whole(y) };
        let corners = vec![corner(-200, -200), corner(200, -200), corner(200, 200), corner(-200, 200)];
        let ends = corners.iter().zip(corners.iter().cycle().skip(1));
        let sides = ends.map(|(start, end)| direction(start, end).unwrap()).collect();
        Pattern { corners, sides, pieces: Vec::new(), aux: Vec::new() }
    }

    pub fn sides(&self) -> impl Iterator<Item = (&Point, &Point, u8)> {
        let ends = self.corners.iter().zip(self.corners.iter().cycle().skip(1));
        ends.zip(&self.sides).map(|((start, end), direction)| (start, end, *direction))
    }

    /// The least side on which a point is: Neg is outside, Zero on the border.
    pub fn place(&self, p: &Point) -> Sign {
        let mut place = Sign::Pos;
        for (start, _, direction) in self.sides() {
            match side_from(start, direction, p) {
                Sign::Neg => return Sign::Neg,
                Sign::Zero => place = Sign::Zero,
                Sign::Pos => {}
            }
        }
        place
    }

    pub fn holds(&self, s: &Segment) -> bool {
        self.place(&s.from) != Sign::Neg && self.place(&s.to) != Sign::Neg
    }

    pub fn on_border(&self, s: &Segment) -> bool {
        self.sides().any(|(start, end, direction)| {
            let side = if start < end {
                Segment { from: *start, to: *end, direction }
            } else {
                Segment { from: *end, to: *start, direction: (direction + 8) % 16 }
            };
            side.has(&s.from) && side.has(&s.to)
        })
    }

    /// The cut points of a segment among pieces that it touches, ascending.
    pub fn cuts(s: &Segment, touched: &[Piece]) -> Option<Vec<Point>> {
        let mut points = vec![s.from, s.to];
        for piece in touched {
            let u = &piece.segment;
            if u.direction % 8 == s.direction % 8 {
                points.extend([u.from, u.to].into_iter().filter(|v| s.has(v)));
            } else if s.has(&u.from) {
                points.push(u.from);
            } else if s.has(&u.to) {
                points.push(u.to);
            } else {
                points.push(s.meets(u)?);
            }
        }
        points.sort_unstable();
        points.dedup();
        Some(points)
    }

    pub fn push_parts(parts: &mut Vec<Piece>, piece: &Piece, cuts: &[Point], keep: impl Fn(&Segment) -> bool) {
        let s = &piece.segment;
        let start = cuts.partition_point(|v| *v <= s.from);
        let mut from = s.from;
        let own = cuts[start..].iter().take_while(|v| **v < s.to).filter(|v| s.has_between(v));
        for to in own.chain([&s.to]) {
            let segment = Segment { from, to: *to, direction: s.direction };
            if keep(&segment) {
                parts.push(Piece { kind: piece.kind, segment });
            }
            from = *to;
        }
    }

    /// Whether pieces of this kind make up the segment.
    pub fn has_crease(&self, kind: Kind, s: &Segment) -> bool {
        let start = self.pieces.partition_point(|piece| piece.segment.from < s.from);
        let mut at = s.from;
        for piece in self.pieces[start..].iter().take_while(|piece| piece.segment.from < s.to) {
            let u = &piece.segment;
            if u.from == at && u.direction == s.direction && piece.kind == kind {
                at = u.to;
            }
        }
        at == s.to
    }

    pub fn add_crease(&mut self, kind: Kind, s: &Segment) -> Option<()> {
        if !self.holds(s) || self.on_border(s) {
            return None;
        }
        if self.has_crease(kind, s) {
            return Some(());
        }
        let end = self.pieces.partition_point(|piece| piece.segment.from <= s.to);
        let (touched, mut others): (Vec<Piece>, Vec<Piece>) = self.pieces[..end].iter().partition(|piece| s.touches(&piece.segment));
        others.extend_from_slice(&self.pieces[end..]);
        let cuts = Pattern::cuts(s, &touched)?;
        let mut news = Vec::new();
        for piece in &touched {
            Pattern::push_parts(&mut news, piece, &cuts, |u| !(s.has(&u.from) && s.has(&u.to)));
        }
        Pattern::push_parts(&mut news, &Piece { kind, segment: *s }, &cuts, |_| true);
        news.sort_unstable_by_key(|piece| piece.segment.ends());
        if others.len() + news.len() + self.aux.len() > MOST_PIECES {
            return None;
        }
        let mut pieces = Vec::with_capacity(others.len() + news.len());
        let mut rest = others.as_slice();
        for new in &news {
            let place = rest.partition_point(|piece| piece.segment.ends() < new.segment.ends());
            pieces.extend_from_slice(&rest[..place]);
            pieces.push(*new);
            rest = &rest[place..];
        }
        pieces.extend_from_slice(rest);
        self.pieces = pieces;
        Some(())
    }

    pub fn add_aux(&mut self, s: &Segment) -> Option<()> {
        if !self.holds(s) {
            return None;
        }
        if let Err(place) = self.aux.binary_search_by_key(&s.ends(), |line| line.ends()) {
            if self.pieces.len() + self.aux.len() == MOST_PIECES {
                return None;
            }
            self.aux.insert(place, *s);
        }
        Some(())
    }

    pub fn add(&mut self, line: &Line) -> Option<()> {
        let s = Segment::new(&line.from, &line.to)?;
        match line.kind {
            Kind::Edge => self.on_border(&s).then_some(()),
            Kind::Aux => self.add_aux(&s),
            kind => self.add_crease(kind, &s),
        }
    }

    pub fn load(lines: &[Line]) -> Option<Pattern> {
        let mut pattern = Pattern::empty();
        for line in lines {
            pattern.add(line)?;
        }
        Some(pattern)
    }
}

pub fn whole(n: i64) -> Number {
    Number { a: n, b: 0, k: 0 }
}

pub fn point(x: i32, y: i32) -> Point {
    let part = |n: i32| Wide { a: n as i128, b: 0, k: 5 }.reduced().narrow().unwrap();
    Point { x: part(x), y: part(y) }
}

pub fn line(kind: Kind, from: (i32, i32), to: (i32, i32)) -> Line {
    Line { kind, from: point(from.0, from.1), to: point(to.0, to.1) }
}

pub struct Checksum(pub u64);

impl Checksum {
    pub fn fold(&mut self, word: u64) {
        self.0 = self.0.wrapping_mul(FACTOR).wrapping_add(word);
    }

    pub fn fold_point(&mut self, p: &Point) {
        for n in [p.x, p.y] {
            self.fold(n.a.wrapping_add(1 << 40) as u64);
            self.fold(n.b.wrapping_add(1 << 40) as u64);
            self.fold(n.k as u64);
        }
    }

    pub fn of(pattern: &Pattern) -> u64 {
        let mut sum = Checksum(0);
        for piece in &pattern.pieces {
            sum.fold(match piece.kind {
                Kind::Edge => 1,
                Kind::Mountain => 2,
                Kind::Valley => 3,
                Kind::Aux => 4,
            });
            sum.fold_point(&piece.segment.from);
            sum.fold_point(&piece.segment.to);
        }
        for s in &pattern.aux {
            sum.fold_point(&s.from);
            sum.fold_point(&s.to);
        }
        sum.0
    }
}
