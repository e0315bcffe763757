//! The measures of crates/bench_folding in plain Rust, by the same methods: the first word says what is measured, the second
//! one how many times, and the checksum is printed.

mod pattern;

use pattern::{Checksum, Kind, Line, Pattern, Piece, Point, Segment, Wide, cross, direction, line};
use std::collections::HashMap;
use std::hint::black_box;

const MOST_FACES: usize = 256;
const MOST_LINES: usize = 200;

/// A piece in one of its directions, or a part of the border counterclockwise.
#[derive(Clone, Copy, PartialEq, Eq, PartialOrd, Ord)]
struct HalfEdge {
    start: Point,
    direction: u8,
    end: Point,
    piece: Option<usize>,
}

#[derive(Clone, Copy)]
struct SharedPiece {
    a: usize,
    b: usize,
    segment: Segment,
}

#[derive(Clone, Copy)]
struct Step {
    face: usize,
    from: usize,
    piece: usize,
}

/// Faces, pieces and steps by their places, from 0.
struct FaceMap {
    corners: Vec<Vec<Point>>,
    shared: Vec<SharedPiece>,
    walk: Vec<Step>,
}

fn vertices_along(start: &Point, end: &Point, pieces: &[Piece]) -> Vec<Point> {
    let side = Segment::new(start, end).unwrap();
    let ends = pieces.iter().flat_map(|piece| [piece.segment.from, piece.segment.to]);
    let mut along: Vec<Point> = ends.filter(|v| side.has_between(v)).collect();
    along.sort_unstable();
    along.dedup();
    if end < start {
        along.reverse();
    }
    along
}

fn half_edges_of(pattern: &Pattern) -> Vec<HalfEdge> {
    let mut half_edges = Vec::with_capacity(2 * pattern.pieces.len());
    for (i, piece) in pattern.pieces.iter().enumerate() {
        let s = &piece.segment;
        half_edges.push(HalfEdge { start: s.from, direction: s.direction, end: s.to, piece: Some(i) });
        half_edges.push(HalfEdge { start: s.to, direction: (s.direction + 8) % 16, end: s.from, piece: Some(i) });
    }
    for (first, last, _) in pattern.sides() {
        let direction = direction(first, last).unwrap();
        let mut start = *first;
        for end in vertices_along(first, last, &pattern.pieces).into_iter().chain([*last]) {
            half_edges.push(HalfEdge { start, direction, end, piece: None });
            start = end;
        }
    }
    half_edges.sort_unstable();
    half_edges
}

/// The place of the half-edge that goes on from each one round its face: the next one clockwise from the way back.
fn nexts_of(half_edges: &[HalfEdge]) -> Vec<usize> {
    let mut fans: HashMap<Point, Vec<(usize, u8)>> = HashMap::new();
    for (place, half_edge) in half_edges.iter().enumerate() {
        fans.entry(half_edge.start).or_default().push((place, half_edge.direction));
    }
    let next = |half_edge: &HalfEdge| {
        let exits = fans[&half_edge.end].iter();
        exits.min_by_key(|(_, direction)| (half_edge.direction + 23 - direction) % 16).unwrap().0
    };
    half_edges.iter().map(next).collect()
}

fn turn(before: u8, after: u8) -> u8 {
    (after + 16 - before) % 16
}

fn faces_led(half_edges: &[HalfEdge], nexts: &[usize]) -> Vec<Vec<HalfEdge>> {
    let mut marks = vec![false; nexts.len()];
    let mut faces = Vec::new();
    for leader in 0..nexts.len() {
        if marks[leader] {
            continue;
        }
        let mut face = Vec::new();
        let mut place = leader;
        loop {
            marks[place] = true;
            face.push(half_edges[place]);
            place = nexts[place];
            if place == leader {
                break;
            }
        }
        faces.push(face);
    }
    faces
}

fn is_twisted(face: &[HalfEdge]) -> bool {
    let after = face.iter().cycle().skip(1);
    face.iter().zip(after).map(|(h, next)| turn(h.direction, next.direction) as u32).sum::<u32>() != 16
}

fn shared_of(faces: &[Vec<HalfEdge>], pieces: &[Piece]) -> Vec<SharedPiece> {
    let mut sides = vec![(0, 0); pieces.len()];
    for (face, half_edges) in faces.iter().enumerate() {
        for half_edge in half_edges {
            if let Some(piece) = half_edge.piece {
                if half_edge.start < half_edge.end {
                    sides[piece].0 = face;
                } else {
                    sides[piece].1 = face;
                }
            }
        }
    }
    let shared = |(piece, (left, right)): (&Piece, &(usize, usize))| SharedPiece {
        a: *left.min(right),
        b: *left.max(right),
        segment: piece.segment,
    };
    pieces.iter().zip(&sides).map(shared).collect()
}

fn walk_of(shared: &[SharedPiece], faces: &[Vec<HalfEdge>]) -> Vec<Step> {
    let mut reached = vec![false; faces.len()];
    reached[0] = true;
    let mut walk: Vec<Step> = Vec::new();
    for place in 0..faces.len() {
        let from = match place {
            0 => 0,
            _ => match walk.get(place - 1) {
                Some(step) => step.face,
                None => break,
            },
        };
        for piece in faces[from].iter().filter_map(|h| h.piece) {
            let SharedPiece { a, b, .. } = shared[piece];
            let face = if a == from { b } else { a };
            if !reached[face] {
                reached[face] = true;
                walk.push(Step { face, from, piece });
            }
        }
    }
    walk
}

fn faces(pattern: &Pattern) -> Option<FaceMap> {
    let half_edges = half_edges_of(pattern);
    let nexts = nexts_of(&half_edges);
    if half_edges.iter().zip(&nexts).any(|(h, next)| turn(h.direction, half_edges[*next].direction) > 7) {
        return None;
    }
    let faces = faces_led(&half_edges, &nexts);
    if faces.iter().any(|face| is_twisted(face)) || faces.len() > MOST_FACES {
        return None;
    }
    let shared = shared_of(&faces, &pattern.pieces);
    let walk = walk_of(&shared, &faces);
    if walk.len() + 1 < faces.len() {
        return None;
    }
    let corners = faces.iter().map(|face| face.iter().map(|h| h.start).collect()).collect();
    Some(FaceMap { corners, shared, walk })
}

#[derive(Clone, Copy, PartialEq, Eq)]
struct WidePoint {
    x: Wide,
    y: Wide,
}

/// A linear part, below 8 the rotation by so many steps of 45 degrees, from 8 on the reflection in a line of the direction
/// less 8; then a shift.
#[derive(Clone, Copy, PartialEq, Eq)]
struct Isometry {
    linear: u8,
    shift: WidePoint,
}

/// The product with the cosine of so many steps of 45 degrees.
fn times_cosine(steps: u8, w: Wide) -> Wide {
    let half_root = |w: Wide| w.times(Wide { a: 0, b: 1, k: 1 });
    match steps % 8 {
        0 => w,
        1 | 7 => half_root(w),
        2 | 6 => Wide::ZERO,
        4 => w.negated(),
        _ => half_root(w).negated(),
    }
}

fn image(linear: u8, v: WidePoint) -> WidePoint {
    let cosine = |w| times_cosine(linear, w);
    let sine = |w| times_cosine(linear + 6, w);
    if linear < 8 {
        WidePoint { x: cosine(v.x).minus(sine(v.y)), y: sine(v.x).plus(cosine(v.y)) }
    } else {
        WidePoint { x: cosine(v.x).plus(sine(v.y)), y: sine(v.x).minus(cosine(v.y)) }
    }
}

impl WidePoint {
    fn plus(self, v: WidePoint) -> WidePoint {
        WidePoint { x: self.x.plus(v.x), y: self.y.plus(v.y) }
    }

    fn minus(self, v: WidePoint) -> WidePoint {
        WidePoint { x: self.x.minus(v.x), y: self.y.minus(v.y) }
    }
}

/// A direction below 8, and the cross product with each point of the line.
#[derive(Clone, Copy, PartialEq, Eq, PartialOrd, Ord)]
struct FullLine {
    direction: u8,
    offset: Wide,
}

impl FullLine {
    fn through(p: &Point, direction: u8) -> FullLine {
        FullLine { direction: direction % 8, offset: cross(direction % 8, p.x.wide(), p.y.wide()) }
    }

    /// The point of the line on an axis.
    fn foot(&self) -> WidePoint {
        let offset = self.offset;
        match self.direction {
            0..=2 => WidePoint { x: Wide::ZERO, y: offset },
            3..=5 => WidePoint { x: offset.negated(), y: Wide::ZERO },
            _ => WidePoint { x: Wide::ZERO, y: offset.negated() },
        }
    }
}

impl Isometry {
    const IDENTITY: Isometry = Isometry { linear: 0, shift: WidePoint { x: Wide::ZERO, y: Wide::ZERO } };

    fn mirror(crease: &Segment) -> Isometry {
        let line = FullLine::through(&crease.from, crease.direction);
        let linear = 8 + line.direction;
        let foot = line.foot();
        Isometry { linear, shift: foot.minus(image(linear, foot)) }
    }

    fn is_turned(&self) -> bool {
        self.linear >= 8
    }

    fn after(&self, first: &Isometry) -> Isometry {
        let (i, j) = (self.linear, first.linear);
        let turn = if i >= 8 { (i + 8 - j) % 8 } else { (i + j) % 8 };
        let linear = if (i >= 8) == (j >= 8) { turn } else { 8 + turn };
        Isometry { linear, shift: image(i, first.shift).plus(self.shift) }
    }

    fn across(&self, crease: &Segment) -> Isometry {
        self.after(&Isometry::mirror(crease))
    }

    fn apply(&self, p: &Point) -> Option<Point> {
        let moved = image(self.linear, WidePoint { x: p.x.wide(), y: p.y.wide() }).plus(self.shift);
        Some(Point { x: moved.x.narrow()?, y: moved.y.narrow()? })
    }
}

struct FoldedFace {
    corners: Vec<Point>,
    is_turned: bool,
}

struct Folded {
    faces: Vec<FoldedFace>,
    creases: Vec<Segment>,
}

fn count_lines(faces: &[FoldedFace]) -> usize {
    let mut lines = Vec::new();
    for face in faces {
        let after = face.corners.iter().cycle().skip(1);
        for (start, end) in face.corners.iter().zip(after) {
            lines.extend(direction(start, end).map(|d| FullLine::through(start, d)));
        }
    }
    lines.sort_unstable();
    lines.dedup();
    lines.len()
}

fn fold(map: &FaceMap) -> Option<Folded> {
    let mut motions = vec![Isometry::IDENTITY; map.corners.len()];
    for step in &map.walk {
        motions[step.face] = motions[step.from].across(&map.shared[step.piece].segment);
    }
    if map.shared.iter().any(|piece| motions[piece.b] != motions[piece.a].across(&piece.segment)) {
        return None;
    }
    let folded_face = |(motion, corners): (&Isometry, &Vec<Point>)| {
        let corners = corners.iter().map(|p| motion.apply(p)).collect::<Option<Vec<Point>>>()?;
        Some(FoldedFace { corners, is_turned: motion.is_turned() })
    };
    let faces = motions.iter().zip(&map.corners).map(folded_face).collect::<Option<Vec<FoldedFace>>>()?;
    if count_lines(&faces) > MOST_LINES {
        return None;
    }
    let folded_crease = |piece: &SharedPiece| {
        let motion = &motions[piece.a];
        Segment::new(&motion.apply(&piece.segment.from)?, &motion.apply(&piece.segment.to)?)
    };
    let creases = map.shared.iter().map(folded_crease).collect::<Option<Vec<Segment>>>()?;
    Some(Folded { faces, creases })
}

/// 15 creases upwards and 15 across, each of 64 parts: 1,920 pieces and 256 faces.
fn grid() -> Vec<Line> {
    let mut lines = Vec::new();
    for n in 0..15 {
        let at = n * 800 - 5600;
        for part in 0..64 {
            let (from, to) = (part * 200 - 6400, part * 200 - 6200);
            lines.push(line(Kind::Mountain, (at, from), (at, to)));
            lines.push(line(Kind::Valley, (from, at), (to, at)));
        }
    }
    lines
}

fn fold_map(sum: &mut Checksum, map: &FaceMap) {
    for corners in &map.corners {
        for p in corners {
            sum.fold_point(p);
        }
    }
    for piece in &map.shared {
        sum.fold(piece.a as u64 + 1);
        sum.fold(piece.b as u64 + 1);
    }
    for step in &map.walk {
        sum.fold(step.face as u64 + 1);
        sum.fold(step.from as u64 + 1);
        sum.fold(step.piece as u64 + 1);
    }
}

fn fold_shape(sum: &mut Checksum, folded: &Folded) {
    for face in &folded.faces {
        sum.fold(face.is_turned as u64);
        for p in &face.corners {
            sum.fold_point(p);
        }
    }
    for s in &folded.creases {
        sum.fold_point(&s.from);
        sum.fold_point(&s.to);
    }
}

fn mapped(pattern: &Pattern, rounds: u32) -> Option<u64> {
    let mut sum = Checksum(0);
    for _ in 0..rounds {
        fold_map(&mut sum, &faces(black_box(pattern))?);
    }
    Some(sum.0)
}

fn folded(pattern: &Pattern, rounds: u32) -> Option<u64> {
    let map = faces(pattern)?;
    let mut sum = Checksum(0);
    for _ in 0..rounds {
        fold_shape(&mut sum, &fold(black_box(&map))?);
    }
    Some(sum.0)
}

fn main() {
    let mut words = std::env::args().skip(1);
    let name = words.next().unwrap_or_default();
    let rounds = words.next().map_or(1, |digits| digits.parse().expect("a count of rounds"));
    let pattern = Pattern::load(&grid()).expect("all lines are accepted");
    let sum = match name.as_str() {
        "faces" => mapped(&pattern, rounds),
        _ => folded(&pattern, rounds),
    };
    println!("{}", sum.expect("the pattern has faces that fold"));
}
