//! The rounds of crates/bench_numbers in plain Rust, by the same formulas: the word is the number of rounds, and the
//! checksum is printed.

use std::hint::black_box;

const FACTOR: u64 = 6364136223846793005;
const REFUSED: u64 = 3;
const PARALLEL: u64 = 4;

const COORDINATES: [((i64, i64, u8), (i64, i64, u8)); 6] = [
    ((3, -2, 1), (-600, 400, 0)),
    ((50, -1, 2), (0, 3, 0)),
    ((1, 0, 16), (-7, 5, 3)),
    ((68719476735, -12345, 4), (-1, -1, 16)),
    ((0, 0, 0), (200, 0, 0)),
    ((-34359738369, 68719476736, 9), (99, 70, 5)),
];

#[derive(Clone, Copy)]
enum Sign {
    Neg,
    Zero,
    Pos,
}

/// `(a + b * sqrt 2) / 2^k` with `|a|, |b| <= 2^36` and `k <= 16`.
#[derive(Clone, Copy)]
struct Number {
    a: i64,
    b: i64,
    k: u8,
}

/// The same with wider parts.
#[derive(Clone, Copy)]
struct Wide {
    a: i128,
    b: i128,
    k: u8,
}

#[derive(Clone, Copy)]
struct Point {
    x: Number,
    y: Number,
}

struct Line {
    direction: u8,
    offset: Wide,
}

struct Checksum(u64);

impl Wide {
    const ZERO: Wide = Wide { a: 0, b: 0, k: 0 };
    const TANGENT: Wide = Wide { a: -1, b: 1, k: 0 };

    fn plus(self, other: Wide) -> Wide {
        Wide {
            a: (self.a << other.k) + (other.a << self.k),
            b: (self.b << other.k) + (other.b << self.k),
            k: self.k + other.k,
        }
        .reduced()
    }

    fn negated(self) -> Wide {
        Wide {
            a: -self.a,
            b: -self.b,
            k: self.k,
        }
    }

    fn minus(self, other: Wide) -> Wide {
        self.plus(other.negated())
    }

    fn times(self, other: Wide) -> Wide {
        Wide {
            a: self.a * other.a + 2 * (self.b * other.b),
            b: self.a * other.b + self.b * other.a,
            k: self.k + other.k,
        }
        .reduced()
    }

    fn reduced(self) -> Wide {
        let Wide {
            mut a,
            mut b,
            mut k,
        } = self;
        while k > 0 && a % 2 == 0 && b % 2 == 0 {
            a /= 2;
            b /= 2;
            k -= 1;
        }
        Wide { a, b, k }
    }

    fn sign(self) -> Sign {
        let (a, b) = (self.a, self.b);
        if a >= 0 && b >= 0 {
            return if a == 0 && b == 0 {
                Sign::Zero
            } else {
                Sign::Pos
            };
        }
        if a < 0 && b < 0 {
            return Sign::Neg;
        }
        let whole_wins =
            2 * b.unsigned_abs() * b.unsigned_abs() < a.unsigned_abs() * a.unsigned_abs();
        if (a >= 0) == whole_wins {
            Sign::Pos
        } else {
            Sign::Neg
        }
    }

    fn narrow(self) -> Option<Number> {
        let limit = 1 << 36;
        if self.a.unsigned_abs() <= limit && self.b.unsigned_abs() <= limit && self.k <= 16 {
            Some(Number {
                a: self.a as i64,
                b: self.b as i64,
                k: self.k,
            })
        } else {
            None
        }
    }
}

impl Number {
    fn new((a, b, k): (i64, i64, u8)) -> Option<Number> {
        Number { a, b, k }.wide().reduced().narrow()
    }

    fn wide(self) -> Wide {
        Wide {
            a: self.a as i128,
            b: self.b as i128,
            k: self.k,
        }
    }

    fn add(self, other: Number) -> Option<Number> {
        self.wide().plus(other.wide()).narrow()
    }

    fn mul(self, other: Number) -> Option<Number> {
        self.wide().times(other.wide()).narrow()
    }
}

/// A coordinate of a direction.
#[derive(Clone, Copy)]
enum Part {
    Nought,
    One,
    Tangent,
    MinusOne,
    MinusTangent,
}

impl Part {
    fn of(direction: u8) -> (Part, Part) {
        match direction {
            0 => (Part::One, Part::Nought),
            1 => (Part::One, Part::Tangent),
            2 => (Part::One, Part::One),
            3 => (Part::Tangent, Part::One),
            4 => (Part::Nought, Part::One),
            5 => (Part::MinusTangent, Part::One),
            6 => (Part::MinusOne, Part::One),
            _ => (Part::MinusOne, Part::Tangent),
        }
    }

    fn times(self, w: Wide) -> Wide {
        match self {
            Part::Nought => Wide::ZERO,
            Part::One => w,
            Part::Tangent => w.times(Wide::TANGENT),
            Part::MinusOne => w.negated(),
            Part::MinusTangent => w.times(Wide::TANGENT).negated(),
        }
    }
}

/// The powers of `sqrt 2 - 1` and of `sqrt 2` in the cross products of the directions 0 to 7 with later ones.
const CROSS_UNITS: [[(u8, u8); 8]; 8] = [
    [
        (0, 0),
        (1, 0),
        (0, 0),
        (0, 0),
        (0, 0),
        (0, 0),
        (0, 0),
        (1, 0),
    ],
    [
        (0, 0),
        (0, 0),
        (1, 1),
        (1, 2),
        (0, 0),
        (1, 3),
        (0, 1),
        (1, 2),
    ],
    [
        (0, 0),
        (0, 0),
        (0, 0),
        (1, 1),
        (0, 0),
        (0, 1),
        (0, 2),
        (0, 1),
    ],
    [
        (0, 0),
        (0, 0),
        (0, 0),
        (0, 0),
        (1, 0),
        (1, 2),
        (0, 1),
        (1, 3),
    ],
    [
        (0, 0),
        (0, 0),
        (0, 0),
        (0, 0),
        (0, 0),
        (1, 0),
        (0, 0),
        (0, 0),
    ],
    [
        (0, 0),
        (0, 0),
        (0, 0),
        (0, 0),
        (0, 0),
        (0, 0),
        (1, 1),
        (1, 2),
    ],
    [
        (0, 0),
        (0, 0),
        (0, 0),
        (0, 0),
        (0, 0),
        (0, 0),
        (0, 0),
        (1, 1),
    ],
    [
        (0, 0),
        (0, 0),
        (0, 0),
        (0, 0),
        (0, 0),
        (0, 0),
        (0, 0),
        (0, 0),
    ],
];

/// The inverse of `(sqrt 2 - 1)^i * (sqrt 2)^j`.
fn unit_inverse((i, j): (u8, u8)) -> Wide {
    let (a, b) = match (i, j) {
        (0, 0) => (1, 0),
        (0, 1) => (0, 1),
        (0, 2) => (2, 0),
        (0, _) => (0, 2),
        (_, 0) => (1, 1),
        (_, 1) => (2, 1),
        (_, 2) => (2, 2),
        (_, _) => (4, 2),
    };
    Wide { a, b, k: j }
}

enum MeetFault {
    Parallel,
    OutOfRange,
}

/// The common point of two lines.
fn meet(l: &Line, m: &Line) -> Result<Point, MeetFault> {
    let (l, m) = if l.direction < m.direction {
        (l, m)
    } else if m.direction < l.direction {
        (m, l)
    } else {
        return Err(MeetFault::Parallel);
    };
    let inverse = unit_inverse(CROSS_UNITS[l.direction as usize][m.direction as usize]);
    let (l_x, l_y) = Part::of(l.direction);
    let (m_x, m_y) = Part::of(m.direction);
    let coordinate = |of_m: Part, of_l: Part| {
        let cross = of_m.times(l.offset).minus(of_l.times(m.offset));
        cross.times(inverse).narrow().ok_or(MeetFault::OutOfRange)
    };
    Ok(Point {
        x: coordinate(m_x, l_x)?,
        y: coordinate(m_y, l_y)?,
    })
}

impl Line {
    fn cross(direction: u8, p: &Point) -> Wide {
        let (u, v) = Part::of(direction);
        u.times(p.y.wide()).minus(v.times(p.x.wide()))
    }

    fn through(p: &Point, direction: u8) -> Line {
        let direction = direction % 8;
        Line {
            direction,
            offset: Line::cross(direction, p),
        }
    }

    fn side(&self, p: &Point) -> Sign {
        Line::cross(self.direction, p).minus(self.offset).sign()
    }
}

impl Checksum {
    fn fold(&mut self, word: u64) {
        self.0 = self.0.wrapping_mul(FACTOR).wrapping_add(word);
    }

    fn fold_sign(&mut self, sign: Sign) {
        self.fold(match sign {
            Sign::Neg => 0,
            Sign::Zero => 1,
            Sign::Pos => 2,
        });
    }

    fn fold_signed(&mut self, n: i128) {
        self.fold(if n < 0 {
            0
        } else if n == 0 {
            1
        } else {
            2
        });
        self.fold(n.unsigned_abs() as u64);
    }

    fn fold_parts(&mut self, number: Wide) {
        self.fold_signed(number.a);
        self.fold_signed(number.b);
        self.fold(number.k as u64);
    }

    fn fold_meeting(&mut self, outcome: Result<Point, MeetFault>) {
        match outcome {
            Ok(point) => {
                self.fold_number(Some(point.x));
                self.fold_number(Some(point.y));
            }
            Err(MeetFault::OutOfRange) => self.fold(REFUSED),
            Err(MeetFault::Parallel) => self.fold(PARALLEL),
        }
    }

    fn fold_number(&mut self, outcome: Option<Number>) {
        match outcome {
            Some(number) => {
                self.fold_parts(number.wide());
                self.fold_sign(number.wide().sign());
            }
            None => self.fold(REFUSED),
        }
    }
}

fn combine(m: Number, n: Number, sum: &mut Checksum) {
    sum.fold_number(m.add(n));
    sum.fold_number(m.mul(n));
}

fn round(points: &[Point], sum: &mut Checksum) {
    for p in points {
        for q in points {
            combine(p.x, q.x, sum);
            combine(p.x, q.y, sum);
            combine(p.y, q.x, sum);
            combine(p.y, q.y, sum);
        }
        for direction in 0..16 {
            let line = Line::through(p, direction);
            sum.fold(line.direction as u64);
            sum.fold_parts(line.offset);
            for q in points {
                sum.fold_sign(line.side(q));
                let other = Line::through(q, (3 * direction + 1) % 16);
                sum.fold_meeting(meet(&line, &other));
            }
        }
    }
}

fn main() {
    let word = std::env::args().nth(1);
    let count: u32 = word.map_or(1, |digits| digits.parse().expect("a count of rounds"));
    let mut points = Vec::new();
    for (x, y) in COORDINATES {
        if let (Some(x), Some(y)) = (Number::new(x), Number::new(y)) {
            points.push(Point { x, y });
        }
    }
    let mut sum = Checksum(0);
    for _ in 0..count {
        round(black_box(&points), &mut sum);
    }
    println!("{}", sum.0);
}
