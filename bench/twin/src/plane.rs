//! Lines and points with i64. For lawful rules no product or sum leaves 64 bits.

#[derive(Clone, Copy)]
pub struct Constraint {
    pub a: i64,
    pub b: i64,
    pub c: i64,
}

#[derive(Clone, Copy)]
pub struct Point {
    pub x: i64,
    pub y: i64,
    pub d: i64,
}

#[derive(Clone, Copy)]
pub struct Ray {
    pub dx: i64,
    pub dy: i64,
}

impl Constraint {
    pub const NONE: Self = Constraint { a: 0, b: 0, c: 0 };

    /// How far a point is from the line, times d. Its sign decides, and nothing is reduced.
    pub fn slack(&self, v: Point) -> i64 {
        self.c * v.d - (self.a * v.x + self.b * v.y)
    }

    pub fn broken_by(&self, v: Point) -> bool {
        self.slack(v) < 0
    }

    /// The same line with its other side.
    pub fn turned(&self) -> Self {
        Constraint { a: -self.a, b: -self.b, c: -self.c }
    }

    /// How fast a step along the ray (b, -a) of `line` goes against this constraint.
    pub fn against(&self, line: Constraint) -> i64 {
        self.a * line.b - self.b * line.a
    }

    pub fn along(&self, d: Ray) -> i64 {
        self.a * d.dx + self.b * d.dy
    }

    /// Where the constraint meets a line; its `against` is the denominator.
    pub fn meet(&self, line: Constraint) -> Point {
        Point { x: self.c * line.b - self.b * line.c, y: self.a * line.c - self.c * line.a, d: self.against(line) }
    }
}

impl Point {
    /// In lowest terms. Tuned, x and d go first, whose first remainder is already small.
    pub fn reduced<const TUNED: bool>(self) -> Self {
        let (x, y, d) = (self.x.unsigned_abs(), self.y.unsigned_abs(), self.d.unsigned_abs());
        let g = if TUNED { gcd(y, gcd(x, d)) } else { gcd(gcd(x, y), d) } as i64;
        Point { x: self.x / g, y: self.y / g, d: self.d / g }
    }
}

impl Ray {
    pub fn reduced(self) -> Self {
        let g = gcd(self.dx.unsigned_abs(), self.dy.unsigned_abs()) as i64;
        Ray { dx: self.dx / g, dy: self.dy / g }
    }
}

pub fn gcd(m: u64, n: u64) -> u64 {
    if n == 0 {
        m
    } else {
        gcd(n, m % n)
    }
}
