//! Curves: document 02, Item 2. Where a curve counts is decided by exact arithmetic from the
//! document's sentence, not by the implicit form that the document calls the quick test.

use std::cmp::Ordering;
use std::ops::Range;

use crate::meaning::Edge;

/// "No axis spans over 4,096 units."
pub const MOST_SPAN: u32 = 4_096;

/// "the three x in order, up or down, equal ones allowed".
pub fn in_order([a, b, c]: [u32; 3]) -> bool {
    a <= b && b <= c || a >= b && b >= c
}

/// "Its curve must rise or fall steadily in each axis: the three x in order, up or down, equal ones
/// allowed, and so the three y. No axis spans over 4,096 units."
pub fn fits(corners: [(u32, u32); 3]) -> bool {
    let axes = [corners.map(|(x, _)| x), corners.map(|(_, y)| y)];
    axes.into_iter().all(|axis| {
        let (least, most) = (axis.into_iter().min(), axis.into_iter().max());
        let span = most.zip(least).map(|(most, least)| most - least);
        in_order(axis) && span <= Some(MOST_SPAN)
    })
}

/// A curve from one end to the other, with its control corner between them. It is in order.
#[derive(Clone, Copy, PartialEq, Eq, Debug)]
pub struct Curve {
    pub from: (i64, i64),
    pub control: (i64, i64),
    pub to: (i64, i64),
}

impl Curve {
    /// Of corners as the tables have them.
    pub fn of(corners: [(u32, u32); 3]) -> Curve {
        let [from, control, to] = corners.map(|(x, y)| (i64::from(x), i64::from(y)));
        Curve { from, control, to }
    }

    /// "A curve has the rows of its ends and is drawn upward or downward as they are."
    pub fn ends(&self) -> Edge {
        Edge {
            from: self.from,
            to: self.to,
        }
    }

    /// "Taken from its lower end": x of the three corners, and y.
    fn lower_first(&self) -> ([i64; 3], [i64; 3]) {
        let corners = match self.from.1 <= self.to.1 {
            true => [self.from, self.control, self.to],
            false => [self.to, self.control, self.from],
        };
        (
            corners.map(|corner| corner.0),
            corners.map(|corner| corner.1),
        )
    }

    /// "it counts at (x, y) if y is one of its rows and: where its x do not fall, some fraction t
    /// from 0 to 1 has curve x above x and curve y at most y; where its x fall, some such t has
    /// curve x above x and curve y at least y."
    ///
    /// In a row, curve y grows from at most y at t = 0 to above y at t = 1. It is y at one t only,
    /// since the three y do not fall and are not all equal, so that the curve rises strictly. Where
    /// curve x does not fall as t grows, the greatest t that may be taken is the best one to take;
    /// where it falls, the least: in both cases the t at which curve y is y. Curve x is above x at
    /// some t that may be taken if it is there. And then it is at a fraction too: this t may be a
    /// surd, but curve x is above x also at all t near it, on the allowed side as well (at t = 0
    /// there is no smaller one, but 0 is a fraction).
    pub fn counts(&self, x: i64, y: i64) -> bool {
        self.ends().rows().contains(&y) && self.at_row(y).is_above(x)
    }

    /// Curve x at the t at which curve y is y, which is one of the rows.
    fn at_row(&self, y: i64) -> At {
        let (xs, ys) = self.lower_first();
        let [x0, x1, x2] = xs.map(i128::from);
        let [y0, y1, y2] = ys.map(i128::from);
        // Curve y is y0 + 2 b t + a t².
        let (a, b) = (y0 - 2 * y1 + y2, y1 - y0);
        let q = i128::from(y) - y0;
        // a t² + 2 b t = q is solved by t = q / (b + √(b² + a q)): the root is b + a t, half of how
        // fast curve y rises at t, so not negative; and it is b² at t = 0, so that t is 0 for q = 0
        // whatever b is, and for q > 0 what stands below the line is not 0.
        let t = match q {
            0 => Surd { n: 0, b: 1, d: 0 },
            _ => {
                let d = b * b + a * q;
                Surd { n: q, b, d }
            }
        };
        At {
            start: x0,
            a: x0 - 2 * x1 + x2,
            b: x1 - x0,
            t,
        }
    }

    /// The greatest whole number that is not above curve x in a row, for tests that go along a
    /// curve.
    pub fn floor_at(&self, y: i64) -> i64 {
        let at = self.at_row(y);
        let xs = self.lower_first().0;
        let (mut low, mut high) = (xs[0].min(xs[2]) - 1, xs[0].max(xs[2]) + 1);
        // Curve x is above low and not above high.
        while high - low > 1 {
            let middle = (low + high) / 2;
            match at.is_above(middle) {
                true => low = middle,
                false => high = middle,
            }
        }
        match at.compared(high) {
            Ordering::Less => low,
            _ => high,
        }
    }
}

/// The number n / (b + √d), where neither b nor n is negative and b + √d is not 0.
#[derive(Clone, Copy, PartialEq, Eq, Debug)]
struct Surd {
    n: i128,
    b: i128,
    d: i128,
}

/// The number start + 2 b t + a t².
#[derive(Clone, Copy, PartialEq, Eq, Debug)]
struct At {
    start: i128,
    a: i128,
    b: i128,
    t: Surd,
}

impl At {
    fn is_above(&self, x: i64) -> bool {
        self.compared(x) == Ordering::Greater
    }

    /// This number against x. With t = n / w, w = c + √d above 0, multiplied by w²:
    /// a n² + 2 b n w − (x − start) w², which is u + v √d.
    fn compared(&self, x: i64) -> Ordering {
        let Surd { n, b: c, d } = self.t;
        let p = i128::from(x) - self.start;
        let u = self.a * n * n + 2 * self.b * n * c - p * (c * c + d);
        let v = 2 * self.b * n - 2 * p * c;
        sign_of_sum(u, v, d)
    }
}

/// The sign of u + v √d.
fn sign_of_sum(u: i128, v: i128, d: i128) -> Ordering {
    assert!(d >= 0);
    let of_root = if d == 0 { Ordering::Equal } else { v.cmp(&0) };
    match (u.cmp(&0), of_root) {
        (of_u, Ordering::Equal) => of_u,
        (Ordering::Equal, of_root) => of_root,
        (of_u, of_root) if of_u == of_root => of_u,
        // Of two numbers with unlike signs the larger square decides.
        (Ordering::Greater, _) => (u * u).cmp(&(v * v * d)),
        (Ordering::Less, _) => (v * v * d).cmp(&(u * u)),
    }
}

/// What a contour is made of.
#[derive(Clone, Copy, PartialEq, Eq, Debug)]
pub enum Segment {
    Edge(Edge),
    Curve(Curve),
}

impl Segment {
    fn ends(&self) -> Edge {
        match self {
            Segment::Edge(edge) => *edge,
            Segment::Curve(curve) => curve.ends(),
        }
    }

    pub fn rows(&self) -> Range<i64> {
        self.ends().rows()
    }

    pub fn sign(&self) -> i32 {
        self.ends().sign()
    }

    pub fn counts(&self, x: i64, y: i64) -> bool {
        match self {
            Segment::Edge(edge) => edge.counts(x, y),
            Segment::Curve(curve) => curve.counts(x, y),
        }
    }

    /// What it adds to the winding at a position.
    pub fn adds(&self, x: u32, y: u32) -> i32 {
        match self.counts(x.into(), y.into()) {
            true => self.sign(),
            false => 0,
        }
    }
}
