//! Layouts, pushes, lookups of ids, and readout.
use crate::raw;
use crate::{Refusal, told};

/// What is pushed now.
#[derive(Clone, Copy, Debug, PartialEq, Eq)]
pub enum Stage {
    Points,
    Circles,
    Arcs,
    Done,
}

/// How many shapes of each kind there are, and the stage.
#[derive(Clone, Copy, Debug, PartialEq, Eq)]
pub struct Layout {
    pub points: usize,
    pub circles: usize,
    pub arcs: usize,
    pub stage: Stage,
}

/// A point, in values or in ids.
#[derive(Clone, Copy, Debug, PartialEq)]
pub struct Point<T = f64> {
    pub x: T,
    pub y: T,
}

/// A circle, in values or in ids.
#[derive(Clone, Copy, Debug, PartialEq)]
pub struct Circle<T = f64> {
    pub center: Point<T>,
    pub radius: T,
}

/// An arc, in values or in ids.
#[derive(Clone, Copy, Debug, PartialEq)]
pub struct Arc<T = f64> {
    pub a: Point<T>,
    pub b: Point<T>,
    pub center: Point<T>,
}

fn point<T: Copy>(v: [T; 6]) -> Point<T> {
    Point { x: v[0], y: v[1] }
}

fn circle<T: Copy>(v: [T; 6]) -> Circle<T> {
    Circle {
        center: point(v),
        radius: v[2],
    }
}

fn arc<T: Copy>(v: [T; 6]) -> Arc<T> {
    Arc {
        a: point(v),
        b: Point { x: v[2], y: v[3] },
        center: Point { x: v[4], y: v[5] },
    }
}

/// How many slots so many shapes have, at most `usize::MAX`.
pub(crate) fn slots(points: usize, circles: usize, arcs: usize) -> usize {
    let each = [(points, 2), (circles, 3), (arcs, 6)].map(|(n, of_one)| n.saturating_mul(of_one));
    each.into_iter().fold(0, usize::saturating_add)
}

fn ids_of(out: raw::Out) -> [u32; 6] {
    out.map(|n| n as u32)
}

/// Looks for shape i of a layout in ids or values.
fn look<T>(l: &Layout, f: raw::Look<T>, slice: &[T], i: usize) -> Result<raw::Out, Refusal> {
    let [p, c, a, s] = l.numbers();
    // SAFETY: the slice is lent for the call, `out` is its own, and the function has no other demand.
    told(|out| unsafe { f(p, c, a, s, slice.as_ptr(), slice.len(), i, out) })
}

impl Layout {
    /// No shapes yet.
    pub const EMPTY: Layout = Layout {
        points: 0,
        circles: 0,
        arcs: 0,
        stage: Stage::Points,
    };

    /// How many slots it has; `usize::MAX` where they are more, as in an impossible layout.
    pub fn slots(&self) -> usize {
        slots(self.points, self.circles, self.arcs)
    }

    fn numbers(&self) -> [usize; 4] {
        [self.points, self.circles, self.arcs, self.stage as usize]
    }

    pub(crate) fn told(out: raw::Out) -> Layout {
        let stage = match out[3] {
            0 => Stage::Points,
            1 => Stage::Circles,
            2 => Stage::Arcs,
            _ => Stage::Done,
        };
        Layout {
            points: out[0] as usize,
            circles: out[1] as usize,
            arcs: out[2] as usize,
            stage,
        }
    }

    /// Pushes a point: the new layout and the next id.
    pub fn push_point(
        &self,
        next: u32,
        ids: &mut [u32],
        values: &mut [f64],
        p: Point,
    ) -> Result<(Layout, u32), Refusal> {
        let [a, b, c, s] = self.numbers();
        // SAFETY: as in `look`; the two slices are lent apart from one another.
        let out = told(|out| unsafe {
            raw::hunposeto_push_point(
                a,
                b,
                c,
                s,
                next,
                ids.as_mut_ptr(),
                ids.len(),
                values.as_mut_ptr(),
                values.len(),
                p.x,
                p.y,
                out,
            )
        })?;
        Ok((Layout::told(out), out[4] as u32))
    }

    /// Pushes a circle.
    pub fn push_circle(
        &self,
        next: u32,
        ids: &mut [u32],
        values: &mut [f64],
        k: Circle,
    ) -> Result<(Layout, u32), Refusal> {
        let [a, b, c, s] = self.numbers();
        // SAFETY: as in `push_point`.
        let out = told(|out| unsafe {
            raw::hunposeto_push_circle(
                a,
                b,
                c,
                s,
                next,
                ids.as_mut_ptr(),
                ids.len(),
                values.as_mut_ptr(),
                values.len(),
                k.center.x,
                k.center.y,
                k.radius,
                out,
            )
        })?;
        Ok((Layout::told(out), out[4] as u32))
    }

    /// Pushes an arc.
    pub fn push_arc(
        &self,
        next: u32,
        ids: &mut [u32],
        values: &mut [f64],
        k: Arc,
    ) -> Result<(Layout, u32), Refusal> {
        let [a, b, c, s] = self.numbers();
        // SAFETY: as in `push_point`.
        let out = told(|out| unsafe {
            raw::hunposeto_push_arc(
                a,
                b,
                c,
                s,
                next,
                ids.as_mut_ptr(),
                ids.len(),
                values.as_mut_ptr(),
                values.len(),
                k.a.x,
                k.a.y,
                k.b.x,
                k.b.y,
                k.center.x,
                k.center.y,
                out,
            )
        })?;
        Ok((Layout::told(out), out[4] as u32))
    }

    /// The layout at the next stage.
    pub fn done(&self) -> Result<Layout, Refusal> {
        let [a, b, c, s] = self.numbers();
        // SAFETY: nothing but `out` is lent.
        told(|out| unsafe { raw::hunposeto_done(a, b, c, s, out) }).map(Layout::told)
    }

    /// The ids of point i.
    pub fn point_ids(&self, ids: &[u32], i: usize) -> Result<Point<u32>, Refusal> {
        look(self, raw::hunposeto_point_ids, ids, i).map(|out| point(ids_of(out)))
    }

    /// The ids of circle i.
    pub fn circle_ids(&self, ids: &[u32], i: usize) -> Result<Circle<u32>, Refusal> {
        look(self, raw::hunposeto_circle_ids, ids, i).map(|out| circle(ids_of(out)))
    }

    /// The ids of arc i as the old program has them: looked for right after the points, which is wrong where there are circles.
    pub fn arc_ids(&self, ids: &[u32], i: usize) -> Result<Arc<u32>, Refusal> {
        look(self, raw::hunposeto_arc_ids, ids, i).map(|out| arc(ids_of(out)))
    }

    /// The ids of arc i, after the points and the circles.
    pub fn arc_slot_ids(&self, ids: &[u32], i: usize) -> Result<Arc<u32>, Refusal> {
        look(self, raw::hunposeto_arc_slot_ids, ids, i).map(|out| arc(ids_of(out)))
    }

    /// Point i, read out of the values.
    pub fn point(&self, values: &[f64], i: usize) -> Result<Point, Refusal> {
        look(self, raw::hunposeto_point, values, i).map(|out| point(out.map(f64::from_bits)))
    }

    /// Circle i, read out of the values.
    pub fn circle(&self, values: &[f64], i: usize) -> Result<Circle, Refusal> {
        look(self, raw::hunposeto_circle, values, i).map(|out| circle(out.map(f64::from_bits)))
    }

    /// Arc i, read out of the values.
    pub fn arc(&self, values: &[f64], i: usize) -> Result<Arc, Refusal> {
        look(self, raw::hunposeto_arc, values, i).map(|out| arc(out.map(f64::from_bits)))
    }
}
