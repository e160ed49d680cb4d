//! Lowers a batch of pages by the Rust. A batch is over and over a line `CASE n`, n bytes of text and a new line. For each page a
//! block comes out: `fails` where it does not read whole, `error` where it is not lowered, or `lowered`, then its slots and its
//! constraints as `rows` prints them; and a line `.`. A `Fixed` has no kind: it is a row `fixed`.
//! A child of ezpz's `textual`, over bench/rust's stand-ins for the solver, of which `solve` hands back the starting values.
use super::*;
use crate::datatypes::{Angle, AngleKind, inputs::*};
use crate::{Constraint, FailureOutcome, Id};
use std::io::{self, BufRead, Read, Write};

// A number's bits; all NaNs are printed alike.
fn bits(x: f64) -> String {
    if x.is_nan() { "7ff8000000000000".to_string() } else { format!("{:016x}", x.to_bits()) }
}

// An angle's unit and number. Its fields are private, but it is printed with its unit, and asked in this unit it is as written.
fn angle(a: Angle) -> String {
    if a.to_string().ends_with("deg") { format!("deg {}", bits(a.to_degrees())) } else { format!("rad {}", bits(a.to_radians())) }
}

fn point(p: &DatumPoint) -> Vec<Id> {
    vec![p.x_id, p.y_id]
}

fn line(l: &DatumLineSegment) -> Vec<Id> {
    [point(&l.p0), point(&l.p1)].concat()
}

fn circle(c: &DatumCircle) -> Vec<Id> {
    [point(&c.center), vec![c.radius.id]].concat()
}

fn arc(a: &DatumCircularArc) -> Vec<Id> {
    [point(&a.start), point(&a.end), point(&a.center)].concat()
}

// A constraint's kind, its ids in the order of its labels, and what it has beside them.
fn parts(c: &Constraint) -> (&'static str, Vec<Id>, Option<String>) {
    use Constraint::*;
    match c {
        Fixed(id, x) => ("fixed", vec![*id], Some(bits(*x))),
        Vertical(l) => ("5", line(l), None),
        Horizontal(l) => ("6", line(l), None),
        Distance(p, q, x) => ("7", [point(p), point(q)].concat(), Some(bits(*x))),
        Parallel(l, m) => ("8", [line(l), line(m)].concat(), None),
        Perpendicular(l, m) => ("9", [line(l), line(m)].concat(), None),
        LinesAtAngle(l, m, AngleKind::Other(a)) => ("10", [line(l), line(m)].concat(), Some(angle(*a))),
        LinesAtAngle(l, m, _) => ("10", [line(l), line(m)].concat(), None),
        PointsCoincident(p, q) => ("11", [point(p), point(q)].concat(), None),
        PointArcCoincident(a, p) => ("12", [point(p), arc(a)].concat(), None),
        Midpoint(l, p) => ("13", [line(l), point(p)].concat(), None),
        Symmetric(l, p, q) => ("14", [line(l), point(p), point(q)].concat(), None),
        CircleRadius(c, x) => ("15", circle(c), Some(bits(*x))),
        LineTangentToCircle(l, c, _) => ("16", [line(l), circle(c)].concat(), None),
        ArcRadius(a, x) => ("17", arc(a), Some(bits(*x))),
        LinesEqualLength(l, m) => ("19", [line(l), line(m)].concat(), None),
        Arc(a) => ("20", arc(a), None),
        PointLineDistance(p, l, x) => ("21", [point(p), line(l)].concat(), Some(bits(*x))),
        ArcLength(a, x) => ("23", arc(a), Some(bits(*x))),
    }
}

// The lines of a page.
fn block(text: &str) -> Vec<String> {
    let Ok(problem) = text.parse::<Problem>() else { return vec!["fails".to_string()] };
    let Ok(system) = problem.to_constraint_system() else { return vec!["error".to_string()] };
    let Err(FailureOutcome(start)) = system.solve_no_metadata(Default::default()) else { unreachable!() };
    let mut lines = vec!["lowered".to_string()];
    lines.extend(start.iter().map(|(id, x)| format!("slot {id} {}", bits(*x))));
    lines.extend(system.constraints.iter().map(|c| {
        let (kind, ids, rest) = parts(c.constraint());
        let ids = ids.iter().map(Id::to_string);
        ["row".to_string(), kind.to_string()].into_iter().chain(ids).chain(rest).collect::<Vec<_>>().join(" ")
    }));
    lines
}

pub fn run() -> i32 {
    let (mut batch, mut out) = (io::stdin().lock(), io::stdout().lock());
    let mut header = String::new();
    while batch.read_line(&mut header).unwrap() > 0 {
        let mut text = vec![0; header["CASE ".len()..].trim_end().parse::<usize>().unwrap() + 1];
        batch.read_exact(&mut text).unwrap();
        text.pop();
        let lines = String::from_utf8(text).map_or(vec!["fails".to_string()], |text| block(&text));
        writeln!(out, "{}\n.", lines.join("\n")).unwrap();
        header.clear();
    }
    0
}
