//! A driver over ezpz's textual part as it stands: driver.rs beside it is counted, tests/lowered.rs asked. What ezpz's solver would
//! give the textual part stands here instead: its types with the same fields, and no solving.
#![no_main]
#![allow(dead_code, unused)]
pub mod datatypes;
pub mod textual;
mod vector;

use datatypes::{AngleKind, inputs::*};

pub mod error {
    #[derive(Debug)]
    pub enum TextualError {
        MissingGuess { label: String },
        UnusedGuesses { labels: Vec<String> },
        UndefinedPoint { label: String },
    }
}

pub type Id = u32;

#[derive(Default, Debug)]
pub struct IdGenerator {
    next: Id,
}

impl IdGenerator {
    pub fn next_id(&mut self) -> Id {
        let id = self.next;
        self.next += 1;
        id
    }
}

#[derive(Clone, Copy, Debug, Default)]
pub struct Config;

#[derive(Clone, Debug)]
pub enum LineSide {
    Undefined,
}

#[derive(Clone, Debug)]
pub enum Constraint {
    CircleRadius(DatumCircle, f64),
    ArcRadius(DatumCircularArc, f64),
    Arc(DatumCircularArc),
    PointLineDistance(DatumPoint, DatumLineSegment, f64),
    LineTangentToCircle(DatumLineSegment, DatumCircle, LineSide),
    Fixed(Id, f64),
    Vertical(DatumLineSegment),
    PointsCoincident(DatumPoint, DatumPoint),
    PointArcCoincident(DatumCircularArc, DatumPoint),
    Midpoint(DatumLineSegment, DatumPoint),
    Symmetric(DatumLineSegment, DatumPoint, DatumPoint),
    Horizontal(DatumLineSegment),
    Distance(DatumPoint, DatumPoint, f64),
    Parallel(DatumLineSegment, DatumLineSegment),
    Perpendicular(DatumLineSegment, DatumLineSegment),
    LinesEqualLength(DatumLineSegment, DatumLineSegment),
    LinesAtAngle(DatumLineSegment, DatumLineSegment, AngleKind),
    ArcLength(DatumCircularArc, f64),
}

impl Constraint {
    pub fn lines_parallel(l: [DatumLineSegment; 2]) -> Self {
        Self::Parallel(l[0], l[1])
    }

    pub fn lines_perpendicular(l: [DatumLineSegment; 2]) -> Self {
        Self::Perpendicular(l[0], l[1])
    }

    pub fn residual_dim(&self) -> usize {
        1
    }
}

#[derive(Clone, Debug)]
pub struct ConstraintRequest(Constraint, u32);

impl ConstraintRequest {
    pub fn new(c: Constraint, priority: u32) -> Self {
        Self(c, priority)
    }

    pub fn constraint(&self) -> &Constraint {
        &self.0
    }
}

// Solving always fails, and hands back the starting values.
#[derive(Debug)]
pub struct FailureOutcome(pub Vec<(Id, f64)>);

#[derive(Debug)]
pub struct Warning;

#[derive(Debug)]
pub struct FreedomAnalysis;

pub struct NoAnalysis;

pub trait Analysis: Sized {}

impl Analysis for NoAnalysis {}

impl Analysis for FreedomAnalysis {}

pub struct SolveOutcome {
    pub iterations: usize,
    pub warnings: Vec<Warning>,
    pub final_values: Vec<f64>,
    pub unsatisfied: Vec<usize>,
    pub priority_solved: u32,
    pub converged: bool,
}

pub struct SolveOutcomeAnalysis<A> {
    pub analysis: A,
    pub outcome: SolveOutcome,
}

pub fn solve(_: &[ConstraintRequest], start: Vec<(Id, f64)>, _: Config) -> Result<SolveOutcome, FailureOutcome> {
    Err(FailureOutcome(start))
}

pub(crate) fn solve_with_priority_inner<A: Analysis>(
    _: &[ConstraintRequest],
    start: Vec<(Id, f64)>,
    _: Config,
) -> Result<SolveOutcomeAnalysis<A>, FailureOutcome> {
    Err(FailureOutcome(start))
}

#[unsafe(no_mangle)]
pub extern "C" fn main(_: i32, _: *const *const u8) -> i32 {
    textual::driver::run()
}
