//! Drawings as pages of text: read, checked, and lowered to slots, starting values and rows for a solver.
//!
//! A safe face over the static library `libbridge.a`, whose functions are proved: they end and answer for all input, and
//! refuse by a number and a place exactly where docs/FORMAT.md says so. This crate has no rules of its own. It lends
//! buffers, decodes what comes back, and gives it types.
//!
//! ```
//! let page = hunposeto::Page::read_whole(b"# constraints\npoint p\np.x = 0\n\n# guesses\np roughly (1, 2)\n")?;
//! let drawing = page.lower(0)?;
//! assert_eq!(drawing.values, [1.0, 2.0]);
//! assert_eq!(drawing.rows[0].ids(), [0]);
//! # Ok::<(), hunposeto::Refusal>(())
//! ```
mod layout;
mod raw;
mod refusal;

pub use layout::{Arc, Circle, Layout, Point, Stage};
pub use refusal::{Refusal, Why};

/// The bytes of a record, the most records of a page, and the bytes of a row.
pub const RECORD: usize = 28;
pub const MOST_RECORDS: usize = 1800;
pub const ROW: usize = 44;

/// Calls a function that fills six numbers and answers a code.
fn told(call: impl FnOnce(*mut raw::Out) -> u64) -> Result<raw::Out, Refusal> {
    let mut out = [0; 6];
    match call(&mut out) {
        0 => Ok(out),
        number => Err(Refusal {
            why: Why::of(number),
            place: out[0] as usize,
        }),
    }
}

/// What a record or a row is about.
#[derive(Clone, Copy, Debug, PartialEq, Eq)]
#[repr(u8)]
pub enum Kind {
    DeclarePoint = 1,
    DeclareCircle,
    DeclareArc,
    FixPointComponent,
    Vertical,
    Horizontal,
    Distance,
    Parallel,
    Perpendicular,
    AngleLine,
    PointsCoincident,
    PointArcCoincident,
    Midpoint,
    Symmetric,
    CircleRadius,
    Tangent,
    ArcRadius,
    FixCenterPointComponent,
    LinesEqualLength,
    IsArc,
    PointLineDistance,
    Line,
    ArcLength,
    PointGuess,
    ScalarGuess,
}

/// All kinds, by number from 1.
const KINDS: [Kind; 25] = [
    Kind::DeclarePoint,
    Kind::DeclareCircle,
    Kind::DeclareArc,
    Kind::FixPointComponent,
    Kind::Vertical,
    Kind::Horizontal,
    Kind::Distance,
    Kind::Parallel,
    Kind::Perpendicular,
    Kind::AngleLine,
    Kind::PointsCoincident,
    Kind::PointArcCoincident,
    Kind::Midpoint,
    Kind::Symmetric,
    Kind::CircleRadius,
    Kind::Tangent,
    Kind::ArcRadius,
    Kind::FixCenterPointComponent,
    Kind::LinesEqualLength,
    Kind::IsArc,
    Kind::PointLineDistance,
    Kind::Line,
    Kind::ArcLength,
    Kind::PointGuess,
    Kind::ScalarGuess,
];

impl Kind {
    fn of(number: u8) -> Kind {
        KINDS[number as usize - 1]
    }

    /// Whether its records and rows hold a number.
    pub fn has_number(self) -> bool {
        use Kind::*;
        matches!(
            self,
            FixPointComponent
                | Distance
                | AngleLine
                | CircleRadius
                | ArcRadius
                | FixCenterPointComponent
                | PointLineDistance
                | ArcLength
                | PointGuess
                | ScalarGuess
        )
    }
}

/// An angle, in the unit in which it was written.
#[derive(Clone, Copy, Debug, PartialEq)]
pub enum Angle {
    Degrees(f64),
    Radians(f64),
}

/// The eight bytes from a place on, as the bits of a number.
fn bits_at(bytes: &[u8], at: usize) -> u64 {
    u64::from_le_bytes(bytes[at..at + 8].try_into().expect("eight bytes"))
}

/// A record: one thing that was read of a page. It borrows the page's records, its labels borrow the text alone.
#[derive(Clone, Copy, Debug)]
pub struct Record<'t, 'r> {
    text: &'t [u8],
    bytes: &'r [u8],
}

impl<'t, 'r> Record<'t, 'r> {
    pub fn kind(&self) -> Kind {
        Kind::of(self.bytes[1])
    }

    /// 1 for x or degrees, 2 for y or radians, else 0.
    pub fn third(&self) -> u8 {
        self.bytes[2]
    }

    /// Its labels, each a part of the page's text.
    pub fn labels(&self) -> impl Iterator<Item = &'t str> + use<'t, 'r> {
        let record = *self;
        (0..self.bytes[3] as usize).map(move |q| record.label(q))
    }

    /// Label q, from 0; empty where there is none.
    pub fn label(&self, q: usize) -> &'t str {
        // SAFETY: both slices are lent for the call, and `out` is its own.
        let out = told(|out| unsafe {
            raw::hunposeto_label(
                self.text.as_ptr(),
                self.text.len(),
                self.bytes.as_ptr(),
                self.bytes.len(),
                q,
                out,
            )
        });
        let [start, len, ..] = out.unwrap_or_default();
        std::str::from_utf8(&self.text[start as usize..][..len as usize])
            .expect("letters, digits and a point")
    }

    /// Its numbers: none, one, or x and y of a point guess.
    pub fn numbers(&self) -> Vec<f64> {
        let bits = match self.kind() {
            Kind::PointGuess => vec![bits_at(self.bytes, 8), bits_at(self.bytes, 16)],
            Kind::ScalarGuess => vec![bits_at(self.bytes, 8)],
            kind if kind.has_number() => vec![bits_at(self.bytes, 20)],
            _ => vec![],
        };
        bits.into_iter().map(f64::from_bits).collect()
    }

    /// Its angle; a record that has none is refused.
    pub fn angle(&self) -> Result<Angle, Refusal> {
        // SAFETY: as in `label`.
        let out = told(|out| unsafe {
            raw::hunposeto_angle(
                self.text.as_ptr(),
                self.text.len(),
                self.bytes.as_ptr(),
                self.bytes.len(),
                out,
            )
        })?;
        let x = f64::from_bits(out[1]);
        Ok(if out[0] == 1 {
            Angle::Degrees(x)
        } else {
            Angle::Radians(x)
        })
    }
}

/// A page that was read: its text, its records, and where reading stopped.
#[derive(Clone, Debug)]
pub struct Page<'a> {
    text: &'a [u8],
    bytes: Vec<u8>,
    instructions: usize,
    end: usize,
}

impl<'a> Page<'a> {
    /// Reads a page, which may leave text over, as the old program does.
    pub fn read(text: &'a [u8]) -> Result<Page<'a>, Refusal> {
        // SAFETY: the slices are lent for the call and apart from one another, and `out` is its own.
        Page::by(text, |records, out| unsafe {
            raw::hunposeto_read(
                text.as_ptr(),
                text.len(),
                records.as_mut_ptr(),
                records.len(),
                out,
            )
        })
    }

    /// Reads a page that has to be the whole text.
    pub fn read_whole(text: &'a [u8]) -> Result<Page<'a>, Refusal> {
        // SAFETY: as in `read`.
        Page::by(text, |records, out| unsafe {
            raw::hunposeto_read_whole(
                text.as_ptr(),
                text.len(),
                records.as_mut_ptr(),
                records.len(),
                out,
            )
        })
    }

    fn by(
        text: &'a [u8],
        read: impl FnOnce(&mut [u8], *mut raw::Out) -> u64,
    ) -> Result<Page<'a>, Refusal> {
        let mut bytes = vec![0; MOST_RECORDS * RECORD];
        let [instructions, guesses, end, ..] =
            told(|out| read(&mut bytes, out))?.map(|n| n as usize);
        bytes.truncate((instructions + guesses) * RECORD);
        Ok(Page {
            text,
            bytes,
            instructions,
            end,
        })
    }

    /// How many of its records are instructions; the others are guesses and come after them.
    pub fn instructions(&self) -> usize {
        self.instructions
    }

    /// Where reading stopped.
    pub fn end(&self) -> usize {
        self.end
    }

    /// Its records, in the order of the text.
    pub fn records(&self) -> impl Iterator<Item = Record<'a, '_>> {
        self.bytes.chunks_exact(RECORD).map(|bytes| Record {
            text: self.text,
            bytes,
        })
    }

    /// The bytes of its records, 28 for each.
    pub fn record_bytes(&self) -> &[u8] {
        &self.bytes
    }

    /// The check of the drawing: how many shapes and rows it has.
    pub fn check(&self) -> Result<Counts, Refusal> {
        check(self.text, &self.bytes)
    }

    /// Lowers the drawing from the next id.
    pub fn lower(&self, next: u32) -> Result<Drawing, Refusal> {
        lower(self.text, &self.bytes, next)
    }
}

/// How many shapes and rows a drawing has that passes the check.
#[derive(Clone, Copy, Debug, PartialEq, Eq)]
pub struct Counts {
    pub points: usize,
    pub circles: usize,
    pub arcs: usize,
    pub rows: usize,
}

impl Counts {
    /// How many slots its shapes have.
    pub fn slots(&self) -> usize {
        layout::slots(self.points, self.circles, self.arcs)
    }
}

/// The check of records that need not come from a reading.
pub fn check(text: &[u8], records: &[u8]) -> Result<Counts, Refusal> {
    // SAFETY: as in `Page::read`.
    let out = told(|out| unsafe {
        raw::hunposeto_check(
            text.as_ptr(),
            text.len(),
            records.as_ptr(),
            records.len(),
            out,
        )
    })?;
    let [points, circles, arcs, rows, ..] = out.map(|n| n as usize);
    Ok(Counts {
        points,
        circles,
        arcs,
        rows,
    })
}

/// What must hold between slots: one row for each instruction that is no declaration.
#[derive(Clone, Copy, Debug, PartialEq, Eq)]
pub struct Row {
    bytes: [u8; ROW],
}

impl Row {
    pub fn kind(&self) -> Kind {
        Kind::of(self.bytes[1])
    }

    /// 1 for x or degrees, 2 for y or radians, else 0.
    pub fn third(&self) -> u8 {
        self.bytes[3]
    }

    /// The ids of the slots of each shape that it names, in the order of its labels.
    pub fn ids(&self) -> Vec<u32> {
        let ids = self.bytes[4..36]
            .chunks_exact(4)
            .map(|b| u32::from_le_bytes(b.try_into().expect("four bytes")));
        ids.take(self.bytes[2] as usize).collect()
    }

    /// Its number, if it has one.
    pub fn number(&self) -> Option<f64> {
        self.kind()
            .has_number()
            .then(|| f64::from_bits(bits_at(&self.bytes, 36)))
    }

    /// Its 44 bytes.
    pub fn bytes(&self) -> &[u8; ROW] {
        &self.bytes
    }
}

/// A drawing that was lowered: slot by slot its ids and starting values, and its rows.
#[derive(Clone, Debug, PartialEq)]
pub struct Drawing {
    pub layout: Layout,
    pub ids: Vec<u32>,
    pub values: Vec<f64>,
    pub rows: Vec<Row>,
    /// The next id after those given.
    pub next: u32,
}

/// Lowers records that need not come from a reading.
pub fn lower(text: &[u8], records: &[u8], next: u32) -> Result<Drawing, Refusal> {
    let counts = check(text, records)?;
    let slots = counts.slots();
    let (mut ids, mut values, mut rows) =
        (vec![0; slots], vec![0.0; slots], vec![0; counts.rows * ROW]);
    // SAFETY: as in `Page::read`.
    let out = told(|out| unsafe {
        raw::hunposeto_lower(
            text.as_ptr(),
            text.len(),
            records.as_ptr(),
            records.len(),
            next,
            ids.as_mut_ptr(),
            ids.len(),
            values.as_mut_ptr(),
            values.len(),
            rows.as_mut_ptr(),
            rows.len(),
            out,
        )
    })?;
    let rows = rows
        .chunks_exact(ROW)
        .map(|b| Row {
            bytes: b.try_into().expect("a row"),
        })
        .collect();
    Ok(Drawing {
        layout: Layout::told(out),
        ids,
        values,
        rows,
        next: out[4] as u32,
    })
}

#[cfg(test)]
mod tests {
    use super::*;

    #[test]
    fn a_code_without_a_name_is_handed_on() {
        let refusal = told(|_| 99).unwrap_err();
        assert_eq!((refusal.why, refusal.number()), (Why::Other(99), 99));
    }
}
