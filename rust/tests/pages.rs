//! The example page of docs/FORMAT.md, and layouts.
mod page;

use hunposeto::{Angle, Arc, Circle, Kind, Layout, Page, Point, Refusal, Stage, Why};
use page::EXAMPLE;

#[test]
fn the_example_reads() {
    let page = Page::read_whole(EXAMPLE).unwrap();
    assert_eq!(
        (page.instructions(), page.records().count(), page.end()),
        (4, 7, 125)
    );
    let records: Vec<_> = page
        .records()
        .map(|r| {
            (
                r.kind() as u8,
                r.labels().collect::<Vec<_>>().join(" "),
                r.third(),
                r.numbers(),
            )
        })
        .collect();
    let expected = [
        (1, "p", 0, vec![]),
        (4, "p", 1, vec![0.0]),
        (2, "c", 0, vec![]),
        (15, "c", 0, vec![2.0]),
        (24, "p", 0, vec![1.0, 2.0]),
        (24, "c.center", 0, vec![0.0, 0.5]),
        (25, "c.radius", 0, vec![1.0]),
    ];
    assert_eq!(
        records,
        expected.map(|(k, l, t, n)| (k, l.to_string(), t, n))
    );
}

#[test]
fn the_example_is_lowered() {
    let page = Page::read_whole(EXAMPLE).unwrap();
    let counts = page.check().unwrap();
    assert_eq!(
        (counts.points, counts.circles, counts.arcs, counts.rows),
        (1, 1, 0, 2)
    );
    let drawing = page.lower(7).unwrap();
    assert_eq!(drawing.ids, [7, 8, 9, 10, 11]);
    assert_eq!(drawing.values, [1.0, 2.0, 0.0, 0.5, 1.0]);
    assert_eq!((drawing.layout.stage, drawing.next), (Stage::Done, 12));
    let rows: Vec<_> = drawing
        .rows
        .iter()
        .map(|r| (r.kind(), r.third(), r.ids(), r.number()))
        .collect();
    assert_eq!(
        rows,
        [
            (Kind::FixPointComponent, 1, vec![7], Some(0.0)),
            (Kind::CircleRadius, 0, vec![9, 10, 11], Some(2.0))
        ]
    );
    let circle = Circle {
        center: Point { x: 0.0, y: 0.5 },
        radius: 1.0,
    };
    assert_eq!(drawing.layout.circle(&drawing.values, 0), Ok(circle));
    assert_eq!(
        drawing.layout.point(&drawing.values, 1).unwrap_err().why,
        Why::NoShape
    );
}

#[test]
fn refusals_have_numbers_places_and_words() {
    let empty = Page::read(b"").unwrap_err();
    assert_eq!((empty.number(), empty.place), (3, 0));
    let left = Page::read_whole(&[EXAMPLE, b"z"].concat()).unwrap_err();
    assert_eq!(left.to_string(), "text is left over (10), at byte 125");
    assert_eq!(Page::read(&[EXAMPLE, b"z"].concat()).unwrap().end(), 125);
    let text = b"# constraints\npoint p\npoint p\n\n# guesses\np roughly (1, 2)\n";
    let twice = Page::read_whole(text).unwrap().check().unwrap_err();
    assert_eq!(
        twice.to_string(),
        "a label is declared twice (31), at record 1"
    );
    assert_eq!(
        hunposeto::check(b"", b"").unwrap_err().why,
        Why::NotWellFormed
    );
    assert_eq!(
        Page::read_whole(EXAMPLE)
            .unwrap()
            .lower(u32::MAX - 2)
            .unwrap_err()
            .to_string(),
        "fewer ids are left than there are slots (36)"
    );
}

#[test]
fn a_label_outlives_its_page() {
    let text = EXAMPLE.to_vec();
    let (first, all) = {
        let page = Page::read_whole(&text).unwrap();
        let record = page.records().last().unwrap();
        (record.label(0), record.labels().collect::<Vec<_>>())
    };
    assert_eq!((first, all), ("c.radius", vec!["c.radius"]));
    assert_eq!(
        first.as_ptr() as usize - text.as_ptr() as usize,
        EXAMPLE.len() - "c.radius roughly 1\n".len()
    );
}

#[test]
fn every_refusal_has_words_and_a_place_if_it_means_one() {
    for number in (1..=12).chain(20..=25).chain(30..=38) {
        let why = Why::of(number);
        assert_eq!(why.number(), number);
        assert!(!matches!(why, Why::Other(_)));
        let place = match number {
            2..=10 => ", at byte 7",
            30..=35 => ", at record 7",
            _ => "",
        };
        assert_eq!(
            Refusal { why, place: 7 }.to_string(),
            format!("{why} ({number}){place}")
        );
    }
    let long = vec![b' '; 32_769];
    assert_eq!(
        Page::read(&long).unwrap_err().to_string(),
        "the text has over 32,768 bytes (1)"
    );
}

#[test]
fn a_number_without_a_name_is_kept() {
    for number in [0, 13, 26, 39, u64::MAX] {
        let why = Why::of(number);
        assert_eq!((why, why.number()), (Why::Other(number), number));
    }
    assert_eq!(
        Refusal {
            why: Why::of(39),
            place: 0
        }
        .to_string(),
        "a refusal that has no name here (39)"
    );
}

/// All names there are. More may come, so that the last arm is reached; else the compiler says no here.
#[deny(unreachable_patterns)]
#[rustfmt::skip]
fn has_a_name(why: Why) -> bool {
    use Why::*;
    match why {
        TextTooLong | HighByte | NoConstraintsHeading | NoInstruction | NoTwoNewLines | NoGuessesHeading | NoGuess
        | NumberNotCarried | NinthRoot | TextLeft | TooManyRecords | RecordsShort | LayoutImpossible | WrongStage | Full
        | SliceShort | NoIdsLeft | NoShape | NotWellFormed | DeclaredTwice | WrongLabel | NoSuchPart | GuessedTwice
        | WithoutGuess | FewIdsLeft | SlicesShort | RowsShort => true,
        Other(_) => false,
        _ => false,
    }
}

#[test]
fn names_may_be_added() {
    assert!(has_a_name(Why::RowsShort) && !has_a_name(Why::Other(39)));
}

#[test]
fn slots_never_overflow() {
    let of = |points, circles, arcs| Layout {
        points,
        circles,
        arcs,
        stage: Stage::Done,
    };
    assert_eq!(of(1, 1, 1).slots(), 11);
    assert_eq!(of(4000, 4000, 4000).slots(), 44_000);
    let most = usize::MAX;
    for l in [
        of(most, 0, 0),
        of(0, most, 0),
        of(0, 0, most),
        of(most, most, most),
        of(most / 2, 1, 0),
    ] {
        assert_eq!(l.slots(), most);
        assert_eq!(l.point(&[], 0).unwrap_err().why, Why::LayoutImpossible);
    }
}

#[test]
fn every_nan_comes_back_as_one() {
    let (mut ids, mut values) = ([0; 2], [0.0; 2]);
    let p = Point {
        x: f64::from_bits(0xfff8000000000001),
        y: f64::from_bits(0x7ff0000000000001),
    };
    let (l, _) = Layout::EMPTY
        .push_point(0, &mut ids, &mut values, p)
        .unwrap();
    let read = l.point(&values, 0).unwrap();
    assert_eq!(
        (read.x.to_bits(), read.y.to_bits()),
        (0x7ff8000000000000, 0x7ff8000000000000)
    );
}

#[test]
fn records_and_rows_keep_the_bits_of_a_nan() {
    let text = b"# constraints\npoint p\np.x = 0\n\n# guesses\np roughly (1, 2)\n";
    let other = 0xfff8000000000001_u64;
    let mut records = Page::read_whole(text).unwrap().record_bytes().to_vec();
    records[28 + 20..][..8].copy_from_slice(&other.to_le_bytes());
    records[2 * 28 + 8..][..8].copy_from_slice(&other.to_le_bytes());
    let drawing = hunposeto::lower(text, &records, 0).unwrap();
    assert_eq!(drawing.rows[0].bytes()[36..], other.to_le_bytes());
    assert!(drawing.values[0].is_nan());
    let read = drawing.layout.point(&drawing.values, 0).unwrap();
    assert_eq!(read.x.to_bits(), 0x7ff8000000000000);
}

#[test]
fn angles_keep_their_unit() {
    let text = b"#constraints\nlines_at_angle(a, b, c, d, 90deg)\nlines_at_angle(a, b, c, d, 1.5rad)\npoint a\n\n#guesses\na roughly (0,0)";
    let page = Page::read(text).unwrap();
    let angles: Vec<_> = page.records().map(|r| r.angle()).collect();
    assert_eq!(
        angles[..2],
        [Ok(Angle::Degrees(90.0)), Ok(Angle::Radians(1.5))]
    );
    assert_eq!(angles[2].unwrap_err().why, Why::NotWellFormed);
}

#[test]
fn pushes_fill_slots() {
    let (mut ids, mut values) = ([0; 11], [0.0; 11]);
    let (l, next) = Layout::EMPTY
        .push_point(5, &mut ids, &mut values, Point { x: 1.0, y: 2.0 })
        .unwrap();
    assert_eq!(
        l.push_circle(
            next,
            &mut ids,
            &mut values,
            Circle {
                center: Point { x: 3.0, y: 4.0 },
                radius: 5.0
            }
        )
        .unwrap_err()
        .why,
        Why::WrongStage
    );
    let l = l.done().unwrap();
    let (l, next) = l
        .push_circle(
            next,
            &mut ids,
            &mut values,
            Circle {
                center: Point { x: 3.0, y: 4.0 },
                radius: 5.0,
            },
        )
        .unwrap();
    let l = l.done().unwrap();
    let arc = Arc {
        a: Point { x: 6.0, y: 7.0 },
        b: Point { x: 8.0, y: 9.0 },
        center: Point { x: 10.0, y: 11.0 },
    };
    let (l, next) = l.push_arc(next, &mut ids, &mut values, arc).unwrap();
    let l = l.done().unwrap();
    assert_eq!((l.slots(), next, l.stage), (11, 16, Stage::Done));
    assert_eq!(ids, [5, 6, 7, 8, 9, 10, 11, 12, 13, 14, 15]);
    assert_eq!(
        values,
        [1.0, 2.0, 3.0, 4.0, 5.0, 6.0, 7.0, 8.0, 9.0, 10.0, 11.0]
    );
    assert_eq!(l.arc(&values, 0), Ok(arc));
    assert_eq!(l.point_ids(&ids, 0), Ok(Point { x: 5, y: 6 }));
    assert_eq!(l.circle_ids(&ids, 0).unwrap().radius, 9);
    assert_eq!(l.arc_slot_ids(&ids, 0).unwrap().a, Point { x: 10, y: 11 });
    assert_eq!(l.arc_ids(&ids, 0).unwrap().a, Point { x: 7, y: 8 });
    assert_eq!(l.done().unwrap_err().why, Why::WrongStage);
    let impossible = Layout {
        points: 4001,
        ..Layout::EMPTY
    };
    assert_eq!(impossible.done().unwrap_err().why, Why::LayoutImpossible);
}
