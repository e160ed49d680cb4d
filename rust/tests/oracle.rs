//! The reading against the old program's, on pages made here. HUNPOSETO_ORACLE names a program that runs the old
//! `parse_problem` on a batch (`CASE n`, then n bytes and a new line, over and over) and lists what it read. Without it
//! the test says so and passes over.
use hunposeto::{Kind, Page, Record};
use std::io::Write;
use std::process::{Command, Stdio};

/// The lines that pages are made of, some of them wrong.
const LINES: [&str; 32] = [
    "point p",
    "circle c",
    "arc a",
    "pointq",
    "p.x = 0",
    "p.y = -1.5e3",
    "c.center.x = .5",
    "p = (1, 2)",
    "c.center = (1,2)",
    "horizontal(p, q )",
    "vertical( p,q)",
    "coincident(p , q)",
    "point_arc_coincident(p, a)",
    "midpoint(p, q, r)",
    "symmetric(p, q, r, s)",
    "distance(p, q, sqrt(2))",
    "parallel(p, q, r, s)",
    "perpendicular(p, q, r, s)",
    "lines_at_angle(p, q, r, s, 90deg)",
    "lines_at_angle(p, q, r, s, -0rad)",
    "radius(c, sqrt(sqrt(-4)))",
    "tangent(p, q, c)",
    "arc_radius(a, 1e22)",
    "arc_length(a, 3)",
    "is_arc(a)",
    "point_line_distance(p, q, r, 4 )",
    "line(p, q)",
    "lines_equal_length(p, q, r, s)",
    "line(p, q )",
    "pointer = (1, 2)",
    "",
    "p.x = ",
];
const GUESSES: [&str; 6] = [
    "p roughly (1, 2)",
    "c.center roughly (0,.5)",
    "c.radius roughly 1",
    "  a.a roughly ( 1, 2)",
    "p roughly",
    "x roughly (1 ,2)",
];

/// The next number of a fixed row of numbers.
fn next(state: &mut u64) -> usize {
    *state = state
        .wrapping_mul(6364136223846793005)
        .wrapping_add(1442695040888963407);
    (*state >> 33) as usize
}

fn page(state: &mut u64) -> String {
    let mut text = String::from("# constraints\n");
    let good = if next(state).is_multiple_of(2) {
        LINES.len() - 4
    } else {
        LINES.len()
    };
    let lines: Vec<_> = (0..=next(state) % 8)
        .map(|_| LINES[next(state) % good])
        .collect();
    let guesses: Vec<_> = (0..=next(state) % 4)
        .map(|_| GUESSES[next(state) % GUESSES.len()])
        .collect();
    text += &lines.join("\n");
    text += "\n\n#guesses\n";
    text += &guesses.join("\n");
    text
}

/// A record as the oracle lists it.
fn line(record: &Record) -> String {
    let mut words = vec![(record.kind() as u8).to_string()];
    words.extend(record.labels().map(str::to_string));
    let third = match (record.kind(), record.third()) {
        (_, 0) => None,
        (Kind::AngleLine, 1) => Some("deg"),
        (Kind::AngleLine, _) => Some("rad"),
        (_, 1) => Some("x"),
        _ => Some("y"),
    };
    words.extend(third.map(str::to_string));
    words.extend(record.numbers().iter().map(|x| {
        format!(
            "{:016x}",
            if x.is_nan() {
                0x7ff8000000000000
            } else {
                x.to_bits()
            }
        )
    }));
    words.join(" ")
}

/// What the oracle says of a page that reads to this.
fn block(page: &Page) -> String {
    let of = |kind: Kind| {
        page.records()
            .filter(|r| r.kind() == kind)
            .map(|r| line(&r))
            .collect::<Vec<_>>()
    };
    let (points, scalars) = (of(Kind::PointGuess), of(Kind::ScalarGuess));
    let mut lines = vec![format!(
        "ok instructions {} points {} scalars {} end {}",
        page.instructions(),
        points.len(),
        scalars.len(),
        page.end()
    )];
    lines.extend(page.records().take(page.instructions()).map(|r| line(&r)));
    lines.extend(points);
    lines.extend(scalars);
    lines.join("\n")
}

#[test]
fn as_the_oracle_reads() {
    let Ok(oracle) = std::env::var("HUNPOSETO_ORACLE") else {
        eprintln!("HUNPOSETO_ORACLE is not set: nothing is compared with the old program");
        return;
    };
    let mut state = 1;
    let pages: Vec<String> = (0..20_000).map(|_| page(&mut state)).collect();
    let batch: String = pages
        .iter()
        .map(|p| format!("CASE {}\n{p}\n", p.len()))
        .collect();
    let mut child = Command::new(oracle)
        .stdin(Stdio::piped())
        .stdout(Stdio::piped())
        .spawn()
        .unwrap();
    let mut stdin = child.stdin.take().unwrap();
    let writer = std::thread::spawn(move || stdin.write_all(batch.as_bytes()).unwrap());
    let answers = String::from_utf8(child.wait_with_output().unwrap().stdout).unwrap();
    writer.join().unwrap();
    let blocks: Vec<_> = answers.split_terminator("\n.\n").collect();
    assert_eq!(blocks.len(), pages.len());
    let mut read = 0;
    for (text, theirs) in pages.iter().zip(blocks) {
        match Page::read(text.as_bytes()) {
            Ok(page) => {
                assert_eq!(block(&page), theirs, "{text}");
                read += 1;
            }
            Err(refusal) => assert!(
                theirs == "fail" && (3..=7).contains(&refusal.number()),
                "{text}\n{refusal}\n{theirs}"
            ),
        }
    }
    eprintln!("{} pages compared, {read} of them read", pages.len());
}
