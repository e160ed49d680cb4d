//! The example in C, built by the C compiler that CC names, or `cc`, where this machine runs what the crate is built for.
#![cfg(at_home)]
mod page;

use page::EXAMPLE;
use std::env::{temp_dir, var};
use std::io::Write;
use std::process::{Command, Stdio, id};

/// What it prints for the example page, lowered from an id.
fn printed(program: &str, first: &str) -> String {
    let mut run = Command::new(program)
        .arg(first)
        .stdin(Stdio::piped())
        .stdout(Stdio::piped())
        .spawn()
        .unwrap();
    run.stdin.take().unwrap().write_all(EXAMPLE).unwrap();
    String::from_utf8(run.wait_with_output().unwrap().stdout).unwrap()
}

#[test]
fn slots_are_counted_by_the_layout() {
    let folder = env!("CARGO_MANIFEST_DIR");
    let program = temp_dir().join(format!("hunposeto-rows-{}", id()));
    let program = program.to_str().unwrap();
    let built = Command::new(var("CC").unwrap_or("cc".to_string()))
        .args(["-Wall", "-Werror", "-O2", &format!("-I{folder}/include")])
        .arg(format!("{folder}/examples/rows.c"))
        .arg(concat!("-L", env!("HUNPOSETO_LIB_FOLDER")))
        .args(["-lbridge", "-o", program])
        .status();
    assert!(built.expect("a C compiler").success());
    let (from_0, from_100) = (printed(program, "0"), printed(program, "100"));
    std::fs::remove_file(program).unwrap();
    let rows = "row 4, 1 ids\nrow 15, 3 ids\n";
    assert_eq!(
        from_0,
        format!("slot 0 1\nslot 1 2\nslot 2 0\nslot 3 0.5\nslot 4 1\n{rows}")
    );
    assert_eq!(
        from_100,
        format!("slot 100 1\nslot 101 2\nslot 102 0\nslot 103 0.5\nslot 104 1\n{rows}")
    );
}
