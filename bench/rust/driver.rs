//! Calls one of what is measured, as often as is asked, on a page: WHAT FILE CALLS. With 0 calls it prints what the page is.
//! A child of ezpz's `textual`, as `parse_problem` is private there.
use super::*;
use std::hint::black_box;

// A slice of the proved library is an address and a length, as Rust's is.
#[allow(improper_ctypes)]
unsafe extern "C" {
    fn measured_read(text: &[u8], records: &mut [u8]) -> usize;
    fn measured_check(text: &[u8], records: &[u8]) -> usize;
    fn measured_lower(text: &[u8], records: &[u8], ids: &mut [u32], values: &mut [f64], rows: &mut [u8]) -> usize;
}

// HashMap asks for random keys. A fixed answer makes the counts the same at every run; the code that runs is the same.
#[unsafe(no_mangle)]
pub unsafe extern "C" fn getrandom(buf: *mut u8, len: usize, _flags: u32) -> isize {
    for i in 0..len {
        unsafe { *buf.add(i) = (i as u8).wrapping_mul(0x9d).wrapping_add(0x35) }
    }
    len as isize
}

// One line of what both sides make of a page, which also shows that they agree.
fn tell(text: &str, records: &[u8], rows: usize) {
    let mut i = text;
    let Ok(p) = parse_problem(&mut i) else { return println!("refused") };
    let all = p.instructions.len() + p.point_guesses.len() + p.scalar_guesses.len();
    let lowered = p.to_constraint_system().map(|c| c.constraints.len()).unwrap_or(0);
    println!("{all} {} {} {lowered} {rows}", text.len() - i.len(), records.len() / 28);
}

pub fn run() -> i32 {
    let v: Vec<String> = std::env::args().collect();
    let text = std::fs::read_to_string(&v[2]).unwrap();
    let bytes = text.as_bytes();
    let calls: usize = v[3].parse().unwrap();
    let mut room = vec![0u8; 1800 * 28];
    let mut ids = vec![0u32; 10800];
    let mut values = vec![0f64; 10800];
    let mut rows = vec![0u8; 1800 * 44];
    // The records that are checked and lowered end where the bytes are no more than zeros.
    unsafe { measured_read(bytes, &mut room) };
    let n = room.chunks(28).take_while(|r| r[0] == 69).count() * 28;
    let records = room[..n].to_vec();
    if calls == 0 {
        let r = unsafe { measured_lower(bytes, &records, &mut ids, &mut values, &mut rows) };
        tell(&text, &records, r);
        return 0;
    }
    match v[1].as_str() {
        "rust-read" => {
            for _ in 0..calls {
                let mut i: &str = black_box(text.as_str());
                let p = parse_problem(&mut i);
                black_box(&p);
                black_box(i);
            }
        }
        "rust-lower" => {
            let mut i: &str = text.as_str();
            let Ok(p) = parse_problem(&mut i) else { return 1 };
            for _ in 0..calls {
                black_box(&black_box(&p).to_constraint_system());
            }
        }
        "read" => {
            for _ in 0..calls {
                black_box(unsafe { measured_read(black_box(bytes), black_box(&mut room)) });
            }
        }
        "check" => {
            for _ in 0..calls {
                black_box(unsafe { measured_check(black_box(bytes), black_box(&records)) });
            }
        }
        "lower" => {
            for _ in 0..calls {
                black_box(unsafe {
                    measured_lower(black_box(bytes), black_box(&records), black_box(&mut ids), &mut values, &mut rows)
                });
            }
        }
        _ => return 2,
    }
    0
}
