//! Times the proved engines beside plain Rust, in one run on one machine, and prints megabytes per second and the ratio.
//!
//! Both sides prepare the key and encipher 65,536 bytes in place, again and again over the same buffer. Before any timing
//! the two are compared: texts of many lengths must come out the same. Each figure is the best of many rounds, which
//! take turns, so that a machine that slows down slows both.

mod khazad;

use khazad::Khazad;
use std::time::Instant;

// What the static library of crates/timed exports. A slice crosses as a pointer and a length.
unsafe extern "C" {
    fn buzhnika_khazad_lookup_ecb(first: u64, second: u64, text: *mut u8, len: usize) -> bool;
    fn buzhnika_khazad_lookup_cbc(first: u64, second: u64, start: u64, text: *mut u8, len: usize) -> bool;
}

const FIRST: u64 = 0x0001_0203_0405_0607;
const SECOND: u64 = 0x0809_0A0B_0C0D_0E0F;
const START: u64 = 0x1234_5678_90AB_CDEF;
const BYTES: usize = 65_536;
const CALLS: usize = 50;
const ROUNDS: usize = 60;

fn proved_ecb(text: &mut [u8]) {
    // SAFETY: the pointer and the length are those of a slice that is lent for the call.
    assert!(unsafe { buzhnika_khazad_lookup_ecb(FIRST, SECOND, text.as_mut_ptr(), text.len()) });
}

fn proved_cbc(text: &mut [u8]) {
    // SAFETY: as above.
    assert!(unsafe { buzhnika_khazad_lookup_cbc(FIRST, SECOND, START, text.as_mut_ptr(), text.len()) });
}

fn plain_ecb(text: &mut [u8]) {
    Khazad::new(FIRST, SECOND).ecb(text);
}

fn plain_cbc(text: &mut [u8]) {
    Khazad::new(FIRST, SECOND).cbc(START, text);
}

/// Seconds for some calls over the buffer.
fn timed(call: fn(&mut [u8]), text: &mut [u8]) -> f64 {
    let begin = Instant::now();
    for _ in 0..CALLS {
        call(text);
    }
    begin.elapsed().as_secs_f64()
}

fn same_answers(proved: fn(&mut [u8]), plain: fn(&mut [u8])) -> bool {
    (0..=BYTES / 8).step_by(97).all(|blocks| {
        let text: Vec<u8> = (0..8 * blocks).map(|i| (i * i + 7 * i) as u8).collect();
        let (mut ours, mut theirs) = (text.clone(), text);
        proved(&mut ours);
        plain(&mut theirs);
        ours == theirs
    })
}

fn compare(name: &str, proved: fn(&mut [u8]), plain: fn(&mut [u8])) {
    assert!(same_answers(proved, plain), "{name}: the two sides differ");
    let mut text = vec![0; BYTES];
    let (mut ours, mut theirs) = (f64::MAX, f64::MAX);
    for _ in 0..ROUNDS {
        ours = ours.min(timed(proved, &mut text));
        theirs = theirs.min(timed(plain, &mut text));
    }
    let speed = |seconds: f64| (BYTES * CALLS) as f64 / seconds / 1e6;
    println!("{name:<28} {:>8.1} {:>8.1} {:>7.3}", speed(ours), speed(theirs), ours / theirs);
}

fn main() {
    println!("{:<28} {:>8} {:>8} {:>7}", "megabytes per second", "proved", "plain", "ratio");
    compare("khazad-lookup ecb-encipher", proved_ecb, plain_ecb);
    compare("khazad-lookup cbc-encipher", proved_cbc, plain_cbc);
}
