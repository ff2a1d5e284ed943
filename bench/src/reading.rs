//! Reading a long instance text against splitting it into numbers in ordinary Rust.

use crate::numbers::best_of;
use std::fmt::Write;

unsafe extern "C" {
    fn bsss_bench_read(text: *const u8, length: usize) -> usize;
}

/// How many points a text says.
fn read(text: &str) -> usize {
    // SAFETY: the pointer goes with its length, and the call only reads.
    unsafe { bsss_bench_read(text.as_ptr(), text.len()) }
}

/// The sum of the numbers of a text.
#[inline(never)]
fn std_split(text: &str) -> i64 {
    text.lines()
        .flat_map(|line| line.split_ascii_whitespace())
        .filter_map(|word| word.parse::<i64>().ok())
        .fold(0, i64::wrapping_add)
}

/// The 64 vertices of a polygon on a parabola.
fn polygon(text: &mut String, word: &str, x: i64, y: i64) {
    text.push_str(word);
    for k in -32..32 {
        write!(text, " {:030} {:030}", x + k, y + k * k).unwrap();
    }
    text.push('\n');
}

/// An instance with as many points, polygons and vertices as may be, its numbers filled with zeros to 30 digits.
fn longest_text() -> String {
    let mut text = String::from("siting 1\nkind sum\n");
    for k in 0..4096 {
        writeln!(text, "point {:030} {:030} {:030}", 244 * k - 500_000, 500_000 - 244 * k, 1 + k % 3906).unwrap();
    }
    for (word, y) in [("permit", -900_000), ("forbid", 900_000)] {
        for k in 0..64 {
            polygon(&mut text, word, 20_000 * k - 640_000, y);
        }
    }
    text + "end\n"
}

pub fn measure() {
    let text = longest_text();
    assert_eq!(read(&text), 4096);
    println!("reading {} bytes with 4,096 points and 128 polygons of 64 vertices, us: ours, split into numbers", text.len());
    let our_time = best_of(20, &[()], |()| read(&text) as u64) / 1000.0;
    let their_time = best_of(20, &[()], |()| std_split(&text) as u64) / 1000.0;
    println!("  {our_time:.0}, {their_time:.0}");
}
