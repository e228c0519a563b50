//! The library from Rust: the table of document 01's cases 1 to 7 and 11 on table T, each pattern counted at once and
//! row by row. It prints what `dachsmond` prints as its first look.
#![no_main] // on another processor the emulator may not start Rust's runtime

use dachsmond::{
    empty_queue, old_rules, push, read_expression, read_trace, table_heading, table_line, table_total, totals,
};

const T: &[u8] = include_bytes!("cli/t.trace");
const PATTERNS: [&str; 8] = [
    "01 A",
    "01 A -> 10 B",
    "( 01 A -> 10 B ) & C",
    "01 ( A & B )",
    "'bX'b1 A",
    "?! B",
    "01 A <&> 10 B",
    "10 C & ( 01 A -> 10 B )",
];

/// How many rows answer no, yes and unknown, pushed one by one; a time is given with yes alone.
fn counted(names: usize, tree: &[u8], times: &[u64], states: &[u8]) -> [u32; 4] {
    let mut queue = empty_queue();
    let mut counts = [0; 4];
    for (row, &time) in states.chunks(names).zip(times) {
        let p = push(old_rules(), names, tree, queue, time, row);
        assert_eq!(p.number, 0);
        assert_eq!(p.given == 1, p.answer == 1);
        counts[p.answer as usize] += 1;
        queue = p.queue;
    }
    counts
}

fn show(line: &[u8], length: usize) {
    print!("{}", String::from_utf8_lossy(&line[..length]));
}

#[no_mangle]
pub extern "C" fn main() -> i32 {
    let (mut slots, mut times, mut states, mut line) = ([0; 3 * 32], [0; 6], [0; 18], [0; 200]);
    let t = read_trace(T, &mut slots, &mut times, &mut states);
    assert_eq!((t.number, t.names, t.rows), (0, 3, 6));
    let told = table_heading(&mut line);
    show(&line, told.count);
    let mut sums = [0; 3];
    for pattern in PATTERNS {
        let e = read_expression(old_rules(), &slots, pattern.as_bytes(), true);
        let tree = &e.tree[..e.len];
        let c = totals(old_rules(), t.names, t.rows, tree, &states);
        assert_eq!(counted(t.names, tree, &times, &states), [c.no, c.yes, c.unknown, 1]);
        let told = table_line(old_rules(), t.names, t.rows, tree, &states, pattern.as_bytes(), &mut line);
        show(&line, told.count);
        sums = [sums[0] + c.yes as u64, sums[1] + c.unknown as u64, sums[2] + c.no as u64];
    }
    let told = table_total(sums[0], sums[1], sums[2], 8, 5, &mut line);
    show(&line, told.count);
    0
}
