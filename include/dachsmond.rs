//! Dachsmond for Rust: each call of include/dachsmond.h with slices in place of pointers and lengths, so that lent
//! memory is good memory, and what a call writes to overlaps nothing else. A `number` of 0 is done; another is
//! document 01's number of the refusal, with its place; then all lent memory is as it was and the other fields are 0,
//! but a queue, which is the one handed in.
//!
//! Names are slots of 32 bytes, filled with zeros behind the name. States are codes 0 to 7 for 0 1 X H L W Z U, row by
//! row. A time is a u64. A tree is the bytes of an expression, one a node, operands before their operator. A call takes less than 256 KB
//! of stack; the proofs say nothing of that, and tests/stack measures it and reckons it from the object code.
//!
//! It is built beside libdachsmond.a (`rt lib` in crates/dachsmond_c, x86-64), as tests/rust-example does.

/// The rules, which every call that reads, rewrites or evaluates takes; hold them fixed through a trace and its
/// corrections, and hand a tree to the calls under the rules by which it was read.
/// equal_branches: `c ? a : b` with c unknown has the value of its branches where both have the same; else it is X.
/// steady_pins: a vector expression is read with its steady pins (document 02, [2]); limit 8, its alternatives, refusal
/// 10 and every answer are those of the expression so filled. The tree is that of the text; else it is read as written.
#[repr(C)]
#[derive(Clone, Copy, Debug)]
pub struct Rules {
    pub equal_branches: bool,
    pub steady_pins: bool,
}

/// What came of a call: done, with a count of what it made, or refused.
#[repr(C)]
#[derive(Clone, Copy, Debug)]
pub struct Told {
    pub number: u8,
    pub place: usize,
    pub count: usize,
}

/// The first `len` entries of `tree`, with zeros behind them, or refused. `extent` is how many bytes are refused from the
/// place on: for 5, 6 and 7 the token's, for 2 those up to the next blank or the text's end. It is 0 where the place is the
/// text's end, for every other number, and where nothing is refused.
#[repr(C)]
#[derive(Clone, Copy, Debug)]
pub struct Expression {
    pub number: u8,
    pub place: usize,
    pub extent: usize,
    pub len: usize,
    pub tree: [u8; 256],
}

/// How many names and rows were read, or refused.
#[repr(C)]
#[derive(Clone, Copy, Debug)]
pub struct Trace {
    pub number: u8,
    pub place: usize,
    pub names: usize,
    pub rows: usize,
}

/// The changed variables of a row, bit i for name i, and how many they are, or refused.
#[repr(C)]
#[derive(Clone, Copy, Debug)]
pub struct Changed {
    pub number: u8,
    pub place: usize,
    pub mask: u32,
    pub many: u32,
}

/// The answer at a row, 0 no, 1 yes, 2 unknown, 3 no event, or refused.
#[repr(C)]
#[derive(Clone, Copy, Debug)]
pub struct Answered {
    pub number: u8,
    pub place: usize,
    pub answer: u8,
}

/// The same, the number of alternatives tried, and where the match began (document 02, [12]): the time of the first
/// row of the window of the first alternative in order that answers yes. `given` is 1 where that time is given, which
/// is with yes alone; with every other answer `given` and `began` are 0.
#[repr(C)]
#[derive(Clone, Copy, Debug)]
pub struct Matched {
    pub number: u8,
    pub place: usize,
    pub answer: u8,
    pub tries: u32,
    pub given: u8,
    pub began: u64,
}

/// How many rows answer yes, no and unknown, or refused.
#[repr(C)]
#[derive(Clone, Copy, Debug)]
pub struct Counted {
    pub number: u8,
    pub place: usize,
    pub yes: u32,
    pub no: u32,
    pub unknown: u32,
}

/// How many rows a queue keeps, their states and their times, oldest first, with zeros behind them.
#[repr(C)]
#[derive(Clone, Copy, Debug)]
pub struct Queue {
    pub kept: u32,
    pub states: [u8; 512],
    pub times: [u64; 16],
}

/// The answer of the row pushed, the number tried and where its match began, or refused; and the queue then, refused
/// the one handed in.
#[repr(C)]
#[derive(Clone, Copy, Debug)]
pub struct Pushed {
    pub number: u8,
    pub place: usize,
    pub answer: u8,
    pub tries: u32,
    pub given: u8,
    pub began: u64,
    pub queue: Queue,
}

#[link(name = "dachsmond", kind = "static")]
extern "C" {}

/// Declares the function of C and gives it with slices: a list is handed to C as its pointer and its length.
macro_rules! calls {
    ($($(#[$doc:meta])* $f:ident = $c:ident($($parameter:tt)*) -> $r:ty;)*) => {
        $(calls!(@ [$(#[$doc])*] $f $c $r; [] [] []; $($parameter)*,);)*
    };
    (@ [$($doc:tt)*] $f:ident $c:ident $r:ty; [$($with:tt)*] [$($as_c:tt)*] [$($handed:tt)*]; $(,)?) => {
        $($doc)*
        pub fn $f($($with)*) -> $r {
            extern "C" {
                fn $c($($as_c)*) -> $r;
            }
            unsafe { $c($($handed)*) }
        }
    };
    (@ $doc:tt $f:ident $c:ident $r:ty; [$($with:tt)*] [$($as_c:tt)*] [$($handed:tt)*];
        $p:ident: &[$t:ty], $($more:tt)*) => {
        calls!(@ $doc $f $c $r; [$($with)* $p: &[$t],] [$($as_c)* $p: *const $t, _: usize,]
            [$($handed)* $p.as_ptr(), $p.len(),]; $($more)*);
    };
    (@ $doc:tt $f:ident $c:ident $r:ty; [$($with:tt)*] [$($as_c:tt)*] [$($handed:tt)*];
        $p:ident: &mut [$t:ty], $($more:tt)*) => {
        calls!(@ $doc $f $c $r; [$($with)* $p: &mut [$t],] [$($as_c)* $p: *mut $t, _: usize,]
            [$($handed)* $p.as_mut_ptr(), $p.len(),]; $($more)*);
    };
    (@ $doc:tt $f:ident $c:ident $r:ty; [$($with:tt)*] [$($as_c:tt)*] [$($handed:tt)*];
        $p:ident: $t:ty, $($more:tt)*) => {
        calls!(@ $doc $f $c $r; [$($with)* $p: $t,] [$($as_c)* $p: $t,] [$($handed)* $p,]; $($more)*);
    };
}

calls! {
    /// The version of the library, 65536 * major + 256 * minor: 4.1 is 262400.
    version = dachsmond_version() -> u32;

    /// How many names a list of names holds: 18, 12.
    check_names = dachsmond_check_names(names: &[u8]) -> Told;

    /// The expression that a text is, as a tree over a list of names, for the sort asked for: 18, 12, 1 to 8. With steady
    /// pins 8 counts the tests that they add.
    read_expression = dachsmond_read_expression(rules: Rules, names: &[u8], text: &[u8],
        vector: bool) -> Expression;

    /// The text of a tree, with only needed brackets, at the front of `out`; its length: 18, 12, 10, 1, 9. It takes no
    /// rules: what was read is written, without steady pins, and 10 is by document 01's rules.
    write_expression = dachsmond_write_expression(names: &[u8], tree: &[u8], vector: bool, out: &mut [u8]) -> Told;

    /// Document 01's rules, those of every table made before version 2.0.
    old_rules = dachsmond_old_rules() -> Rules;

    /// A trace file into three lists, names in slots, times, and states: 11 to 17, then 9 for the first short list.
    read_trace = dachsmond_read_trace(file: &[u8], names: &mut [u8], times: &mut [u64], states: &mut [u8]) -> Trace;

    /// The file of a trace of n rows at the front of `out`; its length: 18, 12, 13 and 15 row by row, 9.
    write_trace = dachsmond_write_trace(names: &[u8], times: &[u64], states: &[u8], n: usize,
        out: &mut [u8]) -> Told;

    /// The changes of a row of a trace of n rows and so many names; row 0 has none: 18, 15, 19.
    changes_at = dachsmond_changes_at(names: usize, n: usize, states: &[u8], row: u32) -> Changed;

    /// The state of a boolean tree at a row, as the count told: 18, 10, 15, 19.
    row_state = dachsmond_row_state(rules: Rules, names: usize, n: usize, tree: &[u8], states: &[u8],
        row: u32) -> Told;

    /// The value of a boolean tree at a row, as the count told: 18, 10, 15, 19.
    row_value = dachsmond_row_value(rules: Rules, names: usize, n: usize, tree: &[u8], states: &[u8],
        row: u32) -> Told;

    /// The values of a boolean tree at all n rows into a list of exactly n; how many: 18, 10, 15.
    values = dachsmond_values(rules: Rules, names: usize, n: usize, tree: &[u8], states: &[u8],
        out: &mut [u8]) -> Told;

    /// The answer of a vector tree at a row, the greatest over all windows that end there: 18, 10, 15, 19. It is worked
    /// out as the tree is written, on windows of at most 16 events, so its cost does not grow with the row; the states
    /// are all looked through once for 15.
    row_answer = dachsmond_row_answer(rules: Rules, names: usize, n: usize, tree: &[u8], states: &[u8],
        row: u32) -> Answered;

    /// The answer of a vector tree on the window of rows a to b; a window without an event answers no, and so does one
    /// of more events than the tree's longest alternative has steps: 18, 10, 15, 19. It costs no more than a row's
    /// answer.
    window_answer = dachsmond_window_answer(rules: Rules, names: usize, n: usize, tree: &[u8], states: &[u8], a: u32,
        b: u32) -> Answered;

    /// The answer of a vector tree at a row by its alternatives, how many of them were tried, and where the match
    /// began. The times of all n rows, exactly n of them, are handed in: 18, 10, 15, 13 at the first row whose time is
    /// not above that of the row before, 19.
    match_row = dachsmond_match_row(rules: Rules, names: usize, n: usize, tree: &[u8], times: &[u64], states: &[u8],
        row: u32) -> Matched;

    /// The same of all n rows into four lists of exactly n: the answers, the numbers tried, a flag for each row, 1
    /// where a time is given and else 0, and these times, 0 where none is; how many: 18, 10, 15, 13.
    match_all = dachsmond_match_all(rules: Rules, names: usize, n: usize, tree: &[u8], times: &[u64], states: &[u8],
        answers: &mut [u8], tried: &mut [u32], given: &mut [u8], began: &mut [u64]) -> Told;

    /// How many of the n rows answer yes, no and unknown, together n - 1: 18, 10, 15.
    totals = dachsmond_totals(rules: Rules, names: usize, n: usize, tree: &[u8], states: &[u8]) -> Counted;

    /// The alternatives of a vector tree into four lists: steps of each alternative, tests of each step, and for
    /// each test its edge's number and where its operand ends in the tree; how many alternatives: 18, 10, 9. With
    /// steady pins their tests `?-` are among these, each with a name in the tree as its operand.
    rewrite = dachsmond_rewrite(rules: Rules, names: usize, tree: &[u8], steps: &mut [u8], tests: &mut [u8],
        edges: &mut [u8], operands: &mut [u16]) -> Told;

    /// A flag for each alternative of a vector tree, 1 where it is contradictory, else 0; how many: 18, 10, 9.
    contradictions = dachsmond_contradictions(rules: Rules, names: usize, tree: &[u8], flags: &mut [u8]) -> Told;

    /// The new states become the row, and the answers from it on that can depend on it are written anew: 18, 10,
    /// 15, 19.
    correct = dachsmond_correct(rules: Rules, names: usize, n: usize, tree: &[u8], states: &mut [u8],
        answers: &mut [u8],
        row: u32, new_states: &[u8]) -> Told;

    /// A queue before the first push.
    empty_queue = dachsmond_empty_queue() -> Queue;

    /// One row more, with its time: its answer, how many alternatives were tried, where its match began, and the queue
    /// with the row in it: 18, 10 also for times of the queue that do not rise, 15, and 13 at 0 for a time that is not
    /// above that of the last row kept.
    push = dachsmond_push(rules: Rules, names: usize, tree: &[u8], queue: Queue, time: u64, row: &[u8]) -> Pushed;

    /// How many alternatives are handed in, lists as `rewrite` writes them and of exactly as many entries as they say,
    /// over the tree in which their operands end, where they are accepted: 18, 10. What is asked is what is handed in:
    /// the calls over such lists add no steady pins.
    listed_fits = dachsmond_listed_fits(names: usize, tree: &[u8], steps: &[u8], tests: &[u8], edges: &[u8],
        operands: &[u16]) -> Told;

    /// The answer of such lists at a row, how many of them were tried, and where the match began: 18, 10, 15, 13, 19.
    listed_match_row = dachsmond_listed_match_row(rules: Rules, names: usize, n: usize, tree: &[u8],
        steps: &[u8], tests: &[u8], edges: &[u8], operands: &[u16], times: &[u64], states: &[u8],
        row: u32) -> Matched;

    /// The same of all n rows into four lists of exactly n, as `match_all` has them; how many: 18, 10, 15, 13.
    listed_match_all = dachsmond_listed_match_all(rules: Rules, names: usize, n: usize, tree: &[u8],
        steps: &[u8], tests: &[u8], edges: &[u8], operands: &[u16], times: &[u64], states: &[u8],
        answers: &mut [u8], tried: &mut [u32], given: &mut [u8], began: &mut [u64]) -> Told;

    /// How many of the n rows such lists answer with yes, no and unknown, together n - 1: 18, 10, 15.
    listed_totals = dachsmond_listed_totals(rules: Rules, names: usize, n: usize, tree: &[u8], steps: &[u8],
        tests: &[u8],
        edges: &[u8], operands: &[u16], states: &[u8]) -> Counted;

    /// One row more for such lists, with its time: their answer, how many of them were tried, where its match began,
    /// and the queue with the row in it: 18, 10, 15, 13.
    listed_push = dachsmond_listed_push(rules: Rules, names: usize, tree: &[u8], steps: &[u8], tests: &[u8],
        edges: &[u8], operands: &[u16], queue: Queue, time: u64, row: &[u8]) -> Pushed;

    /// The listing of the answers of a vector tree at all n rows, a line for each with its time and a last line with
    /// the totals, at the front of `out`; its length: 18, 10, 15, 9.
    list = dachsmond_list(rules: Rules, names: usize, n: usize, tree: &[u8], times: &[u64], states: &[u8],
        out: &mut [u8]) -> Told;

    /// The line of the table's heading at the front of `out`; its length: 9.
    table_heading = dachsmond_table_heading(out: &mut [u8]) -> Told;

    /// The line of a pattern with the totals of its vector tree on n rows, at the front of `out`; its length: 18, 10,
    /// 15, 9. The pattern stands there as it is handed in, but a byte of it below 32 is shown as a space.
    table_line = dachsmond_table_line(rules: Rules, names: usize, n: usize, tree: &[u8], states: &[u8], pattern: &[u8],
        out: &mut [u8]) -> Told;

    /// The line of a pattern that was refused with a number at a place, at the front of `out`; its length: 9.
    table_refused = dachsmond_table_refused(pattern: &[u8], number: u8, place: usize, out: &mut [u8]) -> Told;

    /// The line of the sums over so many patterns on a trace of so many events, which the program that counted them
    /// hands in, at the front of `out`; its length: 9.
    table_total = dachsmond_table_total(yes: u64, unknown: u64, no: u64, patterns: u64, events: u64,
        out: &mut [u8]) -> Told;
}
