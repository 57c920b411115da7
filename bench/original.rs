//! The original's side of the benchmark: its functions, chosen and called again and again. `run` puts this file beside the modules
//! of the folder that it is given. The inputs are those of `through_c.c` and of crates/bench/src/tasks.rs.
//!
//! Given a count, it prints for each task a line `name TAB nanoseconds TAB count TAB sum`; given a name behind it, for that task.
use crate::func::builtin::get_builtin_binary_op_fn;
use crate::func::native::NativeCallContext;
use crate::types::Token;
use crate::{Dynamic, Engine, INT};
use std::hint::black_box;
use std::time::Instant;

const OPS: [&str; 19] = [
    "+", "-", "*", "/", "%", "**", "<<", ">>", "&", "|", "^", "==", "!=", "<", "<=", ">", ">=", "..", "..=",
];
const NO_LIMITS: Engine = Engine {
    string_limit: 0,
    blob_limit: 0,
};

fn token(op: &str) -> Token {
    Token::lookup_symbol_from_syntax(op).unwrap()
}

fn report(name: &str, count: u32, turns: impl FnOnce() -> u64) {
    if std::env::args().nth(2).is_some_and(|only| only != name) {
        return;
    }
    let start = Instant::now();
    let sum = turns();
    println!("{}\t{}\t{}\t{}", name, start.elapsed().as_nanos(), count, sum);
}

/// A value of each kind, in the order of their numbers.
fn of_each_kind() -> [Dynamic; 9] {
    [
        Dynamic::UNIT,
        Dynamic::TRUE,
        Dynamic::from_int(1),
        Dynamic::from_float(1.0),
        Dynamic::from_char('a'),
        "a".to_string().into(),
        Dynamic::from_blob(vec![1]),
        (0..1 as INT).into(),
        (0..=1 as INT).into(),
    ]
}

/// Every operator at every pair of kinds; the sum counts the rows.
fn select(count: u32) -> u64 {
    let (tokens, values) = (OPS.map(token), of_each_kind());
    let mut rows = 0;
    for i in 0..count as usize {
        let code = i * 1000 % (19 * 81);
        let found = get_builtin_binary_op_fn(
            black_box(&tokens[code / 81]),
            &values[code / 9 % 9],
            &values[code % 9],
        );
        rows += u64::from(black_box(found).is_some());
    }
    rows
}

fn compared(i: u32) -> (f64, f64) {
    (f64::from(i * 37 % 1000) / 8.0, f64::from(i * 91 % 1000) / 8.0)
}

/// One comparison of floats, chosen beforehand; the sum counts where it holds.
fn compare(count: u32, op: &str) -> u64 {
    let zero = Dynamic::from_float(0.0);
    let (function, _) = get_builtin_binary_op_fn(&token(op), &zero, &zero).unwrap();
    let function = black_box(function);
    let mut sum = 0;
    for i in 0..count {
        let (x, y) = compared(i);
        let (mut x, mut y) = (Dynamic::from_float(x), Dynamic::from_float(y));
        let answer = function(None, &mut [&mut x, &mut y]);
        sum += u64::from(answer.unwrap().as_bool().unwrap());
    }
    sum
}

/// Chooses the function and calls it.
fn apply(op: &Token, x: &mut Dynamic, y: &mut Dynamic) -> Option<Dynamic> {
    let (function, wants_context) = get_builtin_binary_op_fn(op, x, y)?;
    let context = if wants_context {
        Some(NativeCallContext { engine: &NO_LIMITS })
    } else {
        None
    };
    function(context, &mut [x, y]).ok()
}

fn ints(count: u32, op: &str, operands: impl Fn(u32) -> (u32, u32)) -> u64 {
    let op = black_box(token(op));
    let mut sum = 0u64;
    for i in 0..count {
        let (x, y) = operands(i);
        let (mut x, mut y) = (Dynamic::from_int(x.into()), Dynamic::from_int(y.into()));
        let answer = apply(&op, &mut x, &mut y);
        sum = sum.wrapping_add(answer.map_or(0, |n| n.as_int().unwrap().unsigned_abs()));
    }
    sum
}

fn floats(count: u32) -> u64 {
    let op = black_box(token("=="));
    let mut sum = 0;
    for i in 0..count {
        let (mut x, mut y) = (Dynamic::from_float(i.into()), Dynamic::from_float(25.4));
        let answer = apply(&op, &mut x, &mut y);
        sum += answer.map_or(0, |b| u64::from(b.as_bool().unwrap()));
    }
    sum
}

fn strs(count: u32) -> u64 {
    let op = black_box(token("+"));
    let mut x: Dynamic = "Fig. 12".to_string().into();
    let mut y: Dynamic = "Fig. 12".to_string().into();
    let mut sum = 0;
    for _ in 0..count {
        let answer = apply(&op, &mut x, &mut y);
        sum += answer.map_or(0, |s| s.as_immutable_string_ref().unwrap().len() as u64);
    }
    sum
}

pub fn main() {
    let count = std::env::args().nth(1).and_then(|n| n.parse().ok()).expect("a count");
    report("select", count, || select(count));
    report("compare ==", count, || compare(count, "=="));
    report("compare <", count, || compare(count, "<"));
    report("int + int", count, || ints(count, "+", |i| (i, 7)));
    report("int ** int", count, || ints(count, "**", |i| (i % 7, i % 23)));
    report("float == float", count, || floats(count));
    report("str + str", count, || strs(count));
}
