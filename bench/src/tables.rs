//! Checking and compiling tables.

use std::hint::black_box;

use generate::graph::Graph;
use generate::shapes;

use crate::stack::deepest;
use crate::time::{Times, keep, medians};

/// A table, and the function that is compiled.
pub struct Case {
    pub name: &'static str,
    pub table: Vec<u8>,
    #[cfg_attr(not(feature = "compile"), allow(dead_code))]
    pub id: u16,
    /// Whether the stricter target for typical tables holds.
    pub typical: bool,
}

pub fn case(name: &'static str, graph: Graph) -> Case {
    Case {
        name,
        table: graph.to_bytes(),
        id: graph.functions.last().expect("a function").id,
        typical: false,
    }
}

fn typical(name: &'static str, graph: Graph) -> Case {
    Case {
        typical: true,
        ..case(name, graph)
    }
}

/// The tables that are checked.
pub fn cases() -> Vec<Case> {
    vec![
        case("case A", shapes::case_a()),
        typical("typical: 8 functions of 40 nodes", shapes::typical()),
        typical("heat exchanger", generate::heat_exchanger::graph()),
        case("largest: 16 functions of 256 nodes", shapes::largest()),
        case("chain of 64 nodes", shapes::chain(64)),
        case("chain of 256 nodes", shapes::chain(256)),
        case("reversed chain of 64 nodes", shapes::reversed_chain(64)),
        case("reversed chain of 128 nodes", shapes::reversed_chain(128)),
        case("reversed chain of 256 nodes", shapes::reversed_chain(256)),
        case("dense: 256 nodes of 4 references", shapes::dense(256)),
        case("wide: 256 nodes on the inputs", shapes::wide(256)),
        case("16 reversed chains of 256 nodes", shapes::chains()),
        case("loop at the end of 256 nodes", shapes::loop_at_end()),
    ]
}

pub fn stack_cell(bytes: Option<usize>) -> String {
    bytes.map_or("not measured".into(), |bytes| bytes.to_string())
}

/// Tables whose last function calls others.
#[cfg(any(feature = "compile", feature = "run"))]
pub fn calls() -> [Case; 4] {
    [
        case("255 nodes called 16 times", shapes::case_n(0)),
        case("256 matrices called twice", shapes::case_o(0)),
        case("16 levels of calls", shapes::levels()),
        case("tree of calls, 11 levels", shapes::tree()),
    ]
}

/// The tables that have a list of version 1, the heat exchanger first.
#[cfg(any(feature = "evaluate_version", feature = "judge"))]
pub fn compiled() -> Vec<Case> {
    let mut cases = cases();
    cases.extend(calls());
    cases.retain(|case| independent::compile(&case.table, case.id, usize::MAX).is_ok());
    cases.sort_by_key(|case| case.name != "heat exchanger");
    cases
}

/// The code of a case in this version, by the independent program.
#[cfg(any(feature = "evaluate_version", feature = "judge"))]
pub fn code(case: &Case, version: u16) -> Result<Vec<u8>, independent::Refusal> {
    independent::compile_version(&case.table, case.id, version, usize::MAX)
}

/// A time in a unit that suits it.
pub fn duration(nanoseconds: f64) -> String {
    match nanoseconds {
        t if t < 1e3 => format!("{t:.0} ns"),
        t if t < 1e6 => format!("{:.2} µs", t / 1e3),
        t => format!("{:.2} ms", t / 1e6),
    }
}

fn head(title: &str, of: &str, stack: &str) {
    println!("\n## {title}\n");
    println!("| {of} | bytes | library | independent | ratio | target | stack ({stack}) |");
    println!("|---|--:|--:|--:|--:|--:|--:|");
}

fn row(case: &Case, times: Times, target: f64, stack: Option<usize>) {
    println!(
        "| {} | {} | {} | {} | {:.2} | {target:.1} | {} |",
        case.name,
        case.table.len(),
        duration(times.library),
        duration(times.independent),
        times.ratio,
        stack_cell(stack),
    );
}

pub fn check() {
    head("Check", "table", "at most 32,768");
    for case in cases() {
        let table = &case.table[..];
        let mut library = || keep(quetlapin::check(black_box(table)));
        let mut independent = || keep(independent::check(black_box(table)));
        let times = medians(&format!("check|{}", case.name), &mut library, &mut independent);
        let target = if case.typical { 1.0 } else { 2.0 };
        row(&case, times, target, deepest(&mut library));
    }
}

#[cfg(feature = "compile")]
pub fn compile() {
    head("Compile", "table, its last function", "at most 65,536");
    let mut cases = cases();
    cases.retain(|case| independent::check(&case.table).is_ok());
    cases.extend(calls());
    let mut code = vec![0; 80_000];
    for case in cases {
        let (table, id) = (&case.table[..], case.id);
        let length = code.len();
        let wanted = independent::compile(table, id, length).expect("within the limits");
        let got = quetlapin::compile(table, id, &mut code).expect("within the limits");
        assert!(wanted == code[..got], "{}", case.name);
        let mut library = || keep(quetlapin::compile(black_box(table), id, &mut code));
        let mut independent = || keep(independent::compile(black_box(table), id, length));
        let times = medians(&format!("compile|{}", case.name), &mut library, &mut independent);
        let target = if case.typical { 1.5 } else { 2.5 };
        row(&case, times, target, deepest(&mut library));
    }
}
