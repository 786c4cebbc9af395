//! Version 2 over version 1: word counts, and times of the library's own calls in turn.

use std::hint::black_box;

use generate::codes::Code;
use generate::reuse;

use crate::lists::{layer_lists, lists};
use crate::stack::deepest;
use crate::tables::{Case, case, code, compiled, duration, stack_cell};
use crate::time::{alone, keep, pair};

const SIDES: [&str; 2] = ["version 2", "version 1"];

/// The most that one row may take, and a typical one.
const LIMIT: f64 = 3.0;
const TYPICAL: f64 = 2.0;

pub fn all() {
    println!("\n## Version 2\n");
    println!(
        "Ratios are version 2's time over version 1's, both of the library, in batches that alternate."
    );
    words();
    compile();
    run();
    points();
    evaluate();
}

/// Tables that have a list of version 2 alone: what version 1 sums up to passes its limit.
fn only_version_2() -> [Case; 3] {
    [
        case(
            "chain of 255 matrices called 3 times",
            reuse::matrix_chains(255, 3),
        ),
        case("255 matrices called 16 times", reuse::matrices_called(16)),
        case("512 matrices held at once", reuse::held(7, 0, 0)),
    ]
}

fn word_count(code: &[u8]) -> u16 {
    u16::from_le_bytes([code[10], code[11]])
}

/// The word counts of both versions.
fn words() {
    println!("\n### Word counts\n");
    println!("| table, its last function | instructions | version 1 | version 2 | share |");
    println!("|---|--:|--:|--:|--:|");
    let mut cases = compiled();
    cases.extend(only_version_2());
    for case in cases {
        let own = code(&case, 2).expect("within the limits");
        let instructions = u16::from_le_bytes([own[8], own[9]]);
        // Version 1's sum is a count also where it is over the limit.
        let sum = independent::words(&case.table, case.id).expect("an accepted table");
        let over = if sum > independent::MOST_WORDS {
            ", over"
        } else {
            ""
        };
        let count = word_count(&own);
        println!(
            "| {} | {instructions} | {sum}{over} | {count} | {:.1} % |",
            case.name,
            100.0 * f64::from(count) / sum as f64,
        );
    }
}

/// Compiling in both versions.
fn compile() {
    println!("\n### Compile\n");
    println!(
        "| table, its last function | version 2 | version 1 | ratio | limit | stack (at most 262,144) |"
    );
    println!("|---|--:|--:|--:|--:|--:|");
    let mut buffer = vec![0; quetlapin::LONGEST_CODE_2];
    let mut other = vec![0; quetlapin::LONGEST_CODE_1];
    for case in compiled() {
        let (table, id) = (&case.table[..], case.id);
        let got = quetlapin::compile_version(table, id, 2, &mut buffer);
        let wanted = code(&case, 2).expect("within the limits");
        assert!(got.is_ok_and(|n| buffer[..n] == wanted), "{}", case.name);
        let mut second = || {
            let table = black_box(table);
            keep(quetlapin::compile_version(table, id, 2, &mut buffer));
        };
        let mut first = || {
            let table = black_box(table);
            keep(quetlapin::compile(table, id, &mut other));
        };
        let row = format!("compile by version|{}", case.name);
        let times = pair(&row, SIDES, &mut second, &mut first);
        let limit = if case.typical { TYPICAL } else { LIMIT };
        println!(
            "| {} | {} | {} | {:.2} | {limit:.1} | {} |",
            case.name,
            duration(times[0]),
            duration(times[1]),
            times[2],
            stack_cell(deepest(&mut second)),
        );
    }
    for case in only_version_2() {
        let (table, id) = (&case.table[..], case.id);
        let got = quetlapin::compile_version(table, id, 2, &mut buffer);
        let wanted = code(&case, 2).expect("within the limits");
        assert!(got.is_ok_and(|n| buffer[..n] == wanted), "{}", case.name);
        let mut second = || {
            let table = black_box(table);
            keep(quetlapin::compile_version(table, id, 2, &mut buffer));
        };
        println!(
            "| {} | {} | none | | | {} |",
            case.name,
            duration(alone(&mut second)),
            stack_cell(deepest(&mut second)),
        );
    }
}

/// A list that is run in both versions.
struct Pair {
    name: String,
    instructions: usize,
    /// The codes of version 2 and of version 1.
    codes: [Vec<u8>; 2],
    arguments: Vec<u64>,
}

/// The benchmark's lists with the same addresses in both versions, and compiled functions with words used again.
fn pairs() -> Vec<Pair> {
    let mut pairs = vec![];
    for list in lists() {
        if list.name == "heat exchanger" {
            continue;
        }
        let mut same = Code::from_bytes(&list.code);
        same.version = 2;
        pairs.push(Pair {
            name: format!("{}, the same words", list.name),
            instructions: list.instructions,
            codes: [same.to_bytes(), list.code],
            arguments: list.arguments,
        });
    }
    for case in compiled() {
        let codes = [2, 1].map(|version| code(&case, version).expect("within the limits"));
        let instructions = u16::from_le_bytes([codes[0][8], codes[0][9]]) as usize;
        let words = [&codes[0], &codes[1]].map(|code| word_count(code));
        pairs.push(Pair {
            name: format!("{}, {} {} for {}", case.name, words[0], if words[0] == 1 { "word" } else { "words" }, words[1]),
            instructions,
            arguments: (0..codes[0][5])
                .map(|k| (0.5 + f64::from(k) / 64.0).to_bits())
                .collect(),
            codes,
        });
    }
    pairs
}

/// Running in both versions: the check of the code, then the whole call.
fn run() {
    println!("\n### Run\n");
    println!("Nanoseconds for one instruction: version 2 / version 1.\n");
    println!("| list | check | ratio | whole call | ratio | stack (at most 12,288) |");
    println!("|---|--:|--:|--:|--:|--:|");
    let (mut work, mut out) = (vec![0; 8192], vec![0; 128]);
    let (mut other_work, mut other_out) = (vec![0; 8192], vec![0; 128]);
    for list in pairs() {
        let [own, other] = &list.codes;
        let arguments = &list.arguments[..];
        let more = vec![0; arguments.len() + 1];
        let got = quetlapin::run(own, arguments, &mut work, &mut out);
        let wanted = quetlapin::run(other, arguments, &mut other_work, &mut other_out);
        assert!(
            got.is_ok() && got == wanted && out == other_out,
            "{}",
            list.name
        );
        let check = pair(
            &format!("check of the code by version|{}", list.name),
            SIDES,
            &mut || keep(quetlapin::run(black_box(own), &more, &mut work, &mut out)),
            &mut || {
                let code = black_box(other);
                keep(quetlapin::run(code, &more, &mut other_work, &mut other_out));
            },
        );
        let mut second = || {
            let code = black_box(own);
            keep(quetlapin::run(code, arguments, &mut work, &mut out));
        };
        let whole = pair(
            &format!("run by version|{}", list.name),
            SIDES,
            &mut second,
            &mut || {
                let code = black_box(other);
                keep(quetlapin::run(
                    code,
                    arguments,
                    &mut other_work,
                    &mut other_out,
                ));
            },
        );
        let n = list.instructions.max(1) as f64;
        println!(
            "| {} | {:.1} / {:.1} | {:.2} | {:.1} / {:.1} | {:.2} | {} |",
            list.name,
            check[0] / n,
            check[1] / n,
            check[2],
            whole[0] / n,
            whole[1] / n,
            whole[2],
            stack_cell(deepest(&mut second)),
        );
    }
}

/// 1,024 points in both versions.
fn points() {
    println!("\n### Points\n");
    println!(
        "1,024 points in one call, nanoseconds for one instruction and point: version 2 / version 1.\n"
    );
    println!("| list | whole call | ratio | stack (at most 12,288) |");
    println!("|---|--:|--:|--:|");
    const COUNT: usize = 1024;
    let (mut work, mut other_work) = (vec![0; 8192], vec![0; 8192]);
    let names: Vec<String> = layer_lists().into_iter().map(|list| list.name).collect();
    for list in pairs() {
        if !names.iter().any(|name| list.name.starts_with(name)) {
            continue;
        }
        let [own, other] = &list.codes;
        let mut arguments = vec![];
        for point in 0..COUNT {
            let more = point as f64 / 8192.0;
            let moved = |&word: &u64| (f64::from_bits(word) + more).to_bits();
            arguments.extend(list.arguments.iter().map(moved));
        }
        let words = COUNT * own[6] as usize;
        let (mut out, mut other_out) = (vec![0; words], vec![0; words]);
        let count = COUNT as u64;
        let got = quetlapin::run_points(own, count, &arguments, &mut work, &mut out);
        let wanted =
            quetlapin::run_points(other, count, &arguments, &mut other_work, &mut other_out);
        assert!(
            got == Ok(words) && got == wanted && out == other_out,
            "{}",
            list.name
        );
        let mut second = || {
            let code = black_box(own);
            keep(quetlapin::run_points(
                code, count, &arguments, &mut work, &mut out,
            ));
        };
        let times = pair(
            &format!("points by version|{}", list.name),
            SIDES,
            &mut second,
            &mut || {
                let code = black_box(other);
                keep(quetlapin::run_points(
                    code,
                    count,
                    &arguments,
                    &mut other_work,
                    &mut other_out,
                ));
            },
        );
        let n = (list.instructions * COUNT) as f64;
        println!(
            "| {} | {:.1} / {:.1} | {:.2} | {} |",
            list.name,
            times[0] / n,
            times[1] / n,
            times[2],
            stack_cell(deepest(&mut second)),
        );
    }
}

/// Whole evaluations in both versions.
fn evaluate() {
    println!("\n### Evaluate\n");
    println!(
        "| table, its last function | version 2 | version 1 | ratio | stack (at most 262,144) |"
    );
    println!("|---|--:|--:|--:|--:|");
    let (mut work, mut out) = (vec![0; 8192], vec![0; 128]);
    let (mut other_work, mut other_out) = (vec![0; 8192], vec![0; 128]);
    let mut buffer = vec![0; quetlapin::LONGEST_CODE_2];
    let mut other = vec![0; quetlapin::LONGEST_CODE_1];
    for case in compiled() {
        let (table, id) = (&case.table[..], case.id);
        let arguments =
            vec![1f64.to_bits(); code(&case, 2).expect("within the limits")[5] as usize];
        let mut second = || {
            keep(quetlapin::evaluate_version(
                black_box(table),
                id,
                2,
                &arguments,
                &mut buffer,
                &mut work,
                &mut out,
            ));
        };
        let row = format!("evaluate by version|{}", case.name);
        let times = pair(&row, SIDES, &mut second, &mut || {
            keep(quetlapin::evaluate(
                black_box(table),
                id,
                &arguments,
                &mut other,
                &mut other_work,
                &mut other_out,
            ));
        });
        let stack = deepest(&mut second);
        assert!(out == other_out, "{}", case.name);
        println!(
            "| {} | {} | {} | {:.2} | {} |",
            case.name,
            duration(times[0]),
            duration(times[1]),
            times[2],
            stack_cell(stack),
        );
    }
}
