//! Running lists, and whole evaluations.

use std::hint::black_box;

use crate::lists::lists;
use crate::stack::deepest;
use crate::tables::stack_cell;
use crate::time::{keep, medians};

/// For each list the check, the run and the whole call, in nanoseconds for one instruction.
///
/// The library's check is the time of a call that is refused with 19, right after the check;
/// its run is what the whole call takes beyond that.
pub fn run() {
    println!("\n## Run\n");
    println!("Nanoseconds for one instruction: library / independent.\n");
    println!(
        "| list | check | ratio | run | ratio | whole call | ratio | target | stack (at most 12,288) |"
    );
    println!("|---|--:|--:|--:|--:|--:|--:|--:|--:|");
    let (mut work, mut out) = (vec![0; 8192], vec![0; 128]);
    let (mut own_work, mut own_out) = (vec![0; 8192], vec![0; 128]);
    for list in lists() {
        let (code, arguments) = (&list.code[..], &list.arguments[..]);
        let more = vec![0; arguments.len() + 1];
        let got = quetlapin::run(code, arguments, &mut work, &mut out);
        let wanted = independent::run(code, arguments, &mut own_work, &mut own_out);
        assert!(
            got.ok() == wanted.ok() && wanted.is_ok() && out == own_out,
            "{}",
            list.name
        );

        let check = medians(
            &format!("check of the code|{}", list.name),
            &mut || keep(quetlapin::run(black_box(code), &more, &mut work, &mut out)),
            &mut || keep(independent::check_code(black_box(code)).is_ok()),
        );
        let mut library = || {
            let answer = quetlapin::run(black_box(code), black_box(arguments), &mut work, &mut out);
            keep(answer);
        };
        let whole = medians(&format!("run|{}", list.name), &mut library, &mut || {
            let answer = independent::run(
                black_box(code),
                black_box(arguments),
                &mut own_work,
                &mut own_out,
            );
            keep(answer);
        });
        let stack = deepest(&mut library);
        let run = (
            whole.library - check.library,
            whole.independent - check.independent,
        );
        let n = list.instructions as f64;
        println!(
            "| {} | {:.1} / {:.1} | {:.2} | {:.1} / {:.1} | {:.2} | {:.1} / {:.1} | {:.2} | {:.1} | {} |",
            list.name,
            check.library / n,
            check.independent / n,
            check.ratio,
            run.0 / n,
            run.1 / n,
            run.0 / run.1,
            whole.library / n,
            whole.independent / n,
            whole.ratio,
            list.target,
            stack_cell(stack),
        );
    }
    println!("\nMore than some 510 matrices of 16 words do not fit into a list's 8,192 words.");
}

/// Whole evaluations: compile and run.
#[cfg(feature = "evaluate")]
pub fn evaluate() {
    use crate::tables::{cases, duration};

    println!("\n## Evaluate\n");
    println!("| table, its last function | library | independent | ratio | stack |");
    println!("|---|--:|--:|--:|--:|");
    let (mut code, mut work, mut out) = (vec![0; 80_000], vec![0; 8192], vec![0; 128]);
    let (mut own_work, mut own_out) = (vec![0; 8192], vec![0; 128]);
    for case in cases() {
        let (table, id) = (&case.table[..], case.id);
        let Ok(bytes) = independent::compile(table, id, usize::MAX) else {
            continue;
        };
        let arguments = vec![1f64.to_bits(); bytes[5] as usize];
        let length = code.len();
        let mut library = || {
            let table = black_box(table);
            let answer = quetlapin::evaluate(table, id, &arguments, &mut code, &mut work, &mut out);
            keep(answer);
        };
        let mut independent = || {
            let code =
                independent::compile(black_box(table), id, length).expect("within the limits");
            let answer = independent::run(&code, &arguments, &mut own_work, &mut own_out);
            keep(answer);
        };
        let times = medians(&format!("evaluate|{}", case.name), &mut library, &mut independent);
        println!(
            "| {} | {} | {} | {:.2} | {} |",
            case.name,
            duration(times.library),
            duration(times.independent),
            times.ratio,
            stack_cell(deepest(&mut library)),
        );
    }
}
