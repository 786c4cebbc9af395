//! Many points in one call.

use std::hint::black_box;

use crate::lists::{List, layer_lists};
use crate::stack::deepest;
use crate::tables::stack_cell;
use crate::time::{keep, medians};

/// The arguments of so many points, end to end: each point's are a little larger than those before.
fn arguments(list: &List, count: usize) -> Vec<u64> {
    let mut words = vec![];
    for point in 0..count {
        let more = point as f64 / 8192.0;
        let moved = |&word: &u64| (f64::from_bits(word) + more).to_bits();
        words.extend(list.arguments.iter().map(moved));
    }
    words
}

/// For each list and count of points the whole call, in nanoseconds for one instruction and point.
///
/// The library's check is the time of a call of no points, which does nothing else.
pub fn points() {
    println!("\n## Points\n");
    println!(
        "Nanoseconds for one instruction and point: library / independent. The check of the code is a share of the library's call.\n"
    );
    println!("| list | points | whole call | ratio | target | check | stack (at most 12,288) |");
    println!("|---|--:|--:|--:|--:|--:|--:|");
    let (mut work, mut own_work) = (vec![0; 8192], vec![0; 8192]);
    for list in layer_lists() {
        let code = &list.code[..];
        let none = medians(
            &format!("no points|{}", list.name),
            &mut || {
                keep(quetlapin::run_points(
                    black_box(code),
                    0,
                    &[],
                    &mut work,
                    &mut [],
                ))
            },
            &mut || {
                keep(independent::run_points(
                    black_box(code),
                    0,
                    &[],
                    &mut own_work,
                    &mut [],
                ))
            },
        );
        for count in [1, 32, 1024] {
            let arguments = &arguments(&list, count)[..];
            let words = count * code[6] as usize;
            let (mut out, mut own_out) = (vec![0; words], vec![0; words]);
            let points = count as u64;
            let got = quetlapin::run_points(code, points, arguments, &mut work, &mut out);
            let wanted =
                independent::run_points(code, points, arguments, &mut own_work, &mut own_out);
            assert!(
                got.ok() == wanted.ok()
                    && wanted == Ok(words)
                    && out == own_out
                    && work == own_work,
                "{}",
                list.name
            );
            let mut library = || {
                let code = black_box(code);
                keep(quetlapin::run_points(
                    code,
                    points,
                    black_box(arguments),
                    &mut work,
                    &mut out,
                ));
            };
            let mut independent = || {
                let code = black_box(code);
                keep(independent::run_points(
                    code,
                    points,
                    black_box(arguments),
                    &mut own_work,
                    &mut own_out,
                ));
            };
            let times = medians(
                &format!("points|{}, {count}", list.name),
                &mut library,
                &mut independent,
            );
            let stack = deepest(&mut library);
            let n = (list.instructions * count) as f64;
            println!(
                "| {} | {count} | {:.1} / {:.1} | {:.2} | {:.1} | {:.1} % | {} |",
                list.name,
                times.library / n,
                times.independent / n,
                times.ratio,
                list.target,
                100.0 * none.library / times.library,
                stack_cell(stack),
            );
        }
    }
}
