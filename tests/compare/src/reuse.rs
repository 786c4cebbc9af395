//! Runs of version 2 lists: compiled ones beside version 1's, lists that no compiler writes, and damaged ones.

use generate::codes::{self, Code};
use generate::graph::Graph;
use generate::random::Random;
use generate::{kinds, reuse, shapes};
use independent::Meaning;

use crate::points;
use crate::report::Report;
use crate::run::{self, Room, argument_words, compare, damaged, exact_room};
use crate::versions::both;

/// Runs and points of a function's version 2 code, and of a list that no compiler wrote.
pub fn random(report: &mut Report, random: &mut Random, table: &[u8], id: u16) {
    if let Ok(code) = independent::compile_version(table, id, 2, usize::MAX) {
        let meaning = Meaning::of(table, id);
        run::compiled(report, random, &meaning, &code);
        if random.chance(50) {
            run::damaged_compiled(report, random, &code);
        }
        if random.chance(25) {
            points::compiled(report, random, &meaning, &code);
        }
        if random.chance(25)
            && let Ok(version_1) = independent::compile(table, id, usize::MAX)
        {
            let count = argument_words(&code);
            let arguments: Vec<u64> = (0..count).map(|_| random.finite()).collect();
            both(report, &meaning, [&version_1, &code], &arguments);
        }
    }
    run::list_2(report, random);
    if random.chance(25) {
        points::list_2(report, random);
    }
}

/// The version 2 code of a graph's last function.
fn compiled(graph: &Graph) -> Vec<u8> {
    let id = graph.functions.last().expect("a function").id;
    let code = independent::compile_version(&graph.to_bytes(), id, 2, usize::MAX);
    code.expect("within the limits")
}

/// Lists at the limits and beyond, small codes with every byte and every address changed, and all known graphs.
pub fn fixed(report: &mut Report, random: &mut Random) {
    let small = [
        compiled(&shapes::case_a()),
        compiled(&shapes::case_k()),
        compiled(&reuse::gaps()),
        compiled(&reuse::decomposed()),
    ];
    for code in &small {
        every_byte(code, |code, whole| {
            // A code that is still good runs.
            let room = Room {
                work: 300,
                out: 256,
            };
            if whole {
                compare(report, code, &arguments(code), room, None);
            } else {
                damaged(report, random, code);
            }
        });
    }
    for list in reuse::lists().iter().chain(&reuse::malformed_lists()) {
        around(report, random, list);
    }
    for list in reuse::overlapping() {
        let code = list.to_bytes();
        let words = arguments(&code);
        compare(report, &code, &words, exact_room(&code), None);
    }
    let mut lists = reuse::lists();
    lists.truncate(2);
    lists.extend(small.iter().map(|code| Code::from_bytes(code)));
    for list in &lists {
        every_address(list, |code| {
            let room = Room {
                work: 8200,
                out: 130,
            };
            let code = code.to_bytes();
            compare(report, &code, &arguments(&code), room, None);
        });
    }
    around(report, random, &reuse::longest_list());
    versions_exchanged(report);
    counts(report);
    let mut graphs = shapes::all_shapes();
    graphs.extend([shapes::case_k(), shapes::case_n(0), shapes::case_o(0)]);
    graphs.extend(reuse::graphs());
    for graph in &graphs {
        shape(report, random, graph);
    }
}

/// Arguments that are all different.
fn arguments(code: &[u8]) -> Vec<u64> {
    let count = argument_words(code);
    (0..count)
        .map(|k| (1.25 + k as f64 / 8.0).to_bits())
        .collect()
}

/// Each byte changed to every other; and the code cut at each length, and made longer, which is no whole code.
pub fn every_byte(code: &[u8], mut hold: impl FnMut(&[u8], bool)) {
    for at in 0..code.len() {
        for byte in 0..=255 {
            let mut code = code.to_vec();
            code[at] = byte;
            hold(&code, true);
        }
        hold(&code[..at], false);
    }
    for more in 1..=4 {
        let mut code = code.to_vec();
        code.resize(code.len() + more, 0);
        hold(&code, false);
    }
}

/// A list in buffers that are exact, short, long and empty, with a word count one more and one less, and longer and
/// shorter by a byte.
fn around(report: &mut Report, random: &mut Random, list: &Code) {
    let code = list.to_bytes();
    let words = arguments(&code);
    let Room { work, out } = exact_room(&code);
    let work = work.min(9000);
    for room_work in [work, work.saturating_sub(1), work + 7, 0] {
        for room_out in [out, out.saturating_sub(1), out + 7, 0] {
            let room = Room {
                work: room_work,
                out: room_out,
            };
            compare(report, &code, &words, room, None);
        }
    }
    let most = Room {
        work: 9000,
        out: 300,
    };
    for count in [list.words.wrapping_add(1), list.words.wrapping_sub(1)] {
        let changed = Code {
            words: count,
            ..list.clone()
        };
        compare(report, &changed.to_bytes(), &words, most, None);
    }
    compare(report, &code[..code.len() - 1], &words, most, None);
    compare(report, &[&code[..], &[0]].concat(), &words, most, None);
    for _ in 0..4 {
        damaged(report, random, &code);
        let bytes = codes::damaged_code(random, list);
        damaged(report, random, &bytes);
    }
}

/// Every address of a list in turn at every word up to behind the last, and at the ends of what can be said; with
/// the word count as it was, and with the one that the addresses ask for.
pub fn every_address(list: &Code, mut hold: impl FnMut(&Code)) {
    let last = list.words.min(40);
    let mut values: Vec<u16> = (0..=last + 2).collect();
    values.extend([list.words - 1, list.words, 8175, 8176, 8190, 8191, 8192]);
    values.extend([0xFFEF, 0xFFF0, 0xFFFD, 0xFFFE, 0xFFFF]);
    let mut hold = |code: &Code| {
        hold(code);
        let mut exact = code.clone();
        exact.mend_words();
        if exact.words != code.words {
            hold(&exact);
        }
    };
    for &value in &values {
        for at in 0..list.instructions.len() {
            let mut code = list.clone();
            code.instructions[at].result = value;
            hold(&code);
            for k in 0..list.instructions[at].operands.len() {
                let mut code = list.clone();
                code.instructions[at].operands[k] = value;
                hold(&code);
            }
        }
        for k in 0..list.outputs.len() {
            let mut code = list.clone();
            code.outputs[k] = value;
            hold(&code);
        }
    }
}

/// The version field of codes of both versions, and each version's bytes under the other's number.
fn versions_exchanged(report: &mut Report) {
    let mut graphs = reuse::small();
    graphs.extend([shapes::case_a(), shapes::case_k(), shapes::case_m()]);
    for graph in &graphs {
        let id = graph.functions.last().expect("a function").id;
        let table = graph.to_bytes();
        for version in [1, 2] {
            let code = independent::compile_version(&table, id, version, usize::MAX);
            let code = code.expect("within the limits");
            for field in [0, 1, 2, 3, 255, 256, 257, 258, 512, 513, 65_535u16] {
                let mut code = code.clone();
                code[3..5].copy_from_slice(&field.to_le_bytes());
                let room = Room {
                    work: 300,
                    out: 130,
                };
                compare(report, &code, &arguments(&code), room, None);
            }
        }
    }
}

/// Argument words, output words, instructions and words around their limits.
fn counts(report: &mut Report) {
    let mut lists = vec![];
    for arguments in [0, 1, 127, 128, 129, 255] {
        for outputs in [0, 1, 127, 128, 129, 255] {
            let mut code = Code::version_2(arguments);
            code.push_at(0, kinds::CONSTANT, 0, &[], &[0]);
            for _ in 0..outputs {
                code.output(0);
            }
            lists.push(code);
        }
    }
    for count in [4095, 4096, 4097] {
        let mut code = Code::version_2(2);
        for _ in 0..count {
            code.push_at(1, kinds::ADDITION, 1, &[0, 1], &[]);
        }
        code.output(1);
        lists.push(code);
    }
    // Results whose last word is 8,190, 8,191 and 8,192.
    for (kind, ty, words) in [
        (kinds::ABS, 1, 1),
        (kinds::ABS, 2, 3),
        (kinds::TRANSPOSE, 0, 16),
    ] {
        for end in [8191, 8192, 8193] {
            let mut code = Code::version_2(16);
            code.push_at(end - words, kind, ty, &[0], &[]);
            code.output(end - 1);
            lists.push(code);
        }
    }
    // No instruction and no argument: a word count of 0.
    let mut none = Code::version_2(0);
    none.output(0);
    lists.push(none);
    for code in lists {
        let code = code.to_bytes();
        for work in [8192, 8191, 8193, 1] {
            let room = Room { work, out: 300 };
            compare(report, &code, &arguments(&code), room, None);
        }
    }
}

/// Runs each function of a graph that can be compiled, beside version 1 where it has a list there.
fn shape(report: &mut Report, random: &mut Random, graph: &Graph) {
    let table = graph.to_bytes();
    for function in &graph.functions {
        let code = independent::compile_version(&table, function.id, 2, usize::MAX);
        let Ok(code) = code else {
            continue;
        };
        let meaning = Meaning::of(&table, function.id);
        for _ in 0..3 {
            run::compiled(report, random, &meaning, &code);
        }
        let words = arguments(&code);
        compare(report, &code, &words, exact_room(&code), Some(&meaning));
        if let Ok(version_1) = independent::compile(&table, function.id, usize::MAX) {
            both(report, &meaning, [&version_1, &code], &words);
        }
        // Each argument in turn not finite.
        for at in 0..words.len().min(20) {
            let mut words = words.clone();
            words[at] = random.not_finite();
            compare(report, &code, &words, exact_room(&code), None);
        }
    }
}
