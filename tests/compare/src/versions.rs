//! Compiling and evaluating by the list's version.

use generate::graph::Graph;
use generate::random::Random;
use generate::{heat_exchanger, reuse, shapes};
use independent::{Meaning, Refusal};

use crate::check::{as_independent, fixed_tables};
use crate::marked::Marked;
use crate::report::{Part, Report, hex, hex_words};
use crate::run::{Room, argument_words, exact_room, some_arguments, some_room};

/// Both versions, and numbers around them, also where only one byte is looked at.
const VERSIONS: [u16; 8] = [0, 1, 2, 3, 257, 258, 512, 65_535];

/// At least the length of every code.
const LONGEST: usize = quetlapin::LONGEST_CODE_2;

/// The code of a version, if there is one.
fn code(table: &[u8], id: u16, version: u16) -> Option<Vec<u8>> {
    independent::compile_version(table, id, version, usize::MAX).ok()
}

/// Holds the answer and the whole buffer, for a buffer of this length.
fn compile(report: &mut Report, table: &[u8], id: u16, version: u16, length: usize) {
    let wanted = independent::compile_version(table, id, version, length);
    let mut buffer = Marked::bytes(length);
    let got = as_independent(quetlapin::compile_version(
        table,
        id,
        version,
        buffer.lent(),
    ));
    let code = wanted.as_deref().unwrap_or(&[]);
    let wanted_buffer = Marked::bytes(length).with_front(code);
    let inputs = || {
        format!(
            "  function {id}, version {version}, buffer of {length}, table {}",
            hex(table)
        )
    };
    report.same_buffer(
        "compile by version: the buffer",
        &wanted_buffer,
        &buffer,
        inputs,
    );
    let wanted = wanted.map(|code| code.len());
    report.hold(Part::CompileVersion, wanted, got, inputs);
}

/// What one evaluation is given.
#[derive(Clone, Debug)]
struct Call {
    table: Vec<u8>,
    id: u16,
    version: u16,
    arguments: Vec<u64>,
    code: usize,
    room: Room,
}

impl Call {
    /// A call with all that the function needs in this version; where it has no code there, what it needs in the
    /// other, or nothing.
    fn good(table: &[u8], id: u16, version: u16) -> Call {
        let good = [version, 2, 1]
            .into_iter()
            .find_map(|version| code(table, id, version));
        let (arguments, code, room) = match &good {
            Some(code) => (argument_words(code), code.len(), exact_room(code)),
            None => (0, 0, Room { work: 0, out: 0 }),
        };
        Call {
            table: table.to_vec(),
            id,
            version,
            arguments: (0..arguments)
                .map(|k| (1.0 + k as f64 / 64.0).to_bits())
                .collect(),
            code,
            room,
        }
    }
}

/// Holds an evaluation: the answer and all three buffers, and the meaning where there is an answer.
fn evaluate(report: &mut Report, call: &Call) {
    let Call {
        table,
        id,
        version,
        arguments,
        code: length,
        room,
    } = call;
    let (mut work, mut out) = (Marked::words(room.work), Marked::words(room.out));
    let mut code = Marked::bytes(*length);
    let compiled = independent::compile_version(table, *id, *version, *length);
    let wanted: Result<usize, Refusal> = compiled.and_then(|bytes| {
        let ran = independent::run(&bytes, arguments, work.lent(), out.lent());
        if ran.is_ok() {
            code = Marked::bytes(*length).with_front(&bytes);
        }
        ran
    });

    let (mut got_work, mut got_out) = (Marked::words(room.work), Marked::words(room.out));
    let mut got_code = Marked::bytes(*length);
    let got = as_independent(quetlapin::evaluate_version(
        table,
        *id,
        *version,
        arguments,
        got_code.lent(),
        got_work.lent(),
        got_out.lent(),
    ));
    let inputs = || {
        let arguments = hex_words(arguments);
        format!(
            "  function {id}, version {version}, code {length}, {room:?}, arguments {arguments}\n  table {}",
            hex(table)
        )
    };
    let what = |buffer: &str| format!("evaluate by version: the {buffer} buffer");
    report.same_buffer(&what("code"), &code, &got_code, inputs);
    report.same_buffer(&what("work"), &work, &got_work, inputs);
    report.same_buffer(&what("output"), &out, &got_out, inputs);
    if let Ok(count) = wanted {
        let meaning = independent::evaluate(table, *id, arguments);
        report.same(
            "evaluate by version: the meaning",
            &meaning[..],
            got_out.front(count),
            inputs,
        );
    }
    report.hold(Part::EvaluateVersion, wanted, got, inputs);
}

// ---- at random

/// Mostly version 2.
fn some_version(random: &mut Random) -> u16 {
    match random.below(20) {
        0 => *random.pick(&VERSIONS),
        1 => random.word() as u16,
        2..=4 => 1,
        _ => 2,
    }
}

/// Compiles and at times evaluates a function, with buffers around what is needed.
pub fn random(report: &mut Report, random: &mut Random, table: &[u8], id: u16) {
    let version = some_version(random);
    let good = code(table, id, version);
    let need = good.as_ref().map_or(0, |code| code.len());
    let length = match random.below(20) {
        0 => random.below(need + 1),
        1..=3 => need.saturating_sub(1),
        4..=9 => need,
        10..=13 => need + 1,
        _ => need + random.below(40),
    };
    compile(report, table, id, version, length);
    if random.chance(60) {
        return;
    }
    let good = good.unwrap_or_default();
    let call = Call {
        table: table.to_vec(),
        id,
        version,
        arguments: some_arguments(random, argument_words(&good)),
        code: need + random.below(3) * random.below(30),
        room: some_room(random, &good, 1),
    };
    evaluate(report, &call);
}

// ---- known cases

/// The settled examples, limits of both versions, buffers around every code, and faults at once.
pub fn fixed(report: &mut Report, random: &mut Random) {
    settled(report);
    for table in fixed_tables() {
        for id in 0..=17 {
            if id > 2 && table.len() < 1000 {
                break;
            }
            let need = code(&table, id, 2).map_or(0, |code| code.len());
            compile(report, &table, id, 2, need);
            compile(report, &table, id, 2, need.saturating_sub(1));
            let other = *random.pick(&VERSIONS);
            compile(report, &table, id, other, need);
        }
    }
    for graph in reuse::graphs() {
        around(report, &graph);
    }
    for graph in [
        heat_exchanger::graph(),
        shapes::typical(),
        shapes::levels(),
        shapes::tree(),
        shapes::case_n(0),
        shapes::case_o(0),
        shapes::case_o(1),
        shapes::largest(),
        shapes::chains(),
    ] {
        around(report, &graph);
    }
    compile_faults(report);
    for graph in [
        shapes::case_a(),
        shapes::case_k(),
        heat_exchanger::graph(),
        reuse::gaps(),
        reuse::matrix_chains(255, 3),
    ] {
        evaluate_faults(report, &graph, &FAULTS);
    }
    // At the limit of words, over it, and over both limits: a fault more makes two.
    for graph in [
        reuse::held(7, 0, 0),
        reuse::held(7, 1, 0),
        reuse::held(7, 1, 13),
    ] {
        evaluate_faults(report, &graph, &[|_| ()]);
    }
}

/// The codes of A and K in version 2, and A's in version 1.
fn settled(report: &mut Report) {
    let (a, k) = (shapes::case_a().to_bytes(), shapes::case_k().to_bytes());
    let a_1: &[u8] = &[
        0x49, 0x46, 0x52, 0x01, 0x00, 0x02, 0x01, 0x00, 0x01, 0x00, 0x03, 0x00, 0x03, 0x01, 0x00,
        0x00, 0x01, 0x00, 0x02, 0x00,
    ];
    let a_2: &[u8] = &[
        0x49, 0x46, 0x52, 0x02, 0x00, 0x02, 0x01, 0x00, 0x01, 0x00, 0x03, 0x00, 0x03, 0x01, 0x02,
        0x00, 0x00, 0x00, 0x01, 0x00, 0x02, 0x00,
    ];
    let k_2: &[u8] = &[
        0x49, 0x46, 0x52, 0x02, 0x00, 0x01, 0x01, 0x00, 0x00, 0x00, 0x01, 0x00, 0x00, 0x00,
    ];
    for (name, table, version, code) in [("A", &a, 1, a_1), ("A", &a, 2, a_2), ("K", &k, 2, k_2)] {
        let mut buffer = vec![0; code.len()];
        let got = as_independent(quetlapin::compile_version(table, 1, version, &mut buffer));
        report.same(
            &format!("example {name}'s code in version {version}"),
            &(Ok(code.len()), code.to_vec()),
            &(got, buffer),
            || hex(table),
        );
    }
}

/// The last two functions of a graph in both versions, with buffers from three bytes short to three too long, and
/// one that is enough for all; then evaluated with every buffer exact, short and long.
fn around(report: &mut Report, graph: &Graph) {
    let table = graph.to_bytes();
    for function in graph.functions.iter().rev().take(2) {
        let id = function.id;
        for version in [1, 2] {
            let Some(code) = code(&table, id, version) else {
                compile(report, &table, id, version, LONGEST);
                continue;
            };
            let need = code.len();
            for length in need - 3..=need + 3 {
                compile(report, &table, id, version, length);
            }
            compile(report, &table, id, version, LONGEST);
            let good = Call::good(&table, id, version);
            evaluate(report, &good);
            for (code, work, out) in [(1, 1, 1), (-1, 0, 0), (0, -1, 0), (0, 0, -1), (40, 30, 20)] {
                let mut call = good.clone();
                call.code = call.code.saturating_add_signed(code);
                call.room.work = call.room.work.saturating_add_signed(work);
                call.room.out = call.room.out.saturating_add_signed(out);
                evaluate(report, &call);
            }
        }
    }
}

/// Every combination of a damaged table, an id, a version, counts over either limit and a short buffer, so that the
/// order 1 to 14, 31, 15, 16, 17 is met.
fn compile_faults(report: &mut Report) {
    for graph in [
        shapes::case_a(),
        heat_exchanger::graph(),
        shapes::case_n(1),
        shapes::case_o(1),
        reuse::matrix_chains(255, 3),
        reuse::held(7, 0, 0),
        reuse::held(7, 1, 0),
        reuse::held(7, 0, 13),
        reuse::held(7, 1, 13),
    ] {
        let good = graph.to_bytes();
        let last = graph.functions.last().expect("a function").id;
        let mut marked = good.clone();
        marked[0] = 0;
        // The function count one less: bytes behind the last function.
        let mut fewer = good.clone();
        fewer[5] -= 1;
        for table in [&good[..], &good[..good.len() - 1], &marked, &fewer] {
            for id in [last, 0, last + 1] {
                for version in VERSIONS {
                    let need = code(&good, last, version).map_or(20, |code| code.len());
                    for length in [0, need - 1, need, need + 1] {
                        compile(report, table, id, version, length);
                    }
                }
            }
        }
    }
}

/// Faults of an evaluation.
const FAULTS: [fn(&mut Call); 18] = [
    |call| call.table.truncate(call.table.len() - 1),
    |call| call.table[0] = 0,
    |call| call.id = 0,
    |call| call.id = 999,
    |call| call.version = 0,
    |call| call.version = 3,
    |call| call.version = 65_535,
    |call| call.code = call.code.saturating_sub(1),
    |call| call.code = 0,
    |call| {
        call.arguments.pop();
    },
    |call| call.arguments.push(0),
    |call| call.arguments.clear(),
    |call| set(call.arguments.first_mut(), f64::INFINITY),
    |call| set(call.arguments.last_mut(), f64::NAN),
    |call| call.room.work = call.room.work.saturating_sub(1),
    |call| call.room.work = 0,
    |call| call.room.out = call.room.out.saturating_sub(1),
    |call| call.room.out = 0,
];

fn set(word: Option<&mut u64>, value: f64) {
    if let Some(word) = word {
        *word = value.to_bits();
    }
}

/// Every fault beside each of these, and alone, in both versions.
fn evaluate_faults(report: &mut Report, graph: &Graph, beside: &[fn(&mut Call)]) {
    let table = graph.to_bytes();
    let id = graph.functions.last().expect("a function").id;
    for version in [1, 2] {
        let good = Call::good(&table, id, version);
        for first in beside {
            for second in FAULTS {
                let mut call = good.clone();
                first(&mut call);
                second(&mut call);
                evaluate(report, &call);
            }
        }
    }
    // Work words by the other version's count.
    for (version, other) in [(1, 2), (2, 1)] {
        if let Some(code) = code(&table, id, other) {
            let mut call = Call::good(&table, id, version);
            call.room.work = exact_room(&code).work;
            evaluate(report, &call);
        }
    }
}

/// The output words of both versions' codes on the same arguments, in the library alone, and what both mean. The
/// second runs on the work buffer as the first left it.
pub fn both(report: &mut Report, meaning: &Meaning, codes: [&[u8]; 2], arguments: &[u64]) {
    let [words_1, words_2] = codes.map(|code| exact_room(code).work);
    let mut work = Marked::words(words_1.max(words_2));
    let [(first, out_1), (second, out_2)] = codes.map(|code| {
        let mut out = Marked::words(exact_room(code).out);
        let got = quetlapin::run(code, arguments, work.lent(), out.lent());
        (as_independent(got), out)
    });
    let inputs = || {
        let arguments = hex_words(arguments);
        format!(
            "  arguments {arguments}\n  codes {}\n  {}",
            hex(codes[0]),
            hex(codes[1])
        )
    };
    report.same("both versions: the answer", &first, &second, inputs);
    report.same_buffer("both versions: the outputs", &out_1, &out_2, inputs);
    if let Ok(count) = first {
        let meant = meaning.on(arguments);
        report.same(
            "both versions: the meaning",
            &meant[..],
            out_1.front(count),
            inputs,
        );
    }
}
