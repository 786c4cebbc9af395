//! Runs of lists, the words after them, and the meaning of graphs.

use generate::codes::{self, Code};
use generate::graph::Graph;
use generate::random::Random;
use generate::{kinds, shapes};
use independent::{Meaning, Refusal};

use crate::check::as_independent;
use crate::marked::Marked;
use crate::report::{Part, Report, hex, hex_words};

/// Lengths of the lent buffers.
#[derive(Clone, Copy, Debug)]
pub struct Room {
    pub work: usize,
    pub out: usize,
}

/// What the library's run gave.
#[cfg_attr(not(feature = "evaluate_version"), allow(dead_code))]
pub struct Ran {
    pub answer: Result<usize, Refusal>,
    pub out: Marked<u64>,
}

/// What a run is given, for people.
pub fn inputs(code: &[u8], arguments: &[u64], room: Room) -> String {
    let arguments = hex_words(arguments);
    format!("  {room:?}, arguments {arguments}\n  code {}", hex(code))
}

/// Holds a run: the answer, both buffers, and the meaning where there is one.
pub fn compare(
    report: &mut Report,
    code: &[u8],
    arguments: &[u64],
    room: Room,
    meaning: Option<&Meaning>,
) -> Ran {
    let (mut work, mut out) = (Marked::words(room.work), Marked::words(room.out));
    let wanted = independent::run(code, arguments, work.lent(), out.lent());
    let (mut got_work, mut got_out) = (Marked::words(room.work), Marked::words(room.out));
    let got = as_independent(quetlapin::run(
        code,
        arguments,
        got_work.lent(),
        got_out.lent(),
    ));
    let inputs = || inputs(code, arguments, room);
    report.same_buffer("run: the work buffer", &work, &got_work, inputs);
    report.same_buffer("run: the output buffer", &out, &got_out, inputs);
    if wanted.is_ok() && Part::run(code) == Part::RunVersion2 {
        report.same(
            "run: words never written",
            &Vec::<usize>::new(),
            &written_over(code, &got_work, room),
            inputs,
        );
    }
    if let (Ok(count), Some(meaning)) = (wanted, meaning) {
        report.same(
            "run: the meaning",
            &meaning.on(arguments)[..],
            got_out.front(count),
            inputs,
        );
    }
    if wanted.is_err() {
        let untouched = work == Marked::words(room.work) && out == Marked::words(room.out);
        report.same(
            "the independent run: buffers after a refusal",
            &true,
            &untouched,
            inputs,
        );
    }
    report.hold(Part::run(code), wanted, got, inputs);
    Ran {
        answer: got,
        out: got_out,
    }
}

/// The work words that a well-formed list of version 2 never writes and that no longer have their marks.
fn written_over(code: &[u8], work: &Marked<u64>, room: Room) -> Vec<usize> {
    let code = Code::from_bytes(code);
    let mut written = vec![false; room.work];
    written[..code.argument_words as usize].fill(true);
    for instruction in &code.instructions {
        let words = codes::result_words(instruction.kind, instruction.ty);
        written[instruction.result as usize..][..words].fill(true);
    }
    let marks = Marked::words(room.work);
    let pairs = work.front(room.work).iter().zip(marks.front(room.work));
    pairs
        .enumerate()
        .filter(|&(at, (word, mark))| !written[at] && word != mark)
        .map(|(at, _)| at)
        .collect()
}

/// The room that a code says it needs for so many points, exactly, or more, or less.
pub fn some_room(random: &mut Random, code: &[u8], points: usize) -> Room {
    let field = |at: usize| code.get(at).copied().unwrap_or(0) as usize;
    let (work, out) = (field(10) + 256 * field(11), field(6));
    let mut around = |need: usize| match random.below(100) {
        0..=3 => need.saturating_sub(1),
        4 => random.below(need + 1),
        5..=54 => need,
        _ => need + random.range(1, 20),
    };
    Room {
        work: around(work.min(9000)),
        out: around(points * out),
    }
}

/// Arguments for a count of words: mostly right, at times too few, too many or not finite.
pub fn some_arguments(random: &mut Random, count: usize) -> Vec<u64> {
    let count = match random.below(100) {
        0 => count + 1,
        1 => count.saturating_sub(1),
        2 => random.below(140),
        _ => count,
    };
    let mut arguments = finite_arguments(random, count);
    if count > 0 && random.chance(3) {
        let at = random.below(count);
        arguments[at] = random.not_finite();
    }
    arguments
}

/// Arguments that are all finite: from all of binary64, or close to zero.
pub fn finite_arguments(random: &mut Random, count: usize) -> Vec<u64> {
    let calm = random.chance(40);
    let word = |_| match calm {
        true => (random.range(0, 2000) as f64 / 64.0 - 15.0).to_bits(),
        false => random.finite(),
    };
    (0..count).map(word).collect()
}

pub fn argument_words(code: &[u8]) -> usize {
    code.get(5).copied().unwrap_or(0) as usize
}

/// Runs a compiled function.
pub fn compiled(report: &mut Report, random: &mut Random, meaning: &Meaning, code: &[u8]) {
    let arguments = some_arguments(random, argument_words(code));
    let room = some_room(random, code, 1);
    compare(report, code, &arguments, room, Some(meaning));
}

/// Runs a list that no compiler wrote, and a damaged one.
pub fn list(report: &mut Report, random: &mut Random) {
    let code = codes::random_code(random);
    list_and_damaged(report, random, &code);
}

/// The same with a list of version 2.
#[cfg(feature = "evaluate_version")]
pub fn list_2(report: &mut Report, random: &mut Random) {
    let code = codes::random_code_2(random);
    list_and_damaged(report, random, &code);
}

fn list_and_damaged(report: &mut Report, random: &mut Random, code: &Code) {
    let bytes = code.to_bytes();
    let arguments = some_arguments(random, argument_words(&bytes));
    let room = some_room(random, &bytes, 1);
    compare(report, &bytes, &arguments, room, None);
    let bytes = codes::damaged_code(random, code);
    damaged(report, random, &bytes);
}

pub fn damaged(report: &mut Report, random: &mut Random, bytes: &[u8]) {
    let arguments = some_arguments(random, argument_words(bytes));
    let room = some_room(random, bytes, 1);
    compare(report, bytes, &arguments, room, None);
}

/// Runs a compiled code with damaged bytes.
pub fn damaged_compiled(report: &mut Report, random: &mut Random, code: &[u8]) {
    let mut bytes = code.to_vec();
    codes::damage_bytes(random, &mut bytes);
    damaged(report, random, &bytes);
}

/// Numerators and denominators whose quotients are zeros, infinities, NaN and numbers.
const QUOTIENTS: [(f64, f64); 20] = [
    (0.0, 1.0),
    (-0.0, 1.0),
    (1.0, 0.0),
    (-1.0, 0.0),
    (0.0, 0.0),
    (1.0, 1.0),
    (-1.0, 1.0),
    (2.5, 1.0),
    (-2.5, 1.0),
    (5e-324, 1.0),
    (-5e-324, 1.0),
    (f64::MAX, 1.0),
    (f64::MIN, 1.0),
    (f64::MIN_POSITIVE, 1.0),
    (1.0, 3.0),
    (-7.0, 3.0),
    (1e200, 1e-200),
    (1e-200, 1e200),
    (0.1, 1.0),
    (1e308, 1.0),
];

/// Runs of each kind where not all combinations are tried.
const RUNS_OF_A_KIND: usize = 300;

/// Every kind at every type on quotients.
pub fn every_kind(report: &mut Report, random: &mut Random) {
    for (kind, ty) in kinds::all() {
        let graph = shapes::kind_on_quotients(kind, ty);
        let table = graph.to_bytes();
        let code = independent::compile(&table, 1, usize::MAX).expect("within the limits");
        let code_2 = independent::compile_version(&table, 1, 2, usize::MAX);
        let code_2 = code_2.expect("within the limits");
        let meaning = Meaning::of(&table, 1);
        let inputs = &graph.functions[0].inputs;
        let most = Room {
            work: 8192,
            out: 128,
        };
        let scalars = inputs.iter().all(|&ty| ty == 1);
        let operands = independent::ports(kind, ty)
            .expect("a legal pair")
            .operands
            .len();
        // All pairs and triples of scalar operands; otherwise at random.
        let all = match (scalars, operands) {
            (true, 1) => 20,
            (true, 2) => 400,
            (true, 3) => 8000,
            _ => RUNS_OF_A_KIND,
        };
        for k in 0..all {
            let mut arguments = vec![];
            for (pair, types) in inputs.chunks(2).enumerate() {
                let words = independent::type_words(types[0]);
                let quotients: Vec<(f64, f64)> = (0..words)
                    .map(|_| match scalars && operands <= 3 {
                        true => QUOTIENTS[k / 20usize.pow(pair.min(2) as u32) % 20],
                        false if random.chance(60) => *random.pick(&QUOTIENTS),
                        false => (f64::from_bits(random.finite()), 1.0),
                    })
                    .collect();
                arguments.extend(quotients.iter().map(|q| q.0.to_bits()));
                arguments.extend(quotients.iter().map(|q| q.1.to_bits()));
            }
            let room = if k < 3 { most } else { exact_room(&code) };
            compare(report, &code, &arguments, room, Some(&meaning));
            // Version 2 on some of them.
            if cfg!(feature = "evaluate_version") && k % 7 == 0 {
                compare(report, &code_2, &arguments, room, Some(&meaning));
            }
        }
    }
}

/// The room that a good code needs.
pub fn exact_room(code: &[u8]) -> Room {
    Room {
        work: u16::from_le_bytes([code[10], code[11]]) as usize,
        out: code[6] as usize,
    }
}

/// Runs with known answers, lists at the limits, and every byte of A's code changed.
pub fn fixed(report: &mut Report, random: &mut Random) {
    let word = f64::to_bits;
    let a = independent::compile(&shapes::case_a().to_bytes(), 1, 20).expect("example A");
    let m = independent::compile(&shapes::case_m().to_bytes(), 1, 20).expect("example M");
    for (name, code, arguments, wanted) in [
        ("J", &a, [word(3.0), word(0.5)], word(1.5)),
        ("L", &a, [word(1e200), word(1e200)], word(f64::INFINITY)),
        ("M", &m, [0, 0], 0x7FF8_0000_0000_0000),
    ] {
        let mut out = [0];
        let got = as_independent(quetlapin::run(code, &arguments, &mut [0; 3], &mut out));
        report.same(
            &format!("example {name}"),
            &(Ok(1), [wanted]),
            &(got, out),
            || hex(code),
        );
    }
    for at in 0..a.len() {
        for byte in 0..=255 {
            let mut code = a.clone();
            code[at] = byte;
            damaged(report, random, &code);
        }
        damaged(report, random, &a[..at]);
    }
    let mut graphs = shapes::all_shapes();
    graphs.extend([shapes::case_k(), shapes::case_n(0), shapes::case_o(0)]);
    for graph in &graphs {
        shape(report, random, graph);
    }
    let mut lists = vec![
        codes::wrapping_words(),
        codes::additions(4095),
        codes::additions(4096),
        codes::additions(4097),
        vec![],
        b"IFR".to_vec(),
    ];
    // No instruction and no argument: a word count of 0.
    let mut none = Code::new(0);
    none.output(0);
    lists.push(none.to_bytes());
    // 8,192 words exactly, and one more.
    for more in 0..2 {
        let mut code = Code::new(16);
        for _ in 0..511 {
            code.push(kinds::TRANSPOSE, 0, &[0], &[]);
        }
        for _ in 0..more {
            code.push(kinds::ABS, 1, &[0], &[]);
        }
        code.output(code.words - 1);
        lists.push(code.to_bytes());
    }
    // Argument and output words around their limits.
    for arguments in [0, 1, 127, 128, 129, 255] {
        for outputs in [0, 1, 127, 128, 129, 255] {
            let mut code = Code::new(arguments);
            code.push(kinds::CONSTANT, 0, &[], &[0]);
            for _ in 0..outputs {
                code.output(0);
            }
            lists.push(code.to_bytes());
        }
    }
    for code in lists {
        for _ in 0..4 {
            damaged(report, random, &code);
        }
        let arguments = vec![0; argument_words(&code)];
        let room = Room {
            work: 9000,
            out: 300,
        };
        compare(report, &code, &arguments, room, None);
    }
}

/// Runs each function of a graph that can be compiled.
fn shape(report: &mut Report, random: &mut Random, graph: &Graph) {
    let table = graph.to_bytes();
    for function in &graph.functions {
        let code = independent::compile(&table, function.id, usize::MAX);
        if let Ok(code) = code {
            let meaning = Meaning::of(&table, function.id);
            for _ in 0..4 {
                compiled(report, random, &meaning, &code);
            }
        }
    }
}
