//! Lists of one kind of value, for the runner.

use generate::codes::Code;
use generate::kinds::*;

/// A list and arguments for it; values stay near 1.
pub struct List {
    pub name: String,
    pub instructions: usize,
    pub code: Vec<u8>,
    pub arguments: Vec<u64>,
    /// The ratio aimed at.
    pub target: f64,
}

fn arguments(count: usize) -> Vec<u64> {
    (0..count)
        .map(|k| (0.5 + k as f64 / 64.0).to_bits())
        .collect()
}

/// Scalar kinds in turn, each reading the result before it.
fn scalars(count: usize) -> Code {
    let mut code = Code::new(4);
    for k in 0..count as u16 {
        let last = code.words - 1;
        match k % 9 {
            0 => code.push(MULTIPLICATION, 1, &[last, 0], &[]),
            1 => code.push(ADDITION, 1, &[last, 1], &[]),
            2 => code.push(MIN, 1, &[last, 3], &[]),
            3 => code.push(SUBTRACTION, 1, &[2, last], &[]),
            4 => code.push(ABS, 1, &[last], &[]),
            5 => code.push(MAX, 1, &[last, 0], &[]),
            6 => code.push(CLAMP, 1, &[last, 0, 3], &[]),
            7 => code.push(CONSTANT, 0, &[], &[0.75f64.to_bits()]),
            _ => code.push(SELECT, 1, &[last, 1, last - 1, 2], &[]),
        }
    }
    code.output(code.words - 1);
    code
}

/// Vector kinds in turn; every second instruction is a dot, so that 4,000 fit into 8,192 words.
fn vectors(count: usize) -> Code {
    let mut code = Code::new(12);
    let mut last = 9;
    for k in 0..count as u16 {
        let next = code.words;
        match k % 12 {
            0 => code.push(MULTIPLICATION, 2, &[last, 0], &[]),
            2 => code.push(ADDITION, 2, &[last, 3], &[]),
            4 => code.push(MIN, 2, &[last, 6], &[]),
            6 => code.push(CROSS, 0, &[last, 3], &[]),
            8 => code.push(CLAMP, 2, &[last, 0, 6], &[]),
            10 => code.push(VECTORFROMSCALAR, 0, &[next - 1], &[]),
            _ => code.push(DOT, 0, &[last, 6], &[]),
        }
        if k % 2 == 0 {
            last = next;
        }
    }
    code.output(code.words - 1);
    code
}

/// Matrix kinds in turn; with 16 words each, 500 are nearly all that fit into 8,192 words.
fn matrices(count: usize) -> Code {
    let mut code = Code::new(32);
    for k in 0..count as u16 {
        let last = code.words - 16;
        match k % 6 {
            0 => code.push(MULTIPLICATION, 3, &[last, 0], &[]),
            1 => code.push(ADDITION, 3, &[last, 16], &[]),
            2 => code.push(TRANSPOSE, 0, &[last], &[]),
            3 => code.push(MIN, 3, &[last, 16], &[]),
            4 => code.push(SELECT, 3, &[last, 0, 16, last], &[]),
            _ => code.push(SUBTRACTION, 3, &[last, 0], &[]),
        }
    }
    code.output(code.words - 1);
    code
}

fn list(name: &str, code: &Code, target: f64) -> List {
    let instructions = code.instructions.len();
    List {
        name: format!("{name}, {instructions}"),
        instructions,
        code: code.to_bytes(),
        arguments: arguments(code.argument_words.into()),
        target,
    }
}

fn heat_exchanger(target: f64) -> List {
    let table = generate::heat_exchanger::graph().to_bytes();
    let code = independent::compile(&table, 6, usize::MAX).expect("within the limits");
    List {
        name: "heat exchanger".into(),
        instructions: u16::from_le_bytes([code[8], code[9]]) as usize,
        arguments: arguments(code[5].into()),
        code,
        target,
    }
}

/// The lists of the benchmark.
pub fn lists() -> Vec<List> {
    let mut lists = vec![];
    for count in [10, 300, 4000] {
        lists.push(list("scalars", &scalars(count), 0.7));
    }
    for count in [10, 300, 4000] {
        lists.push(list("vectors", &vectors(count), 0.8));
    }
    for count in [10, 300, 500] {
        lists.push(list("matrices", &matrices(count), 1.2));
    }
    lists.push(heat_exchanger(0.7));
    lists
}

/// The lists that are run at many points.
#[cfg(feature = "points")]
pub fn layer_lists() -> Vec<List> {
    vec![
        list("scalars", &scalars(300), 0.6),
        list("vectors", &vectors(300), 0.6),
        list("matrices", &matrices(300), 0.6),
        heat_exchanger(0.6),
    ]
}
