//! Running a board list: refusals 18 to 21.

use crate::ports::{Ports, constant_words, ports, type_words};
use crate::read::finite;
use crate::{MOST_OPERATIONS, MOST_WORDS, NAN, Refusal, refuse};

/// A code that was found well formed.
pub struct CheckedCode<'a> {
    pub(crate) code: &'a [u8],
    /// 1 or 2.
    pub version: u16,
    pub argument_words: usize,
    pub output_words: usize,
    pub instructions: usize,
    pub words: usize,
}

pub(crate) fn u16_at(code: &[u8], at: usize) -> usize {
    u16::from_le_bytes([code[at], code[at + 1]]) as usize
}

/// Whether the code is well formed, or refusal 18.
pub fn check_code(code: &[u8]) -> Result<CheckedCode<'_>, Refusal> {
    well_formed(code).ok_or(Refusal {
        number: 18,
        place: 0,
    })
}

fn well_formed(code: &[u8]) -> Option<CheckedCode<'_>> {
    if code.len() < 12 || &code[..3] != b"IFR" || code[7] != 0 {
        return None;
    }
    let checked = CheckedCode {
        code,
        version: u16::from_le_bytes([code[3], code[4]]),
        argument_words: code[5] as usize,
        output_words: code[6] as usize,
        instructions: u16_at(code, 8),
        words: u16_at(code, 10),
    };
    if checked.argument_words > 128
        || !(1..=128).contains(&checked.output_words)
        || checked.instructions as u64 > MOST_OPERATIONS
        || checked.words as u64 > MOST_WORDS
    {
        return None;
    }
    match checked.version {
        1 => well_formed_1(checked),
        2 => well_formed_2(checked),
        _ => None,
    }
}

/// Version 1: each result takes the next words, and operands stand before it.
fn well_formed_1(checked: CheckedCode<'_>) -> Option<CheckedCode<'_>> {
    let code = checked.code;
    let mut at = 12;
    let mut next = checked.argument_words;
    for _ in 0..checked.instructions {
        let head = code.get(at..at + 2)?;
        let ports = ports(head[0], head[1])?;
        at += 2;
        let addresses = code.get(at..at + 2 * ports.operands.len())?;
        for (address, &ty) in addresses.chunks_exact(2).zip(ports.operands) {
            if u16_at(address, 0) + type_words(ty) > next {
                return None;
            }
        }
        at += addresses.len();
        if let Some(words) = constant_words(head[0]) {
            let bytes = code.get(at..at + 8 * words)?;
            if !bytes.chunks_exact(8).all(finite) {
                return None;
            }
            at += bytes.len();
        }
        next += result_words(&ports);
    }
    if next != checked.words {
        return None;
    }
    let outputs = code.get(at..)?;
    if outputs.len() != 2 * checked.output_words {
        return None;
    }
    let below = |address: &[u8]| u16_at(address, 0) < checked.words;
    outputs.chunks_exact(2).all(below).then_some(checked)
}

/// Version 2: each result has an address, and what is read is an argument's or was written before.
fn well_formed_2(checked: CheckedCode<'_>) -> Option<CheckedCode<'_>> {
    let code = checked.code;
    let mut written = vec![false; checked.words];
    written.get_mut(..checked.argument_words)?.fill(true);
    let mut highest = checked.argument_words;
    let mut at = 12;
    for _ in 0..checked.instructions {
        let head = code.get(at..at + 4)?;
        let ports = ports(head[0], head[1])?;
        at += 4;
        let addresses = code.get(at..at + 2 * ports.operands.len())?;
        for (address, &ty) in addresses.chunks_exact(2).zip(ports.operands) {
            let first = u16_at(address, 0);
            let read = written.get(first..first + type_words(ty))?;
            if read.contains(&false) {
                return None;
            }
        }
        at += addresses.len();
        if let Some(words) = constant_words(head[0]) {
            let bytes = code.get(at..at + 8 * words)?;
            if !bytes.chunks_exact(8).all(finite) {
                return None;
            }
            at += bytes.len();
        }
        let first = u16_at(head, 2);
        let end = first + result_words(&ports);
        // A result word that the word count leaves out would make it too small.
        written.get_mut(first..end)?.fill(true);
        highest = highest.max(end);
    }
    if highest != checked.words {
        return None;
    }
    let outputs = code.get(at..)?;
    if outputs.len() != 2 * checked.output_words {
        return None;
    }
    let known = |address: &[u8]| written.get(u16_at(address, 0)) == Some(&true);
    outputs.chunks_exact(2).all(known).then_some(checked)
}

pub(crate) fn result_words(ports: &Ports) -> usize {
    ports.results.iter().map(|&ty| type_words(ty)).sum()
}

/// Runs a code on arguments; gives the count of output words.
pub fn run(
    code: &[u8],
    arguments: &[u64],
    work: &mut [u64],
    out: &mut [u64],
) -> Result<usize, Refusal> {
    let checked = check_code(code)?;
    run_checked(&checked, arguments, work, out)
}

/// Runs a checked code: refusals 19 to 21, then every instruction.
pub fn run_checked(
    checked: &CheckedCode,
    arguments: &[u64],
    work: &mut [u64],
    out: &mut [u64],
) -> Result<usize, Refusal> {
    judge_lent(checked, 1, arguments, work, out)?;
    run_judged(checked, arguments, work, out);
    Ok(checked.output_words)
}

/// Refusals 19 to 21 for the arguments and the buffers of this many runs.
pub(crate) fn judge_lent(
    checked: &CheckedCode,
    count: usize,
    arguments: &[u64],
    work: &[u64],
    out: &[u64],
) -> Result<(), Refusal> {
    if arguments.len() != count * checked.argument_words {
        return refuse(19, 0);
    }
    if !arguments
        .iter()
        .all(|&word| f64::from_bits(word).is_finite())
    {
        return refuse(20, 0);
    }
    if work.len() < checked.words || out.len() < count * checked.output_words {
        return refuse(21, 0);
    }
    Ok(())
}

/// Every instruction, then the outputs: the arguments and the buffers were judged.
pub(crate) fn run_judged(
    checked: &CheckedCode,
    arguments: &[u64],
    work: &mut [u64],
    out: &mut [u64],
) {
    let code = checked.code;
    let work = &mut work[..checked.words];
    work[..arguments.len()].copy_from_slice(arguments);
    let at = match checked.version {
        1 => steps_1(checked, work),
        _ => steps_2(checked, work),
    };
    for (word, address) in out.iter_mut().zip(code[at..].chunks_exact(2)) {
        *word = work[u16_at(address, 0)];
    }
}

/// Every instruction of a version 1 list; where the outputs' addresses stand.
fn steps_1(checked: &CheckedCode, work: &mut [u64]) -> usize {
    let code = checked.code;
    let mut at = 12;
    let mut next = checked.argument_words;
    for _ in 0..checked.instructions {
        (at, next) = step(code[at], code[at + 1], code, at + 2, work, next);
    }
    at
}

/// Every instruction of a version 2 list. A result may stand on its own operands, so it is worked out
/// behind all words and then moved to its address: all operands are read before anything is written.
fn steps_2(checked: &CheckedCode, work: &mut [u64]) -> usize {
    let (code, words) = (checked.code, checked.words);
    let mut memory = work.to_vec();
    memory.extend([0; 16]);
    let mut at = 12;
    for _ in 0..checked.instructions {
        let (kind, ty, address) = (code[at], code[at + 1], u16_at(code, at + 2));
        let (next, end) = step(kind, ty, code, at + 4, &mut memory, words);
        memory.copy_within(words..end, address);
        at = next;
    }
    work.copy_from_slice(&memory[..words]);
    at
}

fn float(word: u64) -> f64 {
    f64::from_bits(word)
}

fn word(value: f64) -> u64 {
    if value.is_nan() { NAN } else { value.to_bits() }
}

/// One instruction, whose operands' addresses stand at `at`: where the next stands, and the end of the result.
#[inline(always)]
fn step(kind: u8, ty: u8, code: &[u8], at: usize, work: &mut [u64], to: usize) -> (usize, usize) {
    let operand = |k: usize| u16_at(code, at + 2 * k);
    match kind {
        1 => binary(code, at, ty, work, to, |a, b| a + b),
        2 => binary(code, at, ty, work, to, |a, b| a - b),
        3 => binary(code, at, ty, work, to, |a, b| a * b),
        4 => binary(code, at, ty, work, to, |a, b| a / b),
        5 => constant(code, at, 1, work, to),
        6 => constant(code, at, 3, work, to),
        7 => constant(code, at, 16, work, to),
        8 => {
            for k in 0..3 {
                work[to + k] = work[operand(k)];
            }
            (at + 6, to + 3)
        }
        9 => {
            let a = work[operand(0)];
            work[to..to + 3].fill(a);
            (at + 2, to + 3)
        }
        10 => {
            let a = operand(0);
            work.copy_within(a..a + 3, to);
            (at + 2, to + 3)
        }
        11 => {
            for k in 0..16 {
                work[to + k] = work[operand(k)];
            }
            (at + 32, to + 16)
        }
        12 => {
            for column in 0..4 {
                let a = operand(column);
                for row in 0..3 {
                    work[to + 4 * row + column] = work[a + row];
                }
                work[to + 12 + column] = if column == 3 { 1f64.to_bits() } else { 0 };
            }
            (at + 8, to + 16)
        }
        13 => {
            for row in 0..4 {
                let a = operand(row);
                for column in 0..3 {
                    work[to + 4 * row + column] = work[a + column];
                }
                work[to + 4 * row + 3] = if row == 3 { 1f64.to_bits() } else { 0 };
            }
            (at + 8, to + 16)
        }
        14 => {
            let a = vector(work, operand(0));
            let b = vector(work, operand(1));
            work[to] = word((a[0] * b[0] + a[1] * b[1]) + a[2] * b[2]);
            (at + 4, to + 1)
        }
        15 => {
            let a = vector(work, operand(0));
            let b = vector(work, operand(1));
            work[to] = word(a[1] * b[2] - a[2] * b[1]);
            work[to + 1] = word(a[2] * b[0] - a[0] * b[2]);
            work[to + 2] = word(a[0] * b[1] - a[1] * b[0]);
            (at + 4, to + 3)
        }
        16 => {
            let m = operand(0);
            let v = vector(work, operand(1));
            for row in 0..3 {
                let r = m + 4 * row;
                let sum =
                    (float(work[r]) * v[0] + float(work[r + 1]) * v[1]) + float(work[r + 2]) * v[2];
                work[to + row] = word(sum + float(work[r + 3]));
            }
            (at + 4, to + 3)
        }
        17 => {
            let m = operand(0);
            for row in 0..4 {
                for column in 0..4 {
                    work[to + 4 * row + column] = work[m + 4 * column + row];
                }
            }
            (at + 2, to + 16)
        }
        18 => binary(code, at, ty, work, to, |a, b| if a < b { a } else { b }),
        19 => binary(code, at, ty, work, to, |a, b| if a > b { a } else { b }),
        20 => {
            let (a, n) = (operand(0), type_words(ty));
            for k in 0..n {
                work[to + k] = word(float(work[a + k]).abs());
            }
            (at + 2, to + n)
        }
        21 => binary(code, at, ty, work, to, |a, b| a % b),
        22 => {
            let (a, b, c, d) = (operand(0), operand(1), operand(2), operand(3));
            let n = type_words(ty);
            for k in 0..n {
                let less = float(work[a + k]) < float(work[b + k]);
                work[to + k] = if less { work[c + k] } else { work[d + k] };
            }
            (at + 8, to + n)
        }
        _ => {
            let (a, lo, hi) = (operand(0), operand(1), operand(2));
            let n = type_words(ty);
            for k in 0..n {
                let (x, lo, hi) = (work[a + k], work[lo + k], work[hi + k]);
                work[to + k] = if float(x) < float(lo) {
                    lo
                } else if float(hi) < float(x) {
                    hi
                } else {
                    x
                };
            }
            (at + 6, to + n)
        }
    }
}

fn vector(work: &[u64], at: usize) -> [f64; 3] {
    [float(work[at]), float(work[at + 1]), float(work[at + 2])]
}

/// A component step on two operands.
#[inline(always)]
fn binary(
    code: &[u8],
    at: usize,
    ty: u8,
    work: &mut [u64],
    to: usize,
    step: impl Fn(f64, f64) -> f64,
) -> (usize, usize) {
    let (a, b) = (u16_at(code, at), u16_at(code, at + 2));
    let n = type_words(ty);
    for k in 0..n {
        work[to + k] = word(step(float(work[a + k]), float(work[b + k])));
    }
    (at + 4, to + n)
}

fn constant(code: &[u8], at: usize, n: usize, work: &mut [u64], to: usize) -> (usize, usize) {
    let bytes = &code[at..at + 8 * n];
    for (word, bytes) in work[to..to + n].iter_mut().zip(bytes.chunks_exact(8)) {
        *word = u64::from_le_bytes(bytes.try_into().unwrap());
    }
    (at + 8 * n, to + n)
}
