//! Judging a list that a router proposes, by where the content of each word comes from: refusals 18, 33 and 29,
//! behind the table's and 14 to 16.

use std::ops::Range;

use crate::compile::compile;
use crate::ports::{constant_words, ports, type_words};
use crate::run::{CheckedCode, check_code, result_words, u16_at};
use crate::{Refusal, refuse};

/// Where the content of a word comes from.
#[derive(Clone, Copy, Debug, PartialEq, Eq)]
enum Origin {
    /// Nothing was written there.
    Unwritten,
    /// This argument word.
    Argument(usize),
    /// The instruction with this number in version 1's list, and this word of its result.
    Result(usize, usize),
}

/// The origins of all words of a list at one moment.
struct Words(Vec<Origin>);

impl Words {
    /// Before the first instruction: the arguments, and nothing behind them.
    fn new(list: &CheckedCode) -> Words {
        let mut words = vec![Origin::Unwritten; list.words];
        for (argument, word) in words[..list.argument_words].iter_mut().enumerate() {
            *word = Origin::Argument(argument);
        }
        Words(words)
    }

    /// Writes the result of an instruction that carries out this number.
    fn write(&mut self, number: usize, instruction: &Instruction) {
        let result = &mut self.0[instruction.writes.clone()];
        for (k, word) in result.iter_mut().enumerate() {
            *word = Origin::Result(number, k);
        }
    }

    /// What these words hold.
    fn holds(&self, addresses: &[usize]) -> Vec<Origin> {
        addresses.iter().map(|&address| self.0[address]).collect()
    }
}

struct Instruction<'a> {
    /// The kind, the type byte and the constant's bytes.
    operation: (u8, u8, &'a [u8]),
    /// The words of all operands, one after the other.
    reads: Vec<usize>,
    writes: Range<usize>,
}

/// The instructions of a list of either version, and the words of its outputs.
fn opened<'a>(list: &CheckedCode<'a>) -> (Vec<Instruction<'a>>, Vec<usize>) {
    let code = list.code;
    let mut at = 12;
    let mut next = list.argument_words;
    let mut instructions = Vec::with_capacity(list.instructions);
    for _ in 0..list.instructions {
        let (kind, ty) = (code[at], code[at + 1]);
        at += 2;
        let mut address = || {
            at += 2;
            u16_at(code, at - 2)
        };
        let first = match list.version {
            1 => next,
            _ => address(),
        };
        let ports = ports(kind, ty).expect("a checked list");
        let mut reads = vec![];
        for &ty in ports.operands {
            let operand = address();
            reads.extend(operand..operand + type_words(ty));
        }
        let constant = &code[at..at + 8 * constant_words(kind).unwrap_or(0)];
        at += constant.len();
        next = first + result_words(&ports);
        instructions.push(Instruction {
            operation: (kind, ty, constant),
            reads,
            writes: first..next,
        });
    }
    let outputs = code[at..].chunks_exact(2);
    (instructions, outputs.map(|word| u16_at(word, 0)).collect())
}

/// Judges a version 2 list that is proposed for the function with this id. `numbers` says of each of its
/// instructions which one of version 1's list it carries out. The instruction count, or the first fault.
pub fn judge_placement(
    table: &[u8],
    id: u16,
    code: &[u8],
    numbers: &[u16],
) -> Result<usize, Refusal> {
    // No buffer is too short here, so that leaves the table's refusals and 14 to 16.
    let own_code = compile(table, id, usize::MAX)?;
    let own = check_code(&own_code).expect("a compiled list");
    let proposed = check_code(code)?;
    if proposed.version != 2 {
        return refuse(18, 0);
    }
    let counts = |list: &CheckedCode| (list.argument_words, list.output_words, list.instructions);
    if counts(&proposed) != counts(&own) || numbers.len() != own.instructions {
        return refuse(33, 0);
    }

    // Version 1 writes each word once, so its words after all instructions say what is read anywhere.
    let (own_instructions, own_outputs) = opened(&own);
    let mut own_words = Words::new(&own);
    for (number, instruction) in own_instructions.iter().enumerate() {
        own_words.write(number, instruction);
    }

    let (instructions, outputs) = opened(&proposed);
    let mut words = Words::new(&proposed);
    let mut carried_out = vec![false; own.instructions];
    for (at, (instruction, &number)) in instructions.iter().zip(numbers).enumerate() {
        let number = number as usize;
        let Some(carried) = own_instructions.get(number) else {
            return refuse(29, at);
        };
        if carried_out[number]
            || instruction.operation != carried.operation
            || words.holds(&instruction.reads) != own_words.holds(&carried.reads)
        {
            return refuse(29, at);
        }
        carried_out[number] = true;
        words.write(number, instruction);
    }
    if words.holds(&outputs) != own_words.holds(&own_outputs) {
        return refuse(29, own.instructions);
    }
    Ok(own.instructions)
}
