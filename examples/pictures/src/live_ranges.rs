//! The live ranges of a board list's values: where each stands, and from when to when it is held.

use std::ops::Range;

use crate::board_list::{BoardList, ports, u16_at};

/// An input of the function, or the result of an instruction.
#[derive(Clone)]
pub struct Value {
    pub address: usize,
    pub words: usize,
    /// The instruction that gives it, from 0; none for an input.
    pub born: Option<usize>,
    /// The last instruction that reads it, its own for a result that nothing reads; none for an input that nothing reads.
    pub last: Option<usize>,
    /// Whether one of its words is an output, so that it is held to the end.
    pub output: bool,
}

impl Value {
    /// The words that it takes.
    pub fn span(&self) -> Range<usize> {
        self.address..self.address + self.words
    }
}

/// A list's values, the inputs first, then the results in the order of their instructions.
#[derive(Clone)]
pub struct LiveRanges {
    pub words: usize,
    pub instructions: usize,
    pub values: Vec<Value>,
}

/// The words of each input of a function that stands in an accepted table.
pub fn inputs(table: &[u8], id: u16) -> Vec<usize> {
    let mut at = 8;
    loop {
        let (own, inputs, outputs) = (
            u16_at(table, at),
            usize::from(table[at + 2]),
            usize::from(table[at + 3]),
        );
        let nodes = u16_at(table, at + 4);
        at += 6;
        if own == usize::from(id) {
            let words = |ty: &u8| [1, 3, 16][usize::from(*ty) - 1];
            return table[at..at + inputs].iter().map(words).collect();
        }
        at += inputs + 4 * outputs;
        for _ in 0..nodes {
            let (kind, ty) = (table[at + 2], table[at + 3]);
            at += 4 + match kind {
                5..=7 => 8 * ports(kind, ty).1,
                24 => 3 + 3 * usize::from(table[at + 6]),
                _ => 3 * ports(kind, ty).0.len(),
            };
        }
    }
}

impl LiveRanges {
    /// Follows the words of a function's list, whose inputs have so many words each.
    pub fn new(list: &BoardList, inputs: &[usize]) -> LiveRanges {
        let mut values: Vec<Value> = Vec::new();
        // The value that each word has at the moment.
        let mut holder = vec![0; list.words];
        let mut next = 0;
        for &words in inputs {
            holder[next..next + words].fill(values.len());
            values.push(Value {
                address: next,
                words,
                born: None,
                last: None,
                output: false,
            });
            next += words;
        }
        for (number, instruction) in list.instructions.iter().enumerate() {
            for operand in &instruction.operands {
                for &value in &holder[operand.clone()] {
                    values[value].last = Some(number);
                }
            }
            let result = instruction.result.clone();
            let (address, words) = (result.start, result.len());
            holder[result].fill(values.len());
            values.push(Value {
                address,
                words,
                born: Some(number),
                last: Some(number),
                output: false,
            });
        }
        for &output in &list.outputs {
            values[holder[output]].output = true;
        }
        LiveRanges {
            words: list.words,
            instructions: list.instructions.len(),
            values,
        }
    }

    /// From the instruction that gives a value to one behind the last that holds it.
    pub fn held(&self, value: &Value) -> Range<usize> {
        let end = match (value.output, value.last) {
            (true, _) => self.instructions,
            (_, Some(last)) => last + 1,
            (_, None) => 0,
        };
        value.born.unwrap_or(0)..end
    }
}
