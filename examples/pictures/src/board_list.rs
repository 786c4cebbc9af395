//! A board list as data, and its bytes: version 1 as document 01 has it, version 2 as request 9 of document 02 does.

use std::ops::Range;

use quetlapin::Refusal;

/// How many words a list may have.
pub const MOST_WORDS: usize = 8192;

#[derive(Clone, Debug, PartialEq, Eq)]
pub struct Instruction {
    pub kind: u8,
    pub ty: u8,
    /// The words of its result.
    pub result: Range<usize>,
    /// The words of each operand.
    pub operands: Vec<Range<usize>>,
    /// The constant's bytes, for kinds 5 to 7.
    pub constant: Vec<u8>,
}

#[derive(Clone, Debug, PartialEq, Eq)]
pub struct BoardList {
    /// How many words the arguments take, from word 0 on.
    pub arguments: usize,
    pub words: usize,
    pub instructions: Vec<Instruction>,
    /// The address of each output word.
    pub outputs: Vec<usize>,
}

/// The words of each operand of a kind at a type, and those of its result, as document 01 has them.
pub fn ports(kind: u8, ty: u8) -> (&'static [usize], usize) {
    const SAME: [[usize; 4]; 3] = [[1; 4], [3; 4], [16; 4]];
    let same = |count: usize| {
        let row = &SAME[usize::from(ty.clamp(1, 3)) - 1];
        (&row[..count], row[0])
    };
    match kind {
        5 => (&[], 1),
        6 => (&[], 3),
        7 => (&[], 16),
        8 => (&[1; 3], 3),
        9 => (&[1], 3),
        10 => (&[3], 3),
        11 => (&[1; 16], 16),
        12 | 13 => (&[3; 4], 16),
        14 => (&[3; 2], 1),
        15 => (&[3; 2], 3),
        16 => (&[16, 3], 3),
        17 => (&[16], 16),
        20 => same(1),
        22 => same(4),
        23 => same(3),
        _ => same(2),
    }
}

/// Document 01's name of a kind of instruction.
pub fn name(kind: u8) -> &'static str {
    const NAMES: [&str; 23] = [
        "addition",
        "subtraction",
        "multiplication",
        "division",
        "constant",
        "constvec",
        "constmat",
        "composevector",
        "vectorfromscalar",
        "decomposevector",
        "composematrix",
        "matrixfromcolumns",
        "matrixfromrows",
        "dot",
        "cross",
        "matvecmultiplication",
        "transpose",
        "min",
        "max",
        "abs",
        "fmod",
        "select",
        "clamp",
    ];
    NAMES[usize::from(kind) - 1]
}

/// Whether two spans have a word in common.
pub fn shares(a: &Range<usize>, b: &Range<usize>) -> bool {
    a.start < b.end && b.start < a.end
}

pub fn u16_at(bytes: &[u8], at: usize) -> usize {
    usize::from(u16::from_le_bytes([bytes[at], bytes[at + 1]]))
}

/// The code of a function in this version; a refusal in words.
pub fn compile(table: &[u8], id: u16, version: u16) -> Result<Vec<u8>, String> {
    let mut code = vec![0; quetlapin::LONGEST_CODE_2];
    let compiled = quetlapin::compile_version(table, id, version, &mut code);
    code.truncate(compiled.map_err(|refusal| words(refusal, version))?);
    Ok(code)
}

/// A refusal of a compilation in words.
fn words(Refusal { number, place }: Refusal, version: u16) -> String {
    let why = match number {
        14 => "the table has no function of this id",
        15 => "the function has more than 4,096 operations",
        16 => &format!("the function has more than 8,192 words in version {version}"),
        31 => "the library does not know this version of a list",
        _ => {
            return format!(
                "refused with number {number} at byte {place}: this is no graph table that the library accepts"
            );
        }
    };
    format!("refused with number {number}: {why}")
}

impl BoardList {
    /// The list of a well-formed code of either version.
    pub fn read(code: &[u8]) -> BoardList {
        let (version, arguments, outputs) =
            (u16_at(code, 3), usize::from(code[5]), usize::from(code[6]));
        let (mut at, mut next) = (12, arguments);
        let u16_next = |at: &mut usize| {
            *at += 2;
            u16_at(code, *at - 2)
        };
        let mut instructions = vec![];
        for _ in 0..u16_at(code, 8) {
            let (kind, ty) = (code[at], code[at + 1]);
            let (widths, width) = ports(kind, ty);
            at += 2;
            // In version 1 a result takes the next words.
            let result = if version == 1 {
                next
            } else {
                u16_next(&mut at)
            };
            next = result + width;
            let mut operand = |width: &usize| {
                let address = u16_next(&mut at);
                address..address + width
            };
            let operands = widths.iter().map(&mut operand).collect();
            let constant = match kind {
                5..=7 => code[at..at + 8 * width].to_vec(),
                _ => vec![],
            };
            at += constant.len();
            instructions.push(Instruction {
                kind,
                ty,
                result: result..next,
                operands,
                constant,
            });
        }
        let outputs = (0..outputs).map(|_| u16_next(&mut at)).collect();
        BoardList {
            arguments,
            words: u16_at(code, 10),
            instructions,
            outputs,
        }
    }

    /// The code of version 2.
    pub fn code_2(&self) -> Vec<u8> {
        let u16_bytes = |number: usize| (number as u16).to_le_bytes();
        let mut code = b"IFR\x02\0".to_vec();
        code.extend([self.arguments as u8, self.outputs.len() as u8, 0]);
        code.extend(u16_bytes(self.instructions.len()));
        code.extend(u16_bytes(self.words));
        for Instruction {
            kind,
            ty,
            result,
            operands,
            constant,
        } in &self.instructions
        {
            code.extend([*kind, *ty]);
            code.extend(u16_bytes(result.start));
            code.extend(operands.iter().flat_map(|operand| u16_bytes(operand.start)));
            code.extend(constant);
        }
        code.extend(self.outputs.iter().flat_map(|&output| u16_bytes(output)));
        code
    }
}

#[cfg(test)]
mod tests {
    use super::*;
    use crate::examples;

    /// A list read from version 2 and written again is the same bytes; read from version 1 it has the same kinds,
    /// types and constants.
    #[test]
    fn what_is_read_is_what_stands_there() {
        for (table, id) in examples::functions() {
            let code = compile(&table, id, 2).unwrap();
            let list = BoardList::read(&code);
            assert_eq!(list.code_2(), code);
            let first = BoardList::read(&compile(&table, id, 1).unwrap());
            assert_eq!(first.instructions.len(), list.instructions.len());
            for (a, b) in first.instructions.iter().zip(&list.instructions) {
                assert_eq!((a.kind, a.ty, &a.constant), (b.kind, b.ty, &b.constant));
            }
        }
    }
}
