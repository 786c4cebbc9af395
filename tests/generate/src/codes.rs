//! Random board lists that no compiler wrote, and damage to lists.

use std::ops::Range;

use crate::kinds;
use crate::random::Random;

#[derive(Clone, Debug)]
pub struct Instruction {
    pub kind: u8,
    pub ty: u8,
    /// The address of the result's first word, which version 1 leaves out.
    pub result: u16,
    pub operands: Vec<u16>,
    pub constant: Vec<u64>,
}

impl Instruction {
    /// The words of all operands, one after the other.
    pub fn read_words(&self) -> Vec<usize> {
        let types = independent::ports(self.kind, self.ty).map_or(&[][..], |ports| ports.operands);
        let operands = self.operands.iter().zip(types);
        let words = |(&first, &ty): (&u16, &u8)| {
            let first = usize::from(first);
            first..first + independent::type_words(ty)
        };
        operands.flat_map(words).collect()
    }

    /// The words of the result.
    pub fn written_words(&self) -> Range<usize> {
        let first = usize::from(self.result);
        first..first + result_words(self.kind, self.ty)
    }
}

/// A list with all its fields, right or wrong.
#[derive(Clone, Debug)]
pub struct Code {
    pub mark: [u8; 3],
    pub version: u16,
    pub argument_words: u8,
    pub output_words: u8,
    pub zero: u8,
    pub instruction_count: u16,
    pub words: u16,
    pub instructions: Vec<Instruction>,
    pub outputs: Vec<u16>,
}

impl Code {
    /// A version 2 list without instructions and outputs.
    pub fn version_2(argument_words: u8) -> Code {
        Code {
            version: 2,
            ..Code::new(argument_words)
        }
    }

    /// A list without instructions and outputs.
    pub fn new(argument_words: u8) -> Code {
        Code {
            mark: *b"IFR",
            version: 1,
            argument_words,
            output_words: 0,
            zero: 0,
            instruction_count: 0,
            words: argument_words.into(),
            instructions: vec![],
            outputs: vec![],
        }
    }

    /// Adds an instruction, and its words to the word count.
    pub fn push(&mut self, kind: u8, ty: u8, operands: &[u16], constant: &[u64]) {
        let result = self.words;
        let words = self.words.wrapping_add(result_words(kind, ty) as u16);
        self.push_at(result, kind, ty, operands, constant);
        self.words = words;
    }

    /// Adds an instruction whose result stands at this address; the word count is one more than the highest word.
    pub fn push_at(&mut self, result: u16, kind: u8, ty: u8, operands: &[u16], constant: &[u64]) {
        self.instruction_count += 1;
        self.instructions.push(Instruction {
            kind,
            ty,
            result,
            operands: operands.to_vec(),
            constant: constant.to_vec(),
        });
        self.count_words(self.instructions.len() - 1);
    }

    /// Sets the word count to one more than the highest word of the arguments and results.
    pub fn mend_words(&mut self) {
        self.words = self.argument_words.into();
        self.count_words(0);
    }

    /// Raises the word count for the results from this instruction on; ends above 65,535 wrap.
    fn count_words(&mut self, from: usize) {
        let ends = self.instructions[from..]
            .iter()
            .map(|instruction| instruction.written_words().end as u16);
        self.words = ends.fold(self.words, u16::max);
    }

    pub fn output(&mut self, address: u16) {
        self.output_words += 1;
        self.outputs.push(address);
    }

    pub fn to_bytes(&self) -> Vec<u8> {
        let mut code = self.mark.to_vec();
        code.extend(self.version.to_le_bytes());
        code.extend([self.argument_words, self.output_words, self.zero]);
        code.extend(self.instruction_count.to_le_bytes());
        code.extend(self.words.to_le_bytes());
        for instruction in &self.instructions {
            code.extend([instruction.kind, instruction.ty]);
            if self.version == 2 {
                code.extend(instruction.result.to_le_bytes());
            }
            for address in &instruction.operands {
                code.extend(address.to_le_bytes());
            }
            for word in &instruction.constant {
                code.extend(word.to_le_bytes());
            }
        }
        for address in &self.outputs {
            code.extend(address.to_le_bytes());
        }
        code
    }

    /// The list of a well-formed code of either version.
    pub fn from_bytes(bytes: &[u8]) -> Code {
        let u16_at = |at: usize| u16::from_le_bytes([bytes[at], bytes[at + 1]]);
        let mut code = Code::new(bytes[5]);
        code.version = u16_at(3);
        let mut at = 12;
        for _ in 0..u16_at(8) {
            let (kind, ty) = (bytes[at], bytes[at + 1]);
            at += 2;
            let mut addresses = |count: usize| -> Vec<u16> {
                at += 2 * count;
                (at - 2 * count..at).step_by(2).map(u16_at).collect()
            };
            let result = match code.version {
                2 => addresses(1)[0],
                _ => code.words,
            };
            let operands = independent::ports(kind, ty).expect("a legal pair").operands;
            let operands = addresses(operands.len());
            let constants = constant_words(kind, ty);
            let constant: Vec<u64> = bytes[at..at + 8 * constants]
                .chunks_exact(8)
                .map(|word| u64::from_le_bytes(word.try_into().expect("8 bytes")))
                .collect();
            at += 8 * constants;
            code.push_at(result, kind, ty, &operands, &constant);
        }
        for address in (at..bytes.len()).step_by(2) {
            code.output(u16_at(address));
        }
        code
    }
}

fn constant_words(kind: u8, ty: u8) -> usize {
    match kind {
        kinds::CONSTANT..=kinds::CONSTMAT => result_words(kind, ty),
        _ => 0,
    }
}

/// The words of an instruction's result; none for an illegal pair.
pub fn result_words(kind: u8, ty: u8) -> usize {
    let ports = independent::ports(kind, ty);
    ports.map_or(0, |p| {
        p.results
            .iter()
            .map(|&ty| independent::type_words(ty))
            .sum()
    })
}

/// A random well-formed list. Operands may straddle values.
pub fn random_code(random: &mut Random) -> Code {
    let arguments = match random.below(10) {
        0 => 0,
        1 => *random.pick(&[1, 127, 128]),
        _ => random.range(1, 40),
    };
    let mut code = Code::new(arguments as u8);
    let count = match random.below(100) {
        0..=4 => 0,
        5..=59 => random.range(1, 8),
        60..=98 => random.range(9, 60),
        _ => random.range(61, 1500),
    };
    let pairs = kinds::all();
    let mut next = arguments;
    for _ in 0..count {
        let (kind, ty) = *random.pick(&pairs);
        let operands = independent::ports(kind, ty).expect("a legal pair").operands;
        let words = result_words(kind, ty);
        let readable = |&ty: &u8| independent::type_words(ty) <= next;
        if next + words > 8192 || !operands.iter().all(readable) {
            continue;
        }
        let operands: Vec<u16> = operands
            .iter()
            .map(|&ty| {
                let last = next - independent::type_words(ty);
                // Often the last words that may be read.
                match random.chance(25) {
                    true => last as u16,
                    false => random.range(0, last) as u16,
                }
            })
            .collect();
        let constant: Vec<u64> = (0..constant_words(kind, ty))
            .map(|_| random.finite())
            .collect();
        code.push(kind, ty, &operands, &constant);
        next += words;
    }
    if next == 0 {
        let word = random.finite();
        code.push(5, 0, &[], &[word]);
        next = 1;
    }
    for _ in 0..*random.pick(&[1, 1, 2, 3, 16, 127, 128]) {
        let address = match random.chance(25) {
            true => next - 1,
            false => random.below(next),
        };
        code.output(address as u16);
    }
    code
}

/// A random well-formed list of version 2: results stand anywhere, on their own operands too, are written
/// over, or leave words between them that nothing ever writes.
pub fn random_code_2(random: &mut Random) -> Code {
    let arguments = *random.pick(&[0, 0, 1, 3, 16, 17, 19, 35, 127, 128]);
    let mut code = Code::version_2(arguments);
    let count = match random.below(100) {
        0..=4 => 0,
        5..=69 => random.range(1, 12),
        70..=98 => random.range(13, 60),
        _ => random.range(61, 400),
    };
    // Few words are written over often; many leave holes.
    let most = *random.pick(&[32, 64, 200, 200, 1000, 8192]);
    let most = most.max(arguments as usize + 16);
    let mut written = vec![false; most];
    written[..arguments as usize].fill(true);
    let pairs = kinds::all();
    for _ in 0..count {
        let (kind, ty) = *random.pick(&pairs);
        let types = independent::ports(kind, ty).expect("a legal pair").operands;
        let operands: Option<Vec<u16>> = types
            .iter()
            .map(|&ty| written_words(random, &written, independent::type_words(ty)))
            .collect();
        let Some(operands) = operands else {
            continue;
        };
        let words = result_words(kind, ty);
        let highest = code.words as usize;
        let first = match (random.below(8), operands.first()) {
            // On its own operand, or partly on it.
            (0 | 1, Some(&operand)) => operand as usize,
            (2, Some(&operand)) => operand as usize + random.range(1, 4),
            (3, Some(&operand)) => (operand as usize).saturating_sub(random.range(1, 4)),
            (4, _) => highest,
            (5, _) => highest + random.range(1, 20),
            (6, _) => random.below(highest + 1),
            _ => random.below(most),
        };
        let first = first.min(most - words);
        let constant: Vec<u64> = (0..constant_words(kind, ty))
            .map(|_| random.finite())
            .collect();
        code.push_at(first as u16, kind, ty, &operands, &constant);
        written[first..first + words].fill(true);
    }
    if code.words == 0 {
        let word = random.finite();
        let first = random.below(most);
        code.push_at(first as u16, kinds::CONSTANT, 0, &[], &[word]);
        written[first] = true;
    }
    for _ in 0..*random.pick(&[1, 1, 2, 3, 16, 127, 128]) {
        let address = written_words(random, &written, 1).expect("a written word");
        code.output(address);
    }
    code
}

/// So many words one after the other that are all written, if there are any.
fn written_words(random: &mut Random, written: &[bool], count: usize) -> Option<u16> {
    let all = |first: usize| {
        written[first..].len() >= count && !written[first..first + count].contains(&false)
    };
    let start = random.below(written.len());
    let found = (start..written.len())
        .chain(0..start)
        .find(|&first| all(first));
    found.map(|first| first as u16)
}

/// A list with one to three faults, or with changes that leave it well formed.
pub fn damaged_code(random: &mut Random, code: &Code) -> Vec<u8> {
    let mut code = code.clone();
    if random.chance(70) {
        for _ in 0..*random.pick(&[1, 1, 1, 2]) {
            damage_fields(random, &mut code);
        }
        return code.to_bytes();
    }
    let mut bytes = code.to_bytes();
    damage_bytes(random, &mut bytes);
    bytes
}

/// Damages a list's bytes, whatever they are.
pub fn damage_bytes(random: &mut Random, bytes: &mut Vec<u8>) {
    let at = random.below(bytes.len());
    match random.below(6) {
        0 => bytes[at] = random.word() as u8,
        1 => bytes[at] ^= 1 << random.below(8),
        2 => bytes[at] = bytes[at].wrapping_add(*random.pick(&[1, 255])),
        3 => bytes.truncate(at),
        4 => bytes.extend(vec![0; random.range(1, 4)]),
        _ => drop(bytes.remove(at)),
    }
}

fn damage_fields(random: &mut Random, code: &mut Code) {
    let one = *random.pick(&[1u16, 0xFFFF]);
    let count = code.instructions.len();
    // The address of each result's first word.
    let mut result = code.argument_words as usize;
    let at = if count > 0 { random.below(count) } else { 0 };
    for instruction in &code.instructions[..at] {
        result += result_words(instruction.kind, instruction.ty);
    }
    if code.version == 2 && random.chance(50) {
        return damage_placement(random, code);
    }
    match random.below(18) {
        0 => code.mark[random.below(3)] ^= 1 << random.below(8),
        1 => code.version = random.below(4) as u16 * 256 + random.below(4) as u16,
        2 => code.zero = random.word() as u8,
        3 => code.instruction_count = code.instruction_count.wrapping_add(one),
        4 => code.words = code.words.wrapping_add(one),
        5 => code.words = *random.pick(&[0, 8192, 8193, 0xFFFF]),
        6 => code.argument_words = code.argument_words.wrapping_add(one as u8),
        // One argument word more or less, with the word count to match.
        7 => {
            code.argument_words = code.argument_words.wrapping_add(one as u8);
            code.words = code.words.wrapping_add(one);
        }
        8 => {
            code.output_words =
                *random.pick(&[0, 129, 255, code.output_words.wrapping_add(one as u8)])
        }
        9 => drop(code.outputs.pop()),
        10 if !code.outputs.is_empty() => {
            let k = random.below(code.outputs.len());
            code.outputs[k] = *random.pick(&[
                code.words,
                code.words.wrapping_sub(1),
                code.words.wrapping_add(1),
                0xFFFF,
                0,
            ]);
        }
        // An operand whose last word is the result's first, or beyond.
        11..=13 if count > 0 => {
            let instruction = &mut code.instructions[at];
            let ports = independent::ports(instruction.kind, instruction.ty);
            if let (Some(ports), false) = (ports, instruction.operands.is_empty()) {
                let k = random.below(instruction.operands.len());
                let words = independent::type_words(ports.operands[k]);
                instruction.operands[k] = match random.below(5) {
                    0 => result as u16,
                    1 => 0xFFFF,
                    2 => 0xFFFF - words as u16 + 1,
                    _ => (result + 1).saturating_sub(words) as u16,
                };
            }
        }
        14 if count > 0 => {
            let constant = &mut code.instructions[at].constant;
            if !constant.is_empty() {
                let k = random.below(constant.len());
                constant[k] = random.not_finite();
            }
        }
        15 if count > 0 => code.instructions[at].kind = *random.pick(&[0, 24, 25, 255]),
        16 if count > 0 => code.instructions[at].ty = *random.pick(&[0, 1, 2, 3, 4, 255]),
        _ if count > 0 => drop(code.instructions.remove(at)),
        _ => code.outputs.push(0),
    }
}

/// Damages what is version 2's own: addresses of results, what was written when it is read, the word count.
fn damage_placement(random: &mut Random, code: &mut Code) {
    let step = *random.pick(&[1u16, 2, 16, 0xFFFF, 0xFFFE]);
    let words = code.words;
    let somewhere = *random.pick(&[0, words.wrapping_sub(1), words, 8191, 8192, 0xFFF0, 0xFFFF]);
    let count = code.instructions.len();
    if count == 0 {
        code.words = words.wrapping_add(step);
        return;
    }
    let at = random.below(count);
    let instruction = &mut code.instructions[at];
    match random.below(8) {
        0 => instruction.result = instruction.result.wrapping_add(step),
        // With the word count to match, where that is the highest.
        1 => {
            let end = instruction.result as usize + result_words(instruction.kind, instruction.ty);
            instruction.result = instruction.result.wrapping_add(step);
            if end == words as usize {
                code.words = words.wrapping_add(step);
            }
        }
        2 => instruction.result = somewhere,
        3 if !instruction.operands.is_empty() => {
            let k = random.below(instruction.operands.len());
            instruction.operands[k] = instruction.operands[k].wrapping_add(step);
        }
        4 if !instruction.operands.is_empty() => {
            let k = random.below(instruction.operands.len());
            instruction.operands[k] = somewhere;
        }
        5 if !code.outputs.is_empty() => {
            let k = random.below(code.outputs.len());
            code.outputs[k] = *random.pick(&[code.outputs[k].wrapping_add(step), somewhere]);
        }
        // What was written before is now written behind.
        6 => code.instructions.swap(at, random.below(count)),
        _ => code.words = words.wrapping_add(*random.pick(&[1, 0xFFFF, step])),
    }
}

/// 4,096 results of 16 words after 128 arguments: a sum of 16 bits would be 128 again.
pub fn wrapping_words() -> Vec<u8> {
    let mut code = Code::new(128);
    for _ in 0..4096 {
        code.push(kinds::TRANSPOSE, 0, &[0], &[]);
    }
    code.output(0);
    code.to_bytes()
}

/// Scalar additions up to a count of instructions, after two arguments.
pub fn additions(count: usize) -> Vec<u8> {
    let mut code = Code::new(2);
    for k in 0..count {
        code.push(kinds::ADDITION, 1, &[k as u16, k as u16 + 1], &[]);
    }
    code.output(code.words - 1);
    code.to_bytes()
}
