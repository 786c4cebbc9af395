//! Lists that a router proposes, each with the numbers of the version 1 instructions that it carries out: lists in
//! version 1's order, lists that reorder and use words again, and spoiled ones.

use crate::codes::{Code, Instruction, result_words};
use crate::graph::{Function, Graph, input};
use crate::kinds;
use crate::random::Random;
use crate::reorder::{List, WORDS};

/// A list and, for each of its instructions, a number of version 1's list.
#[derive(Clone, Debug)]
pub struct Proposal {
    pub code: Code,
    pub numbers: Vec<u16>,
}

impl Proposal {
    /// A well-formed list of either version whose instructions stand as in version 1.
    pub fn in_order(code: &[u8]) -> Proposal {
        let code = Code::from_bytes(code);
        Proposal {
            numbers: (0..code.instruction_count).collect(),
            code,
        }
    }
}

/// An order of version 1's instructions, and an address for each result, by its instruction's number.
#[derive(Clone, Debug)]
pub struct Route {
    pub order: Vec<usize>,
    pub addresses: Vec<usize>,
}

/// Which of the gaps for a result the router takes. A gap has no word that holds what is still needed, but it may have
/// words of the result's own operands, of arguments, and of a value whose other words are needed.
#[derive(Clone, Copy, Debug, PartialEq, Eq)]
pub enum Gap {
    Lowest,
    /// The one that ends highest below word 8,192.
    Highest,
    /// One up to the end of the words used so far.
    Near,
    /// One that may also leave words between the values, which nothing writes.
    Spread,
}

impl Gap {
    pub const ALL: [Gap; 4] = [Gap::Lowest, Gap::Highest, Gap::Near, Gap::Spread];
}

/// The place of an output's reader, behind every instruction.
const END: usize = usize::MAX;

/// The first and the last place in an order that reads what a word holds.
#[derive(Clone, Copy)]
struct Life {
    first: usize,
    last: usize,
}

impl Life {
    const UNREAD: Life = Life {
        first: END,
        last: 0,
    };

    /// Whether an instruction behind this place reads it, or an output. The one at this place has read it.
    fn needed_behind(&self, place: usize) -> bool {
        self.last > place
    }
}

impl List {
    /// The proposal of a route.
    pub fn propose(&self, route: &Route) -> Proposal {
        Proposal {
            code: self.write(&route.order, &route.addresses),
            numbers: route.order.iter().map(|&at| at as u16).collect(),
        }
    }

    /// When each word of version 1's list is read in this order.
    fn lives(&self, order: &[usize]) -> Vec<Life> {
        let mut lives = vec![Life::UNREAD; self.code.words.into()];
        for (place, &at) in order.iter().enumerate() {
            for word in self.code.instructions[at].read_words() {
                let life = &mut lives[word];
                life.first = life.first.min(place);
                life.last = place;
            }
        }
        for &word in &self.code.outputs {
            lives[word as usize].last = END;
        }
        lives
    }

    /// What the words hold before the first instruction, as lives.
    fn arguments_held(&self, lives: &[Life]) -> Vec<Life> {
        let arguments = self.code.argument_words as usize;
        let mut held = vec![Life::UNREAD; WORDS];
        held[..arguments].copy_from_slice(&lives[..arguments]);
        held
    }

    /// Writes an instruction's result at an address.
    fn hold(&self, held: &mut [Life], lives: &[Life], at: usize, address: usize) {
        let own = self.code.instructions[at].written_words();
        held[address..address + own.len()].copy_from_slice(&lives[own]);
    }

    /// Places each result in a gap, in this order.
    pub fn route(&self, random: &mut Random, order: Vec<usize>, gap: Gap) -> Route {
        let lives = self.lives(&order);
        let mut held = self.arguments_held(&lives);
        let mut addresses = vec![0; self.count()];
        // One more than the highest word used so far. It grows by at most a result's words and `reach`, so that
        // all ends below 8,192.
        let mut end: usize = self.code.argument_words.into();
        let reach = match gap {
            Gap::Spread => self.spare() / self.count().max(1),
            _ => 0,
        };
        for (place, &at) in order.iter().enumerate() {
            let words = self.words(at);
            let free = |&address: &usize| {
                let gap = &held[address..address + words];
                !gap.iter().any(|life| life.needed_behind(place))
            };
            let address = match gap {
                Gap::Lowest => (0..=end).find(free),
                Gap::Highest => (0..=WORDS - words).rev().find(free),
                Gap::Near | Gap::Spread => {
                    let last = end + reach;
                    let start = random.range(0, last);
                    (start..=last).chain(0..start).find(free)
                }
            };
            let address = address.expect("the words behind all others are free");
            addresses[at] = address;
            end = end.max(address + words);
            self.hold(&mut held, &lives, at, address);
        }
        Route { order, addresses }
    }

    /// The route with one result moved onto a word whose content is still needed, mostly one that has been read before:
    /// 01's slip. What reads the result reads it there, so the list stays well formed.
    pub fn slip(&self, random: &mut Random, route: &Route) -> Option<Route> {
        let lives = self.lives(&route.order);
        let mut held = self.arguments_held(&lives);
        let from = random.below(self.count().max(1));
        for (place, &at) in route.order.iter().enumerate() {
            let needed = |word: &usize| held[*word].needed_behind(place);
            let mut words: Vec<usize> = match place < from {
                true => vec![],
                false => (0..WORDS).filter(needed).collect(),
            };
            let read_before = |word: &usize| held[*word].first <= place;
            if random.chance(80) && words.iter().any(read_before) {
                words.retain(read_before);
            }
            if words.is_empty() {
                self.hold(&mut held, &lives, at, route.addresses[at]);
                continue;
            }
            let word = *random.pick(&words);
            let own = self.words(at);
            let mut slipped = route.clone();
            slipped.addresses[at] = word.saturating_sub(random.below(own)).min(WORDS - own);
            return Some(slipped);
        }
        None
    }
}

/// Constants that are alike, two that are read and two that are not, and zeros of both signs, which a quotient tells
/// apart.
pub fn alike_constants() -> Graph {
    let mut f = Function::new(1, &[1]);
    let constants = [2.0, 2.0, 2.0, 2.0, 0.0, -0.0].map(|x| f.constant(&[x]));
    let difference = f.node(kinds::SUBTRACTION, 1, &constants[..2]);
    f.output(1, difference);
    for zero in &constants[4..] {
        let quotient = f.node(kinds::DIVISION, 1, &[input(0), *zero]);
        f.output(1, quotient);
    }
    Graph { functions: vec![f] }
}

/// What is wrong with a proposal.
#[derive(Clone, Copy, Debug, PartialEq, Eq)]
pub enum Spoiled {
    /// Two numbers have changed places.
    NumbersExchanged,
    /// A number stands in another's place too.
    NumberDoubled,
    /// A number that no instruction has.
    NumberBeyond,
    NumberMissing,
    NumberAdded,
    /// An operand one word higher or lower.
    OperandMoved,
    /// An operand at any other words that were written before.
    OperandElsewhere,
    /// Two operands of an instruction have changed places.
    OperandsExchanged,
    /// A result one word higher or lower, and none of its readers.
    ResultMoved,
    /// A constant differs in one bit.
    ConstantBit,
    /// An output one word higher or lower.
    OutputMoved,
    /// Two outputs have changed places.
    OutputsExchanged,
    /// Two instructions have changed places, but not their numbers.
    InstructionsExchanged,
    /// Two instructions have changed places with their numbers.
    OrderBroken,
    /// Another kind that reads and writes as many words.
    OtherKind,
    OtherType,
    /// An argument word more or less.
    ArgumentWords,
    /// An output word more or less.
    OutputWords,
    /// An instruction is left out, with its number or not.
    InstructionMissing,
    /// An instruction stands twice, with its number or not.
    InstructionAdded,
}

impl Spoiled {
    pub const ALL: [Spoiled; 20] = [
        Spoiled::NumbersExchanged,
        Spoiled::NumberDoubled,
        Spoiled::NumberBeyond,
        Spoiled::NumberMissing,
        Spoiled::NumberAdded,
        Spoiled::OperandMoved,
        Spoiled::OperandElsewhere,
        Spoiled::OperandsExchanged,
        Spoiled::ResultMoved,
        Spoiled::ConstantBit,
        Spoiled::OutputMoved,
        Spoiled::OutputsExchanged,
        Spoiled::InstructionsExchanged,
        Spoiled::OrderBroken,
        Spoiled::OtherKind,
        Spoiled::OtherType,
        Spoiled::ArgumentWords,
        Spoiled::OutputWords,
        Spoiled::InstructionMissing,
        Spoiled::InstructionAdded,
    ];
}

impl Proposal {
    /// The proposal spoiled in this way, if it can be.
    pub fn spoiled(&self, random: &mut Random, spoiled: Spoiled) -> Option<Proposal> {
        let mut proposal = self.clone();
        let Proposal { code, numbers } = &mut proposal;
        let count = code.instructions.len();
        let step = *random.pick(&[1, u16::MAX]);
        match spoiled {
            Spoiled::NumbersExchanged => {
                let (a, b) = two(random, numbers.len())?;
                numbers.swap(a, b);
            }
            Spoiled::NumberDoubled => {
                let (a, b) = two(random, numbers.len())?;
                numbers[a] = numbers[b];
            }
            Spoiled::NumberBeyond => {
                let at = one(random, numbers.len())?;
                let any = random.range(count, 65_535);
                numbers[at] = *random.pick(&[count, count + 1, 65_535, any]) as u16;
            }
            Spoiled::NumberMissing => {
                let at = one(random, numbers.len())?;
                numbers.remove(at);
            }
            Spoiled::NumberAdded => {
                let number = random.range(0, count) as u16;
                numbers.insert(random.range(0, numbers.len()), number);
            }
            Spoiled::OperandMoved => {
                let (at, k) = some_operand(random, code)?;
                let operand = &mut code.instructions[at].operands[k];
                *operand = operand.wrapping_add(step);
            }
            Spoiled::OperandElsewhere => {
                let (at, k) = some_operand(random, code)?;
                code.instructions[at].operands[k] = elsewhere(random, code, at, k)?;
            }
            Spoiled::OperandsExchanged => {
                let at = some_instruction(random, code, |i| exchangeable(i).is_some())?;
                let instruction = &mut code.instructions[at];
                let (a, b) = exchangeable(instruction)?;
                instruction.operands.swap(a, b);
            }
            Spoiled::ResultMoved => {
                let at = one(random, count)?;
                let result = &mut code.instructions[at].result;
                *result = result.wrapping_add(step);
                code.mend_words();
            }
            Spoiled::ConstantBit => {
                let at = some_instruction(random, code, |i| !i.constant.is_empty())?;
                let constant = &mut code.instructions[at].constant;
                let word = random.below(constant.len());
                // A bit of the exponent could make it infinite, which is 18.
                let bit = *random.pick(&[0, 1, 31, 32, 51, 63]);
                constant[word] ^= 1 << bit;
            }
            Spoiled::OutputMoved => {
                let at = one(random, code.outputs.len())?;
                code.outputs[at] = code.outputs[at].wrapping_add(step);
            }
            Spoiled::OutputsExchanged => {
                let (a, b) = two(random, code.outputs.len())?;
                if code.outputs[a] == code.outputs[b] {
                    return None;
                }
                code.outputs.swap(a, b);
            }
            Spoiled::InstructionsExchanged => {
                let (a, b) = two(random, count)?;
                code.instructions.swap(a, b);
            }
            Spoiled::OrderBroken => {
                let (a, b) = two(random, count.min(numbers.len()))?;
                code.instructions.swap(a, b);
                numbers.swap(a, b);
            }
            Spoiled::OtherKind => {
                let at = some_instruction(random, code, |i| !alike(i.kind, i.ty).is_empty())?;
                let instruction = &mut code.instructions[at];
                let others = alike(instruction.kind, instruction.ty);
                (instruction.kind, instruction.ty) = *random.pick(&others);
            }
            Spoiled::OtherType => {
                let at = some_instruction(random, code, |i| i.ty != 0)?;
                let instruction = &mut code.instructions[at];
                let step = random.range(1, 2) as u8;
                instruction.ty = 1 + (instruction.ty - 1 + step) % 3;
                code.mend_words();
            }
            Spoiled::ArgumentWords => {
                code.argument_words = code.argument_words.wrapping_add(step as u8);
                code.mend_words();
            }
            Spoiled::OutputWords => {
                let last = code.outputs.pop()?;
                code.output_words -= 1;
                if random.chance(50) {
                    code.output(last);
                    code.output(last);
                }
            }
            Spoiled::InstructionMissing => {
                let at = one(random, count)?;
                code.instructions.remove(at);
                code.instruction_count -= 1;
                code.mend_words();
                if random.chance(50) && at < numbers.len() {
                    numbers.remove(at);
                }
            }
            Spoiled::InstructionAdded => {
                let at = one(random, count)?;
                let again = code.instructions[at].clone();
                code.instructions.insert(at, again);
                code.instruction_count += 1;
                if random.chance(50) && at < numbers.len() {
                    numbers.insert(at, numbers[at]);
                }
            }
        }
        Some(proposal)
    }
}

/// A place of so many, if there is one.
fn one(random: &mut Random, count: usize) -> Option<usize> {
    (count > 0).then(|| random.below(count))
}

/// Two places of so many.
fn two(random: &mut Random, count: usize) -> Option<(usize, usize)> {
    let first = one(random, count)?;
    let behind = one(random, count - 1)?;
    Some((first, (first + 1 + behind) % count))
}

/// Some instruction of which this holds.
fn some_instruction(
    random: &mut Random,
    code: &Code,
    holds: impl Fn(&Instruction) -> bool,
) -> Option<usize> {
    let count = code.instructions.len();
    let start = one(random, count)?;
    let mut places = (start..count).chain(0..start);
    places.find(|&at| holds(&code.instructions[at]))
}

/// An instruction and one of its operands.
fn some_operand(random: &mut Random, code: &Code) -> Option<(usize, usize)> {
    let at = some_instruction(random, code, |i| !i.operands.is_empty())?;
    Some((at, random.below(code.instructions[at].operands.len())))
}

/// The words of an instruction's operand.
fn operand_words(instruction: &Instruction, k: usize) -> usize {
    let ports = independent::ports(instruction.kind, instruction.ty).expect("a legal pair");
    independent::type_words(ports.operands[k])
}

/// Another address for an operand whose words were all written before.
fn elsewhere(random: &mut Random, code: &Code, at: usize, k: usize) -> Option<u16> {
    let mut written = vec![false; WORDS];
    written[..code.argument_words.into()].fill(true);
    for instruction in &code.instructions[..at] {
        written.get_mut(instruction.written_words())?.fill(true);
    }
    let own = code.instructions[at].operands[k];
    let words = operand_words(&code.instructions[at], k);
    let other = |address: &usize| {
        *address != own.into() && !written[*address..address + words].contains(&false)
    };
    let last = WORDS.min(code.words.into()).checked_sub(words)?;
    let start = random.range(0, last);
    let found = (start..=last).chain(0..start).find(other);
    found.map(|address| address as u16)
}

/// Two operands of as many words at different addresses.
fn exchangeable(instruction: &Instruction) -> Option<(usize, usize)> {
    let pairs = (1..instruction.operands.len()).map(|k| (k - 1, k));
    let differ = |&(a, b): &(usize, usize)| {
        instruction.operands[a] != instruction.operands[b]
            && operand_words(instruction, a) == operand_words(instruction, b)
    };
    pairs.into_iter().find(differ)
}

/// The other pairs of a kind and a type byte that read and write as many words.
fn alike(kind: u8, ty: u8) -> Vec<(u8, u8)> {
    let shape = |(kind, ty): (u8, u8)| {
        let operands = independent::ports(kind, ty)?.operands.iter();
        let operands: Vec<usize> = operands.map(|&ty| independent::type_words(ty)).collect();
        Some((operands, result_words(kind, ty)))
    };
    let own = shape((kind, ty));
    let other = |&pair: &(u8, u8)| pair != (kind, ty) && shape(pair) == own;
    kinds::all().into_iter().filter(other).collect()
}
