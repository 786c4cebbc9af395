//! Version 1's instructions in other orders and other words, written as lists of version 2 in which each value
//! has words of its own; and lists that break one of these rules.

use crate::codes::{Code, result_words};
use crate::random::Random;

/// How many words a list may have.
pub(crate) const WORDS: usize = independent::MOST_WORDS as usize;

/// How the instructions are ordered: each stands after all whose results it reads.
#[derive(Clone, Copy, Debug, PartialEq, Eq)]
pub enum Order {
    /// As in version 1.
    Own,
    /// Always any of those that are ready, each as likely.
    Any,
    /// Always the one of those that are ready that stands last in version 1.
    Last,
    /// Depth first from the outputs; what no output needs stands anywhere.
    DepthFirst,
}

impl Order {
    pub const ALL: [Order; 4] = [Order::Own, Order::Any, Order::Last, Order::DepthFirst];
}

/// Where the results stand: no two values share a word, and the arguments keep the first words.
#[derive(Clone, Copy, Debug, PartialEq, Eq)]
pub enum Placement {
    /// As in version 1.
    Own,
    /// One behind the other, in any sequence.
    Packed,
    /// In any sequence, with gaps between them.
    Spread,
    /// Packed, but for one that ends at the highest word.
    Highest,
    /// Packed below the highest word.
    FromTop,
}

impl Placement {
    pub const ALL: [Placement; 5] = [
        Placement::Own,
        Placement::Packed,
        Placement::Spread,
        Placement::Highest,
        Placement::FromTop,
    ];
}

/// The one rule that a list breaks.
#[derive(Clone, Copy, Debug, PartialEq, Eq)]
pub enum Broken {
    /// An instruction stands before one whose result it reads.
    ReadEarly,
    /// Two values share a word.
    SharedWord,
    /// A value's last word is 8,192 or above.
    WordAbove,
    /// An instruction is left out.
    LeftOut,
    /// An instruction stands twice.
    Doubled,
}

impl Broken {
    pub const ALL: [Broken; 5] = [
        Broken::ReadEarly,
        Broken::SharedWord,
        Broken::WordAbove,
        Broken::LeftOut,
        Broken::Doubled,
    ];
}

/// A version 1 list that a compiler wrote: each operand lies within one value.
pub struct List {
    pub(crate) code: Code,
    /// For each word behind the arguments, the instruction that writes it.
    writers: Vec<usize>,
    /// For each instruction, those whose results it reads.
    reads: Vec<Vec<usize>>,
}

impl List {
    pub fn new(code: &[u8]) -> List {
        let code = Code::from_bytes(code);
        let mut list = List {
            writers: vec![],
            reads: vec![],
            code,
        };
        for at in 0..list.count() {
            let operands = &list.code.instructions[at].operands;
            let mut reads: Vec<usize> = operands.iter().filter_map(|&o| list.writer(o)).collect();
            reads.sort();
            reads.dedup();
            list.reads.push(reads);
            list.writers.extend(vec![at; list.words(at)]);
        }
        list
    }

    pub(crate) fn count(&self) -> usize {
        self.code.instructions.len()
    }

    /// The words of an instruction's result.
    pub(crate) fn words(&self, at: usize) -> usize {
        let instruction = &self.code.instructions[at];
        result_words(instruction.kind, instruction.ty)
    }

    /// The instruction that writes a word; none for an argument's.
    fn writer(&self, word: u16) -> Option<usize> {
        let behind = word.checked_sub(self.code.argument_words.into())?;
        Some(self.writers[behind as usize])
    }

    /// The address of each result in version 1.
    pub fn own_addresses(&self) -> Vec<usize> {
        let instructions = self.code.instructions.iter();
        instructions.map(|i| i.result.into()).collect()
    }

    // ---- orders

    /// The instructions, by their numbers in version 1, in another order.
    pub fn order(&self, random: &mut Random, order: Order) -> Vec<usize> {
        match order {
            Order::Own => (0..self.count()).collect(),
            Order::Any => self.schedule(|ready| random.below(ready.len())),
            Order::Last => self.schedule(|ready| least(ready, |at| self.count() - at)),
            Order::DepthFirst => {
                let ranks = self.depth_first(random);
                self.schedule(|ready| least(ready, |at| ranks[at]))
            }
        }
    }

    /// An order in which `pick` says which of the ready ones is next.
    fn schedule(&self, mut pick: impl FnMut(&[usize]) -> usize) -> Vec<usize> {
        let mut readers = vec![vec![]; self.count()];
        for (at, reads) in self.reads.iter().enumerate() {
            for &read in reads {
                readers[read].push(at);
            }
        }
        let mut missing: Vec<usize> = self.reads.iter().map(Vec::len).collect();
        let mut ready: Vec<usize> = (0..self.count()).filter(|&at| missing[at] == 0).collect();
        let mut order = vec![];
        while !ready.is_empty() {
            let at = ready.swap_remove(pick(&ready));
            order.push(at);
            for &reader in &readers[at] {
                missing[reader] -= 1;
                if missing[reader] == 0 {
                    ready.push(reader);
                }
            }
        }
        order
    }

    /// Odd ranks that count up depth first from the outputs, and any even rank for what no output needs.
    fn depth_first(&self, random: &mut Random) -> Vec<usize> {
        let mut ranks = vec![None; self.count()];
        let mut needed = 0;
        for &output in &self.code.outputs {
            let mut path: Vec<usize> = self.writer(output).into_iter().collect();
            while let Some(&at) = path.last() {
                match self.reads[at].iter().find(|&&read| ranks[read].is_none()) {
                    Some(&read) => path.push(read),
                    None => {
                        path.pop();
                        if ranks[at].is_none() {
                            ranks[at] = Some(2 * needed + 1);
                            needed += 1;
                        }
                    }
                }
            }
        }
        let ranks = ranks.into_iter();
        ranks
            .map(|rank| rank.unwrap_or_else(|| 2 * random.range(0, needed)))
            .collect()
    }

    // ---- placements

    /// An address for the result of each instruction, by its number in version 1.
    pub fn placement(&self, random: &mut Random, placement: Placement) -> Vec<usize> {
        let spare = self.spare();
        let last = self.count().saturating_sub(1);
        match placement {
            Placement::Own => self.own_addresses(),
            Placement::Packed => self.packed(random, 0, 0),
            Placement::Spread => self.spread(random),
            Placement::Highest => self.packed(random, last, spare as isize),
            Placement::FromTop => self.packed(random, 0, spare as isize),
        }
    }

    /// The words that are left when all values are packed.
    pub(crate) fn spare(&self) -> usize {
        WORDS - self.code.words as usize
    }

    fn some_sequence(&self, random: &mut Random) -> Vec<usize> {
        let mut sequence: Vec<usize> = (0..self.count()).collect();
        random.shuffle(&mut sequence);
        sequence
    }

    /// Packed in any sequence, but for one gap, at this place of the sequence.
    fn packed(&self, random: &mut Random, place: usize, gap: isize) -> Vec<usize> {
        let sequence = self.some_sequence(random);
        self.lay(&sequence, |k| if k == place { gap } else { 0 })
    }

    /// In any sequence, with all spare words between the values, or about as many as values.
    fn spread(&self, random: &mut Random) -> Vec<usize> {
        let count = self.count();
        let most = *random.pick(&[self.spare(), self.spare().min(count)]);
        let mut before: Vec<usize> = (0..count).map(|_| random.range(0, most)).collect();
        before.sort();
        let gap = |k: usize| before[k] - if k == 0 { 0 } else { before[k - 1] };
        let sequence = self.some_sequence(random);
        self.lay(&sequence, |k| gap(k) as isize)
    }

    /// Addresses behind the arguments in this sequence, each with its gap to what stands before it.
    fn lay(&self, sequence: &[usize], gap: impl Fn(usize) -> isize) -> Vec<usize> {
        let mut addresses = vec![0; self.count()];
        let mut end: usize = self.code.argument_words.into();
        for (k, &at) in sequence.iter().enumerate() {
            addresses[at] = end.strict_add_signed(gap(k));
            end = addresses[at] + self.words(at);
        }
        addresses
    }

    // ---- lists

    /// The version 2 list of these instructions in this order, with the results at these addresses.
    pub fn write(&self, order: &[usize], addresses: &[usize]) -> Code {
        let own = &self.code;
        let moved = |&word: &u16| match self.writer(word) {
            Some(at) => addresses[at] as u16 + (word - own.instructions[at].result),
            None => word,
        };
        let mut code = Code::version_2(own.argument_words);
        for &at in order {
            let i = &own.instructions[at];
            let operands: Vec<u16> = i.operands.iter().map(moved).collect();
            code.push_at(addresses[at] as u16, i.kind, i.ty, &operands, &i.constant);
        }
        for word in &own.outputs {
            code.output(moved(word));
        }
        code
    }

    /// A list that breaks one rule, if one of these instructions can.
    pub fn broken(&self, random: &mut Random, broken: Broken) -> Option<Code> {
        let count = self.count();
        if count == 0 {
            return None;
        }
        let (order, placement) = (*random.pick(&Order::ALL), *random.pick(&Placement::ALL));
        let mut order = self.order(random, order);
        let mut addresses = self.placement(random, placement);
        let at = random.below(count);
        match broken {
            Broken::ReadEarly => {
                let mut places = (0..count).map(|k| (at + k) % count);
                let reader = places.find(|&at| !self.reads[at].is_empty())?;
                let read = *random.pick(&self.reads[reader]);
                order.retain(|&other| other != reader);
                let place = order.iter().position(|&other| other == read)?;
                // Directly before it, or anywhere before.
                let from = *random.pick(&[0, place]);
                order.insert(random.range(from, place), reader);
            }
            Broken::SharedWord => {
                // One begins on the last word of what stands before it; the first may, if that is an argument's.
                let first = usize::from(self.code.argument_words == 0);
                let place = (first < count).then(|| random.range(first, count - 1))?;
                addresses = self.packed(random, place, -1);
            }
            Broken::WordAbove => {
                let above = *random.pick(&[1, 1, 2, 3, 16, 17, 100]);
                addresses = self.packed(random, count - 1, self.spare() as isize + above);
            }
            Broken::LeftOut => drop(order.remove(at)),
            Broken::Doubled => order.insert(random.range(0, count), at),
        }
        Some(self.write(&order, &addresses))
    }
}

/// The place of the ready one with the least rank.
fn least(ready: &[usize], rank: impl Fn(usize) -> usize) -> usize {
    let places = 0..ready.len();
    places.min_by_key(|&k| rank(ready[k])).expect("a ready one")
}
