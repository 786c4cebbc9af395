//! What was compared, how often each refusal was met, and every difference.

#[cfg(feature = "evaluate_version")]
use std::collections::BTreeMap;
use std::fmt::Debug;
#[cfg(any(feature = "compile", feature = "run"))]
use std::fmt::LowerHex;

use independent::Refusal;

#[cfg(any(feature = "compile", feature = "run"))]
use crate::marked::Marked;

/// What is compared.
#[derive(Clone, Copy, Debug, PartialEq, Eq)]
pub enum Part {
    Check,
    Compile,
    CompileVersion,
    Run,
    RunVersion2,
    Points,
    PointsVersion2,
    Evaluate,
    EvaluateVersion,
    JudgePlacement,
    Lister,
}

const PARTS: [Part; 11] = [
    Part::Check,
    Part::Compile,
    Part::CompileVersion,
    Part::Run,
    Part::RunVersion2,
    Part::Points,
    Part::PointsVersion2,
    Part::Evaluate,
    Part::EvaluateVersion,
    Part::JudgePlacement,
    Part::Lister,
];

/// One more than the highest number of a refusal.
const NUMBERS: usize = 34;

impl Part {
    /// Runs, by the version that a code says it has.
    #[cfg(feature = "run")]
    pub fn run(code: &[u8]) -> Part {
        match code.get(3..5) {
            Some([2, 0]) => Part::RunVersion2,
            _ => Part::Run,
        }
    }

    /// Points, by the version that a code says it has.
    #[cfg(feature = "points")]
    pub fn points(code: &[u8]) -> Part {
        match Part::run(code) {
            Part::RunVersion2 => Part::PointsVersion2,
            _ => Part::Points,
        }
    }
}

/// Differences printed in full; the rest are only counted.
const PRINTED: usize = 5;

pub struct Report {
    /// For each part, how often each refusal was met; at 0, how often none.
    met: [[u64; NUMBERS]; PARTS.len()],
    /// What else a whole run must have met, by name.
    #[cfg(feature = "evaluate_version")]
    counts: BTreeMap<&'static str, u64>,
    pub differences: usize,
}

pub fn hex(bytes: &[u8]) -> String {
    let bytes: Vec<String> = bytes.iter().map(|byte| format!("{byte:02X}")).collect();
    bytes.join(" ")
}

#[cfg(feature = "run")]
pub fn hex_words(words: &[u64]) -> String {
    let words: Vec<String> = words.iter().map(|word| format!("{word:016X}")).collect();
    words.join(" ")
}

impl Report {
    pub fn new() -> Report {
        Report {
            met: [[0; NUMBERS]; PARTS.len()],
            #[cfg(feature = "evaluate_version")]
            counts: BTreeMap::new(),
            differences: 0,
        }
    }

    /// Counts an answer of the independent program.
    pub fn met<T>(&mut self, part: Part, answer: &Result<T, Refusal>) {
        let number = answer.as_ref().err().map_or(0, |refusal| refusal.number);
        self.met[part as usize][number as usize] += 1;
    }

    /// Counts something by its name.
    #[cfg(feature = "evaluate_version")]
    pub fn add(&mut self, name: &'static str) {
        *self.counts.entry(name).or_default() += 1;
    }

    /// How often this was counted.
    #[cfg(feature = "evaluate_version")]
    pub fn counted(&self, name: &str) -> u64 {
        self.counts.get(name).copied().unwrap_or(0)
    }

    /// Counts an answer and holds another to it.
    pub fn hold<T: Debug + PartialEq>(
        &mut self,
        part: Part,
        wanted: Result<T, Refusal>,
        got: Result<T, Refusal>,
        inputs: impl Fn() -> String,
    ) {
        self.met(part, &wanted);
        self.same(&format!("{part:?}: the answer"), &wanted, &got, inputs);
    }

    /// Holds what the library gave to what is wanted.
    pub fn same<T: Debug + PartialEq + ?Sized>(
        &mut self,
        what: &str,
        wanted: &T,
        got: &T,
        inputs: impl Fn() -> String,
    ) {
        if wanted == got {
            return;
        }
        self.differences += 1;
        if self.differences <= PRINTED {
            println!("DIFFERENCE in {what}");
            println!("  wanted  {wanted:X?}");
            println!("  library {got:X?}");
            println!("{}", inputs());
        }
    }

    /// Holds a buffer after a call, with its guards.
    #[cfg(any(feature = "compile", feature = "run"))]
    pub fn same_buffer<T: Copy + LowerHex + PartialEq>(
        &mut self,
        what: &str,
        wanted: &Marked<T>,
        got: &Marked<T>,
        inputs: impl Fn() -> String,
    ) {
        if let Some((at, wanted, got)) = wanted.first_difference(got) {
            let what = format!("{what}, first at {at}");
            self.same(&what, &format!("{wanted:x}"), &format!("{got:x}"), inputs);
        }
    }

    /// How often a part was compared.
    pub fn count(&self, part: Part) -> u64 {
        self.met[part as usize].iter().sum()
    }

    /// A table of the refusals met, in the parts that were compared.
    pub fn print(&self) {
        let width = |part: Part| format!("{part:?}").len().max(9);
        let parts: Vec<Part> = PARTS
            .into_iter()
            .filter(|&part| self.count(part) > 0)
            .collect();
        let row = |name: &str, cell: &dyn Fn(Part) -> String| {
            let cells: Vec<String> = parts
                .iter()
                .map(|&part| format!("{:>1$}", cell(part), width(part)))
                .collect();
            println!("| {name:<8} | {} |", cells.join(" | "));
        };
        row("refusal", &|part| format!("{part:?}"));
        let lines: Vec<String> = parts
            .iter()
            .map(|&part| format!("{:->1$}:", "", width(part) + 1))
            .collect();
        println!("|----------|{}|", lines.join("|"));
        for number in 0..NUMBERS {
            if parts
                .iter()
                .all(|&part| self.met[part as usize][number] == 0)
            {
                continue;
            }
            let name = if number == 0 {
                "none".to_string()
            } else {
                number.to_string()
            };
            row(&name, &|part| self.met[part as usize][number].to_string());
        }
        row("all", &|part| self.count(part).to_string());
    }

    /// The refusals from `first` to `last` that a part never met.
    pub fn never_met(&self, part: Part, first: usize, last: usize) -> Vec<usize> {
        (first..=last)
            .filter(|&number| self.met[part as usize][number] == 0)
            .collect()
    }
}
