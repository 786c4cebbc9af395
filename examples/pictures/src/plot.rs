//! A plot of live ranges: words upwards, instructions rightwards, each value a bar on the words that it takes.

use std::fmt::{self, Write};
use std::ops::Range;

use crate::live_ranges::{LiveRanges, Value};
use crate::svg::{self, FAINT, GRID, INK, Tenths};

/// Pixels: where the plots begin and how wide they are.
pub const LEFT: usize = 60;
pub const PLOT: usize = 836;

/// What a bar shows, and its colour.
#[derive(Clone, Copy, PartialEq)]
enum Colour {
    Input,
    Output,
    Scalar,
    Vector,
    Matrix,
}

const COLOURS: [(Colour, &str, &str); 5] = [
    (Colour::Input, "#7d8b99", "input"),
    (Colour::Scalar, "#3b82c4", "scalar"),
    (Colour::Vector, "#e39a2d", "vector"),
    (Colour::Matrix, "#8462b0", "matrix"),
    (Colour::Output, "#2f9e74", "output, held to the end"),
];

fn colour(value: &Value) -> Colour {
    match (value.output, value.born, value.words) {
        (true, ..) => Colour::Output,
        (_, None, _) => Colour::Input,
        (.., 1) => Colour::Scalar,
        (.., 3) => Colour::Vector,
        _ => Colour::Matrix,
    }
}

/// The colour of a value's bar.
pub fn fill(value: &Value) -> &'static str {
    COLOURS
        .iter()
        .find(|row| row.0 == colour(value))
        .map_or(INK, |row| row.1)
}

/// The colours that the bars of these values have, and what each says.
pub fn colours(values: &[Value]) -> Vec<(&'static str, &'static str)> {
    let there = |row: &&(Colour, _, _)| values.iter().any(|value| colour(value) == row.0);
    let rows = COLOURS.iter().filter(there);
    rows.map(|row| (row.1, row.2)).collect()
}

/// Colours and what they say, in a line below the picture's title; where the line ends.
pub fn legend(out: &mut String, entries: &[(&str, &str)]) -> Result<usize, fmt::Error> {
    let mut x = LEFT;
    for (fill, text) in entries {
        writeln!(
            out,
            "<rect x=\"{x}\" y=\"71\" width=\"14\" height=\"10\" rx=\"1.5\" fill=\"{fill}\"/>"
        )?;
        writeln!(out, "<text x=\"{}\" y=\"80\">{text}</text>", x + 19)?;
        // Letters are about 6 pixels wide.
        x += 6 * text.len() + 40;
    }
    Ok(x)
}

/// A plot of words over instructions: its top, height and counts.
pub struct Plot {
    pub top: usize,
    pub height: usize,
    words: usize,
    instructions: usize,
}

impl Plot {
    /// A plot of these values with its top here; a word is `row` high where all of them take at most `most`.
    pub fn new(ranges: &LiveRanges, top: usize, row: usize, most: usize) -> Plot {
        Plot {
            top,
            height: (row * ranges.words).min(most),
            words: ranges.words,
            instructions: ranges.instructions,
        }
    }

    pub fn bottom(&self) -> usize {
        self.top + self.height
    }

    /// Tenths of a pixel: the left edge of an instruction.
    pub fn x(&self, instruction: usize) -> usize {
        10 * LEFT + 10 * PLOT * instruction / self.instructions.max(1)
    }

    /// The lower edge of a word; word 0 stands at the bottom.
    pub fn y(&self, word: usize) -> usize {
        10 * self.bottom() - 10 * self.height * word / self.words
    }

    /// A bar over words and instructions, with a gap to its neighbours where there is room; its tag is still open.
    pub fn bar(&self, value: &Value, held: Range<usize>, fill: &str) -> String {
        let gap = if self.height / self.words >= 6 { 10 } else { 0 };
        let (x, end) = (self.x(held.start), self.x(held.end));
        let (y, bottom) = (self.y(value.span().end), self.y(value.address));
        let round = if gap > 0 { " rx=\"1.5\"" } else { "" };
        format!(
            "<rect x=\"{}\" y=\"{}\" width=\"{}\" height=\"{}\"{round} fill=\"{fill}\"",
            Tenths(x + gap / 2),
            Tenths(y + gap / 2),
            Tenths((end - x).saturating_sub(gap).max(10)),
            Tenths(bottom - y - gap),
        )
    }

    /// What stands above the plot.
    pub fn heading(&self, out: &mut String, text: &str) -> fmt::Result {
        svg::heading(out, LEFT, self.top - 14, "start", text)
    }

    /// Grid, ticks and their labels.
    pub fn axes(&self, out: &mut String) -> fmt::Result {
        let (left, right) = (LEFT, LEFT + PLOT);
        for word in (0..=self.words).step_by(step(self.words)) {
            let y = Tenths(self.y(word));
            writeln!(out, "<path d=\"M{left} {y}H{right}\" stroke=\"{GRID}\"/>")?;
            let y = Tenths(self.y(word) + 40);
            writeln!(
                out,
                "<text x=\"{}\" y=\"{y}\" text-anchor=\"end\">{word}</text>",
                left - 8
            )?;
        }
        let bottom = self.bottom();
        for number in (0..=self.instructions).step_by(step(self.instructions)) {
            let x = Tenths(self.x(number));
            writeln!(out, "<path d=\"M{x} {bottom}v5\" stroke=\"{FAINT}\"/>")?;
            writeln!(
                out,
                "<text x=\"{x}\" y=\"{}\" text-anchor=\"middle\">{number}</text>",
                bottom + 18
            )?;
        }
        writeln!(
            out,
            "<path d=\"M{left} {bottom}H{right}\" stroke=\"{FAINT}\"/>"
        )?;
        let middle = self.top + self.height / 2;
        writeln!(
            out,
            "<text transform=\"translate(16 {middle}) rotate(-90)\" text-anchor=\"middle\">word address</text>"
        )?;
        writeln!(
            out,
            "<text x=\"{right}\" y=\"{}\" text-anchor=\"end\">instruction</text>",
            bottom + 34
        )
    }
}

/// Steps of 1, 2 or 5 times a power of ten, at most twelve of them.
fn step(count: usize) -> usize {
    let steps = (0..5).flat_map(|power| [1, 2, 5].map(|digit| digit * 10usize.pow(power)));
    steps
        .into_iter()
        .find(|step| count / step <= 12)
        .unwrap_or(100_000)
}

/// What a bar says when the picture is open in a browser.
pub fn described(value: &Value) -> String {
    let last = value.span().end - 1;
    let words = match value.words {
        1 => format!("word {last}"),
        _ => format!("words {} to {last}", value.address),
    };
    let born = match value.born {
        None => "input".to_string(),
        Some(born) => format!("instruction {born}"),
    };
    let read = match (value.output, value.last) {
        (true, _) => "output".to_string(),
        (_, last) if last == value.born => "never read".to_string(),
        (_, Some(last)) => format!("last read by {last}"),
        _ => "never read".to_string(),
    };
    format!("{words}: {born}, {read}")
}
