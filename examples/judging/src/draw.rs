//! The picture, as SVG: the accepted list's live ranges above; below the spoiled list's, with the stolen words and their reader.

use std::fmt::{self, Write};
use std::ops::Range;

use pictures::live_ranges::{LiveRanges, Value};
use pictures::plot::{self, LEFT, PLOT, Plot, described, fill};
use pictures::points::POINTS;
use pictures::svg::{self, ACCENT, INK, PAPER, Tenths, WIDTH, count, escaped, plural};

use crate::slip::Slip;
use crate::verdict::Found;

/// Pixels: the height of a word where there is room for it, and the most that either plot takes.
const ROW: usize = 18;
const MOST: usize = 360;

const TOP: usize = 130;
const BETWEEN: usize = 140;
const BELOW: usize = 46;

/// How far above the lower plot its heading and the two labels stand.
const HEADING: usize = 60;
const LABELS: [usize; 2] = [35, 16];

/// How much is left of the colour of what only stands beside.
const PALE: &str = "0.28";
const FAINT: &str = "0.12";

const GOOD: &str = "#2f9e74";

/// Words that hold another value than the one that is still to be read from them, with a dashed edge.
const OVERWRITTEN: &str = "#f7e4e1";
const DASHES: &str = "4 3";

/// Tenths of a pixel: the least length that an arrow has.
const ARROW: usize = 120;

/// What the picture shows: the live ranges of a router's list, and of the same with a slip.
pub struct Shown<'a> {
    pub accepted: &'a LiveRanges,
    pub spoiled: &'a LiveRanges,
    pub slip: &'a Slip,
    pub found: &'a Found,
}

pub fn picture(name: &str, id: u64, shown: &Shown) -> Result<String, fmt::Error> {
    let upper = Plot::new(shown.accepted, TOP, ROW, MOST);
    let lower = Plot::new(shown.spoiled, upper.bottom() + BETWEEN, ROW, MOST);
    let named = format!("{}, function {id}", escaped(name));
    let title = format!("{named}: a router's list that is accepted, and refused with a slip in it");
    let line = format!(
        "{named}, {}. A bar is a value, from its instruction to its last reader.",
        plural(shown.accepted.instructions, "instruction")
    );
    let mut out = String::new();
    let heading = "A router's list, accepted; the same list with a slip, refused";
    let height = lower.bottom() + BELOW;
    svg::open(&mut out, height, &title, LEFT, heading, &line)?;
    legend(&mut out, shown.accepted)?;
    accepted(&mut out, &upper, shown)?;
    Spoiled { plot: lower, shown }.draw(&mut out)?;
    svg::close(&mut out)?;
    Ok(out)
}

/// The colours that the picture has, in a line below its title.
fn legend(out: &mut String, ranges: &LiveRanges) -> fmt::Result {
    let mut entries = plot::colours(&ranges.values);
    entries.push((ACCENT, "put on words in use"));
    let x = plot::legend(out, &entries)?;
    writeln!(
        out,
        "<rect x=\"{x}.5\" y=\"71.5\" width=\"20\" height=\"9\" rx=\"1.5\" fill=\"{OVERWRITTEN}\" stroke=\"{ACCENT}\" stroke-dasharray=\"{DASHES}\"/>"
    )?;
    writeln!(
        out,
        "<text x=\"{}\" y=\"80\">overwritten, still to be read</text>",
        x + 26
    )
}

/// The upper plot.
fn accepted(out: &mut String, plot: &Plot, shown: &Shown) -> fmt::Result {
    let (ranges, y) = (shown.accepted, plot.top - 14);
    let words = plural(ranges.words, "word");
    let heading = format!("Accepted: {words}, used again by a rule of the router's own");
    writeln!(
        out,
        "<path d=\"M{} {}l5 5l9 -11\" fill=\"none\" stroke=\"{GOOD}\" stroke-width=\"3\"/>",
        LEFT - 22,
        y - 5
    )?;
    plot.heading(out, &heading)?;
    let points = count(POINTS);
    let run = format!("run at {points} points: version 1's outputs, bit for bit");
    beside(out, y, &run)?;
    plot.axes(out)?;
    for value in &ranges.values {
        bar(out, plot, ranges, value, "")?;
    }
    for k in [shown.slip.lost, shown.slip.moved] {
        let value = &ranges.values[k];
        number(out, plot, value, ranges.held(value), PAPER)?;
    }
    Ok(())
}

/// What a run gave, at the end of a heading's line.
fn beside(out: &mut String, y: usize, text: &str) -> fmt::Result {
    let right = LEFT + PLOT;
    writeln!(
        out,
        "<text x=\"{right}\" y=\"{y}\" text-anchor=\"end\" fill=\"{INK}\">{text}</text>"
    )
}

/// The bar of a value, with these attributes beside its colour.
fn bar(
    out: &mut String,
    plot: &Plot,
    ranges: &LiveRanges,
    value: &Value,
    more: &str,
) -> fmt::Result {
    let held = ranges.held(value);
    if held.is_empty() {
        return Ok(());
    }
    let bar = plot.bar(value, held, fill(value));
    writeln!(
        out,
        "{bar}{more}><title>{}</title></rect>",
        described(value)
    )
}

/// The number of the instruction that gives a value, in its bar, where there is room for it.
fn number(
    out: &mut String,
    plot: &Plot,
    value: &Value,
    held: Range<usize>,
    ink: &str,
) -> fmt::Result {
    let text = value
        .born
        .map_or("input".to_string(), |born| born.to_string());
    let (x, row) = (plot.x(held.start) + 50, plot.y(0) - plot.y(1));
    // Digits are about 7 pixels wide.
    if row < 120 || plot.x(held.end) < x + 70 * text.len() + 20 {
        return Ok(());
    }
    let y = (plot.y(value.address) + plot.y(value.span().end)) / 2 + 42;
    let (x, y) = (Tenths(x), Tenths(y));
    writeln!(
        out,
        "<text x=\"{x}\" y=\"{y}\" font-weight=\"bold\" fill=\"{ink}\">{text}</text>"
    )
}

/// The lower plot.
struct Spoiled<'a> {
    plot: Plot,
    shown: &'a Shown<'a>,
}

impl Spoiled<'_> {
    fn moved(&self) -> &Value {
        &self.shown.spoiled.values[self.shown.slip.moved]
    }

    fn lost(&self) -> &Value {
        &self.shown.spoiled.values[self.shown.slip.lost]
    }

    /// Whether an instruction is at fault, and not only an output.
    fn is_read(&self) -> bool {
        self.shown.slip.reader < self.shown.spoiled.instructions
    }

    fn draw(&self, out: &mut String) -> fmt::Result {
        let (plot, ranges, slip) = (&self.plot, self.shown.spoiled, self.shown.slip);
        self.heading(out)?;
        plot.axes(out)?;
        self.column(out)?;
        let pale = format!(" fill-opacity=\"{PALE}\"");
        for (k, value) in ranges.values.iter().enumerate() {
            if k != slip.moved && k != slip.lost {
                bar(out, plot, ranges, value, &pale)?;
            }
        }
        self.overwritten(out)?;
        self.moved_from(out)?;
        self.labels(out)
    }

    fn heading(&self, out: &mut String) -> fmt::Result {
        let (reader, y) = (self.shown.slip.reader, self.plot.top - HEADING);
        let heading = match self.is_read() {
            true => format!("Refused with 29 at instruction {reader}"),
            false => format!("Refused with 29 at {reader}, for an output"),
        };
        cross(out, 10 * LEFT - 150, 10 * y - 50, ACCENT, 3)?;
        writeln!(
            out,
            "<text x=\"{LEFT}\" y=\"{y}\" font-size=\"14\" font-weight=\"bold\" fill=\"{ACCENT}\">{heading}</text>"
        )?;
        let (differing, points) = (count(self.shown.found.differing), count(POINTS));
        let run = format!("run all the same: other outputs at {differing} of {points} points");
        beside(out, y, &run)
    }

    /// The column of the instruction at fault.
    fn column(&self, out: &mut String) -> fmt::Result {
        if !self.is_read() {
            return Ok(());
        }
        let (plot, reader) = (&self.plot, self.shown.slip.reader);
        let (x, end) = (plot.x(reader), plot.x(reader + 1));
        writeln!(
            out,
            "<rect x=\"{}\" y=\"{}\" width=\"{}\" height=\"{}\" fill=\"{ACCENT}\" fill-opacity=\"{FAINT}\"/>",
            Tenths(x),
            plot.top,
            Tenths(end - x),
            plot.height
        )
    }

    /// The lost value until it is overwritten; from there the words that are still to be read, and on them the moved result.
    fn overwritten(&self, out: &mut String) -> fmt::Result {
        let (plot, slip) = (&self.plot, self.shown.slip);
        let (moved, lost) = (self.moved(), self.lost());
        let wanted = self.shown.spoiled.held(lost);
        let (before, behind) = (wanted.start..slip.writer, slip.writer..wanted.end);
        let titled = |value: &Value| format!("><title>{}</title></rect>", described(value));
        if !before.is_empty() {
            let bar = plot.bar(lost, before.clone(), fill(lost));
            writeln!(out, "{bar}{}", titled(lost))?;
            number(out, plot, lost, before, PAPER)?;
        }
        // The moved result may have fewer words: the others are left.
        let [stolen, left] = [moved.span(), moved.span().end..lost.span().end].map(|span| Value {
            address: span.start,
            words: span.len(),
            ..lost.clone()
        });
        if left.words > 0 {
            let bar = plot.bar(&left, behind.clone(), fill(lost));
            writeln!(out, "{bar}{}", titled(lost))?;
        }
        let bar = plot.bar(&stolen, behind, OVERWRITTEN);
        writeln!(
            out,
            "{bar} stroke=\"{ACCENT}\" stroke-dasharray=\"{DASHES}\"{}",
            titled(lost)
        )?;
        let held = self.shown.spoiled.held(moved);
        let bar = plot.bar(moved, held.clone(), ACCENT);
        writeln!(out, "{bar}{}", titled(moved))?;
        number(out, plot, moved, held, PAPER)
    }

    /// Where the moved result stands in the accepted list, and an arrow from there to where it was put.
    fn moved_from(&self, out: &mut String) -> fmt::Result {
        let plot = &self.plot;
        let (own, moved) = (
            &self.shown.accepted.values[self.shown.slip.moved],
            self.moved(),
        );
        let held = self.shown.accepted.held(own);
        let x = (plot.x(held.start) + plot.x(held.end)) / 2;
        let bar = plot.bar(own, held.clone(), PAPER);
        writeln!(out, "{bar} stroke=\"{ACCENT}\"/>")?;
        number(out, plot, own, held, ACCENT)?;
        // Both stand over the same instructions, so the arrow goes straight up or down.
        let (from, to, back) = match own.address < moved.address {
            true => (plot.y(own.span().end), plot.y(moved.address), "5"),
            false => (plot.y(own.address), plot.y(moved.span().end), "-5"),
        };
        if from.abs_diff(to) < ARROW {
            return Ok(());
        }
        let (x, from, to) = (Tenths(x), Tenths(from), Tenths(to));
        writeln!(
            out,
            "<path d=\"M{x} {from}V{to}\" stroke=\"{ACCENT}\" stroke-width=\"1.5\"/>"
        )?;
        writeln!(
            out,
            "<path d=\"M{x} {to}l-4 {back}h8z\" fill=\"{ACCENT}\"/>"
        )
    }

    /// What went wrong where: a line down from each label, and a cross where the wrong value is read.
    fn labels(&self, out: &mut String) -> fmt::Result {
        let (plot, slip) = (&self.plot, self.shown.slip);
        let (moved, lost) = (self.moved(), self.lost());
        let (words, hold) = match moved.words {
            1 => (format!("word {}", moved.address), "holds"),
            _ => {
                let last = moved.span().end - 1;
                (format!("words {} to {last}", moved.address), "hold")
            }
        };
        let value = match lost.born {
            None => "an input".to_string(),
            Some(born) => format!("the result of {born}"),
        };
        let (writer, reader) = (slip.writer, slip.reader);
        let writes = format!("{writer} puts its result on {words}, which {hold} {value}");
        let reads = match self.is_read() {
            true => format!("{reader} has still to read that: refused here"),
            false => "that is still to be an output: refused here".to_string(),
        };
        let y = plot.y(moved.span().end);
        let (writer, reader) = (self.middle(writer), self.middle(reader));
        // The later one stands below where it goes on to the right, so that no line runs through it.
        let lines = match fits(reader, &reads) {
            true => LABELS,
            false => [LABELS[1], LABELS[0]],
        };
        let labels = [(writer, lines[0], writes), (reader, lines[1], reads)];
        for (x, above, _) in &labels {
            let (x, top, y) = (Tenths(*x), plot.top - above - 10, Tenths(y));
            writeln!(
                out,
                "<path d=\"M{x} {top}V{y}\" stroke=\"{ACCENT}\" stroke-width=\"1.5\"/>"
            )?;
        }
        for (x, above, text) in labels {
            let (x, anchor) = match fits(x, &text) {
                true => (Tenths(x + 60), "start"),
                false => (Tenths(x - 60), "end"),
            };
            let y = plot.top - above;
            writeln!(
                out,
                "<text x=\"{x}\" y=\"{y}\" text-anchor=\"{anchor}\" font-weight=\"bold\" fill=\"{ACCENT}\" stroke=\"{PAPER}\" stroke-width=\"4\" paint-order=\"stroke\">{text}</text>"
            )?;
        }
        let y = (y + plot.y(moved.address)) / 2;
        cross(out, reader, y, PAPER, 6)?;
        cross(out, reader, y, ACCENT, 3)
    }

    /// Tenths of a pixel: the middle of an instruction's column, or the plot's end behind the last.
    fn middle(&self, place: usize) -> usize {
        let next = (place + 1).min(self.shown.spoiled.instructions);
        (self.plot.x(place) + self.plot.x(next)) / 2
    }
}

/// Whether there is room for a label to the right of its line; bold letters are less than 8 pixels wide.
fn fits(x: usize, text: &str) -> bool {
    x + 60 + 78 * text.len() <= 10 * WIDTH
}

/// A cross around a point, in tenths of a pixel.
fn cross(out: &mut String, x: usize, y: usize, colour: &str, width: usize) -> fmt::Result {
    let (x, y) = (Tenths(x - 45), Tenths(y - 45));
    writeln!(
        out,
        "<path d=\"M{x} {y}l9 9m-9 0l9 -9\" stroke=\"{colour}\" stroke-width=\"{width}\"/>"
    )
}
