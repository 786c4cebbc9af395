//! The picture, as SVG: version 2's live ranges at large, and version 1's below.

use std::fmt::{self, Write};

use pictures::live_ranges::LiveRanges;
use pictures::plot::{self, LEFT, PLOT, Plot, described, fill};
use pictures::svg::{self, ACCENT, IDLE, Tenths, count, escaped, plural};

/// Pixels: the height of a word where there is room for it, and the most that either plot takes.
const ROW: usize = 14;
const MOST_2: usize = 336;
const MOST_1: usize = 420;

const TOP: usize = 130;
const BETWEEN: usize = 92;
const BELOW: usize = 46;

/// The picture of a function's lists; `version_1` is none where it would pass the limit of words.
pub fn picture(
    name: &str,
    id: u16,
    version_1: Option<&LiveRanges>,
    version_2: &LiveRanges,
) -> Result<String, fmt::Error> {
    let instructions = version_2.instructions;
    let upper = Plot::new(version_2, TOP, ROW, MOST_2);
    let lower = version_1.map(|list| Plot::new(list, upper.bottom() + BETWEEN, ROW, MOST_1));
    let height = lower.as_ref().unwrap_or(&upper).bottom() + BELOW;
    let named = escaped(name);
    let before = match version_1 {
        Some(list) => count(list.words),
        None => "more than 8,192".to_string(),
    };
    let after = plural(version_2.words, "word");
    let title = format!(
        "Live ranges of the words of function {id} of {named}: {after} in version 2, {before} in version 1"
    );
    let line = format!(
        "{named}, function {id}, {}. A bar is a value, from its instruction to its last reader.",
        plural(instructions, "instruction")
    );
    let mut out = String::new();
    svg::open(
        &mut out,
        height,
        &title,
        LEFT,
        &format!("{after} instead of {before}"),
        &line,
    )?;
    legend(&mut out, version_2, version_1.is_some())?;

    upper.heading(
        &mut out,
        &format!("Version 2: {after}, used again once nothing reads them"),
    )?;
    upper.axes(&mut out)?;
    for value in &version_2.values {
        let held = version_2.held(value);
        if !held.is_empty() {
            let bar = upper.bar(value, held, fill(value));
            writeln!(out, "{bar}><title>{}</title></rect>", described(value))?;
        }
    }

    if let (Some(plot), Some(list)) = (&lower, version_1) {
        plot.heading(
            &mut out,
            &format!(
                "Version 1: {}, each written once",
                plural(list.words, "word")
            ),
        )?;
        plot.axes(&mut out)?;
        for value in &list.values {
            let held = list.held(value);
            let idle = held.end..instructions;
            if !idle.is_empty() {
                writeln!(out, "{}/>", plot.bar(value, idle, IDLE))?;
            }
            if !held.is_empty() {
                writeln!(out, "{}/>", plot.bar(value, held, fill(value)))?;
            }
        }
        level(&mut out, plot, version_2.words)?;
    }
    svg::close(&mut out)?;
    Ok(out)
}

/// The colours that the picture has, in a line below its title.
fn legend(out: &mut String, list: &LiveRanges, both: bool) -> fmt::Result {
    let mut entries = plot::colours(&list.values);
    if both {
        entries.push((IDLE, "no longer read, not used again"));
    }
    let x = plot::legend(out, &entries)?;
    if both {
        writeln!(
            out,
            "<path d=\"M{x} 76H{}\" stroke=\"{ACCENT}\" stroke-width=\"1.5\" stroke-dasharray=\"6 4\"/>",
            x + 26
        )?;
        writeln!(
            out,
            "<text x=\"{}\" y=\"80\">words of version 2</text>",
            x + 32
        )?;
    }
    Ok(())
}

/// A line in version 1's plot above the words that version 2 needs.
fn level(out: &mut String, plot: &Plot, words: usize) -> fmt::Result {
    let (y, right) = (Tenths(plot.y(words)), LEFT + PLOT);
    writeln!(
        out,
        "<path d=\"M{LEFT} {y}H{right}\" stroke=\"{ACCENT}\" stroke-width=\"1.5\" stroke-dasharray=\"6 4\"/>"
    )?;
    let y = Tenths(plot.y(words) + 40);
    writeln!(
        out,
        "<text x=\"{}\" y=\"{y}\" fill=\"{ACCENT}\" font-weight=\"bold\">{}</text>",
        right + 6,
        count(words)
    )
}
