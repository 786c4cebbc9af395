//! The strip below the layer: a bar of 10 mm, and the greys with the distances that they stand for.

use crate::draw::{HIGH, LOW, REACH, grey};

/// The smallest layer that has room for the strip.
pub const LEAST: usize = 64;

const INK: u8 = 50;
const PAPER: u8 = 255;

/// Seven rows a sign, from the top; `#` is ink.
fn sign(letter: char) -> [&'static str; 7] {
    match letter {
        '0' => [" ## ", "#  #", "#  #", "#  #", "#  #", "#  #", " ## "],
        '1' => [" # ", "## ", " # ", " # ", " # ", " # ", "###"],
        '2' => [" ## ", "#  #", "   #", "  # ", " #  ", "#   ", "####"],
        '+' => [
            "     ", "  #  ", "  #  ", "#####", "  #  ", "  #  ", "     ",
        ],
        '-' => ["    ", "    ", "    ", "####", "    ", "    ", "    "],
        'm' => [
            "     ", "     ", "## # ", "# # #", "# # #", "# # #", "# # #",
        ],
        _ => ["  "; 7],
    }
}

struct Strip {
    width: usize,
    /// Pixels to a side of a sign's dot; all lengths but those of the layer go by it.
    dot: usize,
    greys: Vec<u8>,
}

impl Strip {
    fn fill(&mut self, x: usize, y: usize, width: usize, height: usize, grey: u8) {
        for row in y..y + height {
            self.greys[row * self.width + x..][..width].fill(grey);
        }
    }

    /// Writes a text with its middle at x.
    fn text(&mut self, x: usize, y: usize, text: &str) {
        let dots: usize = text.chars().map(|letter| sign(letter)[0].len() + 1).sum();
        let mut x = x.saturating_sub((dots - 1) * self.dot / 2);
        for letter in text.chars() {
            for (row, line) in sign(letter).iter().enumerate() {
                for (column, _) in line.match_indices('#') {
                    self.fill(
                        x + column * self.dot,
                        y + row * self.dot,
                        self.dot,
                        self.dot,
                        INK,
                    );
                }
            }
            x += (sign(letter)[0].len() + 1) * self.dot;
        }
    }
}

/// The greys of the strip, in rows as wide as the layer; none for a layer that is too small.
pub fn strip(size: usize) -> Vec<u8> {
    if size < LEAST {
        return Vec::new();
    }
    let dot = (size / 192).max(1);
    let mut strip = Strip {
        width: size,
        dot,
        greys: vec![PAPER; size * 28 * dot],
    };
    let at = |millimetres: f64| ((millimetres - LOW) * size as f64 / (HIGH - LOW)).round() as usize;
    let (top, thick, text) = (5 * dot, 9 * dot, 17 * dot);
    let line = dot.div_ceil(2);

    // The bar stands under the part's first 10 mm.
    let (from, to) = (at(0.0), at(10.0));
    strip.fill(from, top + 4 * dot, to - from, dot, INK);
    for x in [from, to - line] {
        strip.fill(x, top + dot, line, 7 * dot, INK);
    }
    strip.text((from + to) / 2, text, "10 mm");

    // The greys, framed, since the last is the paper's.
    let (from, to) = (at(22.0), at(40.0));
    strip.fill(from - line, top, to - from + 2 * line, thick, INK);
    for x in from..to {
        let share = (x - from) as f64 + 0.5;
        let field = REACH * (2.0 * share / (to - from) as f64 - 1.0);
        strip.fill(x, top + line, 1, thick - 2 * line, grey(field));
    }
    // Small layers have no room for the unit.
    let unit = if size < 168 { "" } else { " mm" };
    for (x, label) in [
        (from, format!("-2{unit}")),
        ((from + to) / 2, "0".into()),
        (to, format!("+2{unit}")),
    ] {
        strip.fill(x - line.div_ceil(2), top + thick, line, dot, INK);
        strip.text(x, text, &label);
    }
    strip.greys
}
