//! The picture, as SVG: version 1's order on the left and the other on the right, a line from each instruction's place in one
//! to its place in the other, and arrows from each up to those whose results it reads.

use std::collections::BTreeSet;
use std::fmt::{self, Write};
use std::ops::Range;

use pictures::board_list::{self, BoardList};
use pictures::points::POINTS;
use pictures::routing::{Routing, reads, writer};
use pictures::svg::{self, ACCENT, IDLE, INK, PAPER, Tenths, WIDTH, count, escaped, plural};

/// Pixels: where the text above begins, and where the rows do.
const LEFT: usize = 30;
const TOP: usize = 152;

/// Tenths of a pixel, as all lengths from here on: from the picture's side to the column there at most, how much of it
/// the arrows leave free, their least reach, and what is left between the columns at least.
const SIDE: usize = 1960;
const FREE: usize = 300;
const LEAST_REACH: usize = 100;
const MIDDLE: usize = 1900;

/// The height of a row where there is room for it, and the least that has text; the height of all rows, if these are
/// lower. A column without text is a bar.
const ROW: usize = 160;
const ROW_WITH_TEXT: usize = 130;
const ROWS: usize = 9600;
const BAR: usize = 100;

/// Between the cell of the words and that of the instruction; in that, the end of the number and the start of the name.
const GAP: usize = 30;
const NUMBER: usize = 270;
const NAME: usize = 340;

const ARROW: &str = "#8994a0";

/// The lines go from dark to light with the instruction's number in version 1, which greys show too.
const SHADES: [[usize; 3]; 3] = [[0x1d, 0x35, 0x6b], [0x2a, 0x8c, 0x9c], [0xe0, 0xac, 0x48]];

fn shade(number: usize, instructions: usize) -> String {
    // Two legs of 256 steps.
    let step = (512 * number / instructions.max(2)).min(511);
    let (from, to) = (SHADES[step / 256], SHADES[step / 256 + 1]);
    let [red, green, blue] =
        [0, 1, 2].map(|k| (from[k] * (256 - step % 256) + to[k] * (step % 256)) / 256);
    format!("#{red:02x}{green:02x}{blue:02x}")
}

/// The words of a result, as a cell has them.
fn cell_words(words: &Range<usize>) -> String {
    match words.len() {
        1 => words.start.to_string(),
        _ => format!("{}\u{2013}{}", words.start, words.end - 1),
    }
}

/// The word of the output, or how many there are.
fn cell_outputs(list: &BoardList) -> String {
    match list.outputs[..] {
        [word] => word.to_string(),
        _ => plural(list.outputs.len(), "word"),
    }
}

/// The rows that both columns have, one for each place and one for the outputs, and the widths of their cells.
struct Rows {
    places: usize,
    height: usize,
    /// From the picture's side to the cell of the words.
    side: usize,
    words: usize,
    /// From the picture's side to the cell of the instruction.
    inside: usize,
    name: usize,
}

impl Rows {
    fn new(list: &BoardList, other: &BoardList) -> Rows {
        let places = list.instructions.len();
        let height = (ROWS / places.max(1)).clamp(10, ROW);
        if height < ROW_WITH_TEXT {
            return Rows {
                places,
                height,
                side: SIDE,
                words: 0,
                inside: SIDE,
                name: BAR,
            };
        }
        // Digits are less than 7 pixels wide, letters about 6.
        let lists = [list, other].into_iter();
        let texts = lists.flat_map(|list| {
            list.instructions
                .iter()
                .map(|i| cell_words(&i.result))
                .chain([cell_outputs(list)])
        });
        let longest = texts.map(|text| text.chars().count()).fold(6, usize::max);
        let words = 92 + 68 * longest;
        let names = list
            .instructions
            .iter()
            .map(|i| board_list::name(i.kind).len());
        let name = NAME + 100 + 60 * names.fold("instruction".len(), usize::max);
        let side = (5 * WIDTH - MIDDLE / 2 - words - GAP - name).min(SIDE);
        Rows {
            places,
            height,
            side,
            words,
            inside: side + words + GAP,
            name,
        }
    }

    fn has_text(&self) -> bool {
        self.words > 0
    }

    /// The middle of the row of a place; the outputs' stands behind all places, a little apart.
    fn y(&self, place: usize) -> usize {
        let apart = if place == self.places { ROW } else { 0 };
        10 * TOP + self.height * place + self.height / 2 + apart
    }
}

/// One of the two orders.
struct Column<'a> {
    right: bool,
    heading: &'a str,
    list: &'a BoardList,
    /// The place of each instruction, by number.
    places: Vec<usize>,
}

impl Column<'_> {
    /// What lies this far from the picture's side.
    fn x(&self, from_side: usize) -> usize {
        if self.right {
            10 * WIDTH - from_side
        } else {
            from_side
        }
    }

    /// The left edge of a cell that begins this far from the picture's side.
    fn left(&self, from_side: usize, width: usize) -> usize {
        self.x(from_side).min(self.x(from_side + width))
    }

    /// The words of an instruction's result.
    fn words(&self, number: usize) -> String {
        cell_words(&self.list.instructions[self.places[number]].result)
    }

    /// Arrows between places, each from a row up to one above it.
    fn arrows(
        &self,
        out: &mut String,
        rows: &Rows,
        arrows: &[(usize, usize)],
        colour: &str,
        width: &str,
    ) -> fmt::Result {
        // They leave above the middle of a row and arrive below it, so that both can be told apart.
        let off = rows.height / 5;
        let (x, highest) = (Tenths(self.x(rows.side)), rows.y(rows.places) - rows.y(0));
        let most = rows.side - FREE - LEAST_REACH;
        let (sweep, outward) = if self.right { (0, "") } else { (1, "-") };
        let (mut lines, mut heads) = (String::new(), String::new());
        for &(from, to) in arrows {
            let (y, end) = (rows.y(from) - off, rows.y(to) + off);
            let reach = LEAST_REACH + (most * (y - end) / highest).min(y - end);
            let (reach, half, y, end) =
                (Tenths(reach), Tenths((y - end) / 2), Tenths(y), Tenths(end));
            write!(lines, "\nM{x} {y}A{reach} {half} 0 0 {sweep} {x} {end}")?;
            if rows.has_text() {
                write!(heads, "\nM{x} {end}l{outward}6.5 -2.6v5.2z")?;
            }
        }
        if !lines.is_empty() {
            writeln!(
                out,
                "<path fill=\"none\" stroke=\"{colour}\" stroke-width=\"{width}\" d=\"{lines}\"/>"
            )?;
        }
        if !heads.is_empty() {
            writeln!(out, "<path fill=\"{colour}\" d=\"{heads}\"/>")?;
        }
        Ok(())
    }

    /// The cells of a row: the words, and the instruction's number and name; `colours` are the cells' and the text's.
    fn row(
        &self,
        out: &mut String,
        rows: &Rows,
        place: usize,
        texts: [&str; 3],
        colours: [&str; 2],
    ) -> fmt::Result {
        let gap = if rows.height >= 60 { 20 } else { 0 };
        let height = rows.height - gap;
        let (y, height) = (Tenths(rows.y(place) - height / 2), Tenths(height));
        let [fill, ink] = colours;
        let mut cell = |x: usize, width: usize| {
            let (x, width) = (Tenths(x), Tenths(width));
            writeln!(
                out,
                "<rect x=\"{x}\" y=\"{y}\" width=\"{width}\" height=\"{height}\" fill=\"{fill}\"/>"
            )
        };
        let x = self.left(rows.inside, rows.name);
        cell(x, rows.name)?;
        if !rows.has_text() {
            return Ok(());
        }
        let word = self.left(rows.side, rows.words);
        cell(word, rows.words)?;
        let y = Tenths(rows.y(place) + 42);
        let mut text = |x: usize, anchor: &str, text: &str| {
            let x = Tenths(x);
            writeln!(
                out,
                "<text x=\"{x}\" y=\"{y}\"{anchor} fill=\"{ink}\">{text}</text>"
            )
        };
        let [words, number, name] = texts;
        text(word + rows.words / 2, " text-anchor=\"middle\"", words)?;
        text(x + NUMBER, " text-anchor=\"end\"", number)?;
        text(x + NAME, "", name)
    }

    /// What stands above the column.
    fn head(&self, out: &mut String, rows: &Rows) -> fmt::Result {
        let anchor = if self.right { "end" } else { "start" };
        let text = format!("{}: {}", self.heading, plural(self.list.words, "word"));
        svg::heading(out, self.x(rows.side) / 10, TOP - 28, anchor, &text)?;
        if !rows.has_text() {
            return Ok(());
        }
        let word = Tenths(self.left(rows.side, rows.words) + rows.words / 2);
        let name = Tenths(self.left(rows.inside, rows.name) + NAME);
        let y = TOP - 8;
        writeln!(
            out,
            "<text x=\"{word}\" y=\"{y}\" text-anchor=\"middle\">word</text>"
        )?;
        writeln!(out, "<text x=\"{name}\" y=\"{y}\">instruction</text>")
    }
}

/// The instruction that is shown as an example: of those that read most, the one with the longest line and arrow.
fn example(reads: &[Vec<usize>], places: &[usize]) -> Option<usize> {
    let length = |&number: &usize| {
        let above = reads[number].iter().map(|&read| places[read]).min()?;
        let (line, arrow) = (places[number].abs_diff(number), places[number] - above);
        Some((reads[number].len(), line + arrow))
    };
    let readers = (0..reads.len()).filter(|&number| !reads[number].is_empty());
    readers.max_by_key(length)
}

struct Picture<'a> {
    rows: Rows,
    left: Column<'a>,
    right: Column<'a>,
    /// For each instruction those whose results it reads; and those that give an output word.
    reads: Vec<Vec<usize>>,
    outputs: BTreeSet<usize>,
    example: Option<usize>,
}

impl<'a> Picture<'a> {
    fn new(list: &'a BoardList, routing: &Routing, other: &'a BoardList) -> Picture<'a> {
        let reads = reads(list);
        let mut places = vec![0; reads.len()];
        for (place, &number) in routing.order.iter().enumerate() {
            places[number] = place;
        }
        let outputs = list.outputs.iter().filter_map(|&word| writer(list, word));
        // There is another wherever there is more than one.
        let other_heading = match routing.order.is_sorted() {
            true => "The only order",
            false => "Another order",
        };
        Picture {
            rows: Rows::new(list, other),
            outputs: outputs.collect(),
            example: example(&reads, &places),
            left: Column {
                right: false,
                heading: "Version 1",
                list,
                places: (0..reads.len()).collect(),
            },
            right: Column {
                right: true,
                heading: other_heading,
                list: other,
                places,
            },
            reads,
        }
    }

    /// The instructions but for the example.
    fn others(&self) -> impl Iterator<Item = usize> {
        (0..self.reads.len()).filter(|&number| Some(number) != self.example)
    }

    fn name(&self, number: usize) -> &'static str {
        board_list::name(self.left.list.instructions[number].kind)
    }

    fn shade(&self, number: usize) -> String {
        shade(number, self.reads.len())
    }

    /// From each instruction up to those whose results it reads, and from the outputs.
    fn arrows(&self, out: &mut String, column: &Column) -> fmt::Result {
        let places = &column.places;
        let up = |number: usize| {
            let reads = self.reads[number].iter();
            reads.map(move |&read| (places[number], places[read]))
        };
        let outputs = self.outputs.iter();
        let outputs = outputs.map(|&number| (self.rows.places, places[number]));
        let others: Vec<_> = self.others().flat_map(up).chain(outputs).collect();
        let width = if self.rows.has_text() { "0.9" } else { "0.5" };
        column.arrows(out, &self.rows, &others, ARROW, width)?;
        let example: Vec<_> = self.example.into_iter().flat_map(up).collect();
        column.arrows(out, &self.rows, &example, ACCENT, "2")
    }

    /// From each instruction on the left to itself on the right, the example's above the others.
    fn lines(&self, out: &mut String) -> fmt::Result {
        let from_side = self.rows.inside + self.rows.name;
        let (from, to) = (self.left.x(from_side), self.right.x(from_side));
        let (from, middle, to) = (Tenths(from), WIDTH / 2, Tenths(to));
        for number in self.others().chain(self.example) {
            let place = self.right.places[number];
            let (y, end) = (Tenths(self.rows.y(number)), Tenths(self.rows.y(place)));
            let (colour, width) = match self.example == Some(number) {
                true => (ACCENT.to_string(), "2.4"),
                false => (self.shade(number), "1.4"),
            };
            write!(
                out,
                "<path fill=\"none\" stroke=\"{colour}\" stroke-width=\"{width}\" d=\"M{from} {y}C{middle} {y} {middle} {end} {to} {end}\">"
            )?;
            writeln!(
                out,
                "<title>{number} {}: place {number}, word {}; place {place}, word {}</title></path>",
                self.name(number),
                self.left.words(number),
                self.right.words(number)
            )?;
        }
        Ok(())
    }

    fn cells(&self, out: &mut String, column: &Column) -> fmt::Result {
        column.head(out, &self.rows)?;
        for (number, &place) in column.places.iter().enumerate() {
            let shade = self.shade(number);
            let colours = match (self.example == Some(number), self.rows.has_text()) {
                (true, _) => [ACCENT, PAPER],
                (_, true) => [IDLE, INK],
                _ => [&shade, INK],
            };
            let (words, digits) = (column.words(number), number.to_string());
            let texts = [&words[..], &digits, self.name(number)];
            column.row(out, &self.rows, place, texts, colours)?;
        }
        let texts = [&cell_outputs(column.list)[..], "", "output"];
        column.row(out, &self.rows, self.rows.places, texts, [INK, PAPER])
    }

    /// Between the outputs of both columns: that they are the same, so many words at all points.
    fn verdict(&self, out: &mut String, same: usize) -> fmt::Result {
        let (middle, y) = (WIDTH / 2, self.rows.y(self.rows.places) / 10);
        writeln!(
            out,
            "<text x=\"{middle}\" y=\"{}\" text-anchor=\"middle\" font-weight=\"bold\" fill=\"{INK}\">the same {}</text>",
            y + 1,
            plural(same, "output word")
        )?;
        writeln!(
            out,
            "<text x=\"{middle}\" y=\"{}\" text-anchor=\"middle\" fill=\"{INK}\">at {} points, bit for bit</text>",
            y + 17,
            count(POINTS)
        )
    }
}

/// The picture of version 1's list and the other, which give so many output words at all points, the same ones.
pub fn picture(
    name: &str,
    id: u64,
    list: &BoardList,
    routing: &Routing,
    other: &BoardList,
    same: usize,
) -> Result<String, fmt::Error> {
    let picture = Picture::new(list, routing, other);
    let named = format!("{}, function {id}", escaped(name));
    let title = format!("{named}: its instructions in two orders, with the same output words");
    let heading = format!("{}, other words, the same output", picture.right.heading);
    let line = format!(
        "{named}, {}. Every instruction stands after all that it reads: on both sides every arrow goes up.",
        plural(list.instructions.len(), "instruction")
    );
    let height = picture.rows.y(picture.rows.places) / 10 + 40;
    let mut out = String::new();
    svg::open(&mut out, height, &title, LEFT, &heading, &line)?;
    legend(&mut out, picture.example.is_some())?;
    picture.arrows(&mut out, &picture.left)?;
    picture.arrows(&mut out, &picture.right)?;
    picture.lines(&mut out)?;
    picture.cells(&mut out, &picture.left)?;
    picture.cells(&mut out, &picture.right)?;
    picture.verdict(&mut out, same)?;
    svg::close(&mut out)?;
    Ok(out)
}

/// What the lines are, below the title.
fn legend(out: &mut String, example: bool) -> fmt::Result {
    let (dark, light) = (shade(0, 2), shade(2, 2));
    writeln!(
        out,
        "<path fill=\"none\" stroke=\"{dark}\" stroke-width=\"1.4\" d=\"M{LEFT} 72c13 0 13 9 26 9\"/>"
    )?;
    writeln!(
        out,
        "<path fill=\"none\" stroke=\"{light}\" stroke-width=\"1.4\" d=\"M{LEFT} 81c13 0 13 -9 26 -9\"/>"
    )?;
    writeln!(
        out,
        "<text x=\"{}\" y=\"81\">the same instruction</text>",
        LEFT + 33
    )?;
    writeln!(
        out,
        "<path fill=\"none\" stroke=\"{ARROW}\" d=\"M216 83a15 5 0 0 1 0 -10\"/>"
    )?;
    writeln!(out, "<path fill=\"{ARROW}\" d=\"M216 73l-6.5 -2.6v5.2z\"/>")?;
    writeln!(out, "<text x=\"223\" y=\"81\">up to what it reads</text>")?;
    if example {
        writeln!(
            out,
            "<rect x=\"360\" y=\"71\" width=\"14\" height=\"11\" fill=\"{ACCENT}\"/>"
        )?;
        writeln!(
            out,
            "<text x=\"381\" y=\"81\">one of them, and all that it reads</text>"
        )?;
    }
    Ok(())
}
