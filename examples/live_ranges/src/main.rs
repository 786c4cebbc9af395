//! Draws the live ranges of a function's words by the library; `live_ranges --help` says how.

mod draw;

use std::path::Path;
use std::process::ExitCode;

use pictures::board_list::{self, BoardList};
use pictures::command_line::{Failure, Number, Program, Request, read};
use pictures::live_ranges::{LiveRanges, inputs};

const HELP: &str = "\
Draws the live ranges of a function's words as a picture (SVG).

usage: live_ranges [OPTIONS] TABLE PICTURE

  TABLE          the graph table
  PICTURE        the file that is written

  --function ID  the function (6)
  --check        write nothing: draw, and compare with the PICTURE that is there
  --help         print this

The function is compiled to a list of version 2 and to one of version 1. Above,
each value of version 2 is a bar on the words it takes, from its instruction to
the last that reads it; an output is held to the end. Below, the same of version
1, where no word is used again: what is left of a word's row is grey. The dashed
line stands above the words that version 2 needs.

example: live_ranges examples/heat_exchanger.ifg live_ranges.svg
";

const PROGRAM: Program<1, 2> = Program {
    name: "live_ranges",
    help: HELP,
    numbers: [Number::function(6)],
    names: ["TABLE", "PICTURE"],
};

/// Does what the command line asks for: the line that says so.
fn run(request: Request<1, 2>) -> Result<String, Failure> {
    let function = request.numbers[0] as u16;
    let [table, picture] = request.names.each_ref().map(Path::new);
    let bytes = read(table)?;
    let ranges = |version: u16| {
        let list = BoardList::read(&board_list::compile(&bytes, function, version)?);
        Ok(LiveRanges::new(&list, &inputs(&bytes, function)))
    };
    let version_2 = ranges(2).map_err(|why: String| format!("{}: {why}", table.display()))?;
    // Only 16 is left to refuse it with: the rest is the same in both versions.
    let version_1 = ranges(1).ok();
    let name = table.file_name().unwrap_or_default().to_string_lossy();
    let drawn = draw::picture(&name, function, version_1.as_ref(), &version_2);
    let file = drawn.map_err(|error| error.to_string())?;
    let before = version_1.map_or("more than 8192".to_string(), |list| list.words.to_string());
    let done = format!(
        "words in version 2: {}, in version 1: {before}",
        version_2.words
    );
    PROGRAM.deliver(&request, picture, file.as_bytes(), &done)
}

fn main() -> ExitCode {
    PROGRAM.main(run)
}
