//! Has a router's own list judged by the library, and a spoiled one, and draws both; `judging --help` says how.

mod draw;
mod proposal;
mod slip;
#[cfg(test)]
mod tests;
mod verdict;

use std::path::Path;
use std::process::ExitCode;

use pictures::board_list::{self, BoardList};
use pictures::command_line::{Failure, Number, Program, Request, read};
use pictures::live_ranges::{LiveRanges, inputs};
use pictures::points::POINTS;
use pictures::random::Random;

use slip::Slip;
use verdict::Function;

const HELP: &str = "\
Has a router's own list judged, then the same list with a slip in it, and draws
both as a picture (SVG).

usage: judging [OPTIONS] TABLE PICTURE

  TABLE          the graph table
  PICTURE        the file that is written

  --function ID  the function (5)
  --seed N       which order and which slip, 0 to 65535 (25)
  --check        write no picture: draw, and compare with the PICTURE that is there
  --help         print this

The function is compiled to a list of version 1. Its instructions are put into
another order, each after all that it reads, and words are used again by another
rule than the compiler's: a result takes the highest gap below a ceiling. The
library must accept this list, and at 1,024 points, whose arguments are quarters
from -16 to 16, it must give the output words of version 1, bit for bit.

Then one result is put on words whose value still has a reader to come. The
library must refuse that list with 29 at this reader, or at the instruction count
if the reader is an output. It is run all the same, to see at how many points it
gives other output words.

The picture has a bar for each value, from its instruction to its last reader, on
the words that it takes: above in the accepted list, below in the spoiled one. Red
is the result that was moved, with an arrow from its place in the accepted list;
dashed are the words that it overwrites, up to where they are last to be read.

example: judging examples/heat_exchanger.ifg judging.svg
";

const PROGRAM: Program<2, 2> = Program {
    name: "judging",
    help: HELP,
    numbers: [Number::function(5), Number::seed(25)],
    names: ["TABLE", "PICTURE"],
};

/// Does what the command line asks for: the lines that say so.
fn run(request: Request<2, 2>) -> Result<String, Failure> {
    let [id, seed] = request.numbers;
    let [table, picture] = request.names.each_ref().map(Path::new);
    let fault = |why: String| format!("{}: {why}", table.display());
    let bytes = read(table)?;
    let code = board_list::compile(&bytes, id as u16, 1).map_err(fault)?;
    let function = Function {
        table: &bytes,
        id: id as u16,
        list: BoardList::read(&code),
        code,
    };
    let (list, inputs) = (&function.list, inputs(&bytes, function.id));
    let mut random = Random::new(seed);
    let routing = proposal::propose(list, &inputs, &mut random);
    let proposed = routing.list(list);
    let ranges = LiveRanges::new(&proposed, &inputs);
    let slip = Slip::any(&proposed, &ranges, &mut random)
        .ok_or_else(|| fault("no result can be put on words that are still to be read".into()))?;
    let (spoiled, spoiled_ranges) = slip.spoil(&routing, list, &ranges);
    let found = function
        .found(&routing.order, &proposed, &spoiled, &slip)
        .map_err(fault)?;
    let name = table.file_name().unwrap_or_default().to_string_lossy();
    let shown = draw::Shown {
        accepted: &ranges,
        spoiled: &spoiled_ranges,
        slip: &slip,
        found: &found,
    };
    let file = draw::picture(&name, id, &shown).map_err(|error| error.to_string())?;
    let said = format!(
        "judging: instructions: {}; words in version 1: {}, in the router's list: {}\n\
         judging: accepted: the same {} output words at {POINTS} points\n",
        proposed.instructions.len(),
        list.words,
        proposed.words,
        found.same,
    );
    let done = format!(
        "refused with 29 at {}: the result of {} on word {}; other output words at {} of {POINTS} points",
        slip.reader, slip.writer, spoiled_ranges.values[slip.moved].address, found.differing
    );
    Ok(said + &PROGRAM.deliver(&request, picture, file.as_bytes(), &done)?)
}

fn main() -> ExitCode {
    PROGRAM.main(run)
}
