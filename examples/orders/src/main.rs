//! Runs a function's list in another order by the library and draws both orders; `orders --help` says how.

mod draw;
mod routing;
mod run;
#[cfg(test)]
mod tests;

use std::path::Path;
use std::process::ExitCode;

use pictures::board_list::{self, BoardList};
use pictures::command_line::{Failure, Number, Program, Request, read};
use pictures::points::POINTS;
use pictures::random::Random;

const HELP: &str = "\
Writes a function's instructions in another order, runs both lists, and draws
both orders as a picture (SVG).

usage: orders [OPTIONS] TABLE PICTURE

  TABLE          the graph table
  PICTURE        the file that is written

  --function ID  the function (5)
  --seed N       which other order and which words, 0 to 65535 (10)
  --check        write no picture: draw, and compare with the PICTURE that is there
  --help         print this

The function is compiled to a list of version 1. Its instructions are put into
another order, each after all that it reads, and each result gets other words of
its own; this is written as a list of version 2. Both lists are run at 1,024
points, whose arguments are quarters from -16 to 16, and their output words must
be the same, bit for bit.

The picture has version 1's order on the left and the other on the right. A line
joins both places of an instruction, and arrows go from it up to those whose
results it reads.

example: orders examples/heat_exchanger.ifg orders.svg
";

const PROGRAM: Program<2, 2> = Program {
    name: "orders",
    help: HELP,
    numbers: [Number::function(5), Number::seed(10)],
    names: ["TABLE", "PICTURE"],
};

/// Does what the command line asks for: the lines that say so.
fn run(request: Request<2, 2>) -> Result<String, Failure> {
    let [function, seed] = request.numbers;
    let [table, picture] = request.names.each_ref().map(Path::new);
    let fault = |why: String| format!("{}: {why}", table.display());
    let code = board_list::compile(&read(table)?, function as u16, 1).map_err(fault)?;
    let list = BoardList::read(&code);
    let routing = routing::any(&list, &mut Random::new(seed));
    let other = routing.list(&list);
    let same = run::same_outputs(&list, &code, &other).map_err(fault)?;
    let name = table.file_name().unwrap_or_default().to_string_lossy();
    let file = draw::picture(&name, function, &list, &routing, &other, same)
        .map_err(|error| error.to_string())?;
    let moved = routing
        .order
        .iter()
        .enumerate()
        .filter(|&(place, &number)| place != number);
    let said = format!(
        "orders: instructions: {}, at another place: {}; words in version 1: {}, in the other order: {}\n",
        routing.order.len(),
        moved.count(),
        list.words,
        other.words
    );
    let done = format!("the same {same} output words at {} points", POINTS);
    Ok(said + &PROGRAM.deliver(&request, picture, file.as_bytes(), &done)?)
}

fn main() -> ExitCode {
    PROGRAM.main(run)
}
