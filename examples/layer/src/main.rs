//! Draws a layer of the heat exchanger by the library; `layer --help` says how.

mod draw;
mod png;
mod progress;
mod scale;

use std::path::Path;
use std::process::ExitCode;
use std::time::Instant;

use pictures::command_line::{Failure, Number, Program, Request, read};

const HELP: &str = "\
Draws a layer of the heat exchanger in examples/ as a picture (PNG) in greys.

usage: layer [OPTIONS] TABLE HEIGHT PICTURE

  TABLE      the graph table; its function 6 is the part: a point and a
             placement to the field and the fluid
  HEIGHT     the layer's height in millimetres; the part is from -2 to 82
  PICTURE    the file that is written

  --size N   points along each side of the layer, 16 to 4096 (384)
  --check    write nothing: draw, and compare with the PICTURE that is there
  --help     print this

The layer is 48 mm wide, from -4 to 44 in x and y. The function is compiled
once and run in calls of 1,024 points. The grey of a point is the field there,
which goes by the distance to the nearest wall: negative, in the material, from
dark grey at the wall's face to black at 2 mm or more; positive, outside, from
light grey to white. The strip below has a bar of 10 mm and these greys; a layer
of fewer than 64 points along a side goes without it.

example: layer --size 768 examples/heat_exchanger.ifg 22 layer.png
";

const PROGRAM: Program<1, 3> = Program {
    name: "layer",
    help: HELP,
    numbers: [Number {
        option: "--size",
        noun: "the size",
        range: 16..=4096,
        default: 384,
    }],
    names: ["TABLE", "HEIGHT", "PICTURE"],
};

/// Does what the command line asks for: the line that says so.
fn run(request: Request<1, 3>) -> Result<String, Failure> {
    let size = request.numbers[0] as usize;
    let [table, height, picture] = request.names.each_ref().map(Path::new);
    let height = match height
        .to_str()
        .and_then(|height| height.parse::<f64>().ok())
    {
        Some(height) if height.is_finite() => height,
        _ => {
            return Err(Failure::Usage(format!(
                "the height is a number of millimetres, not {}",
                height.display()
            )));
        }
    };
    let bytes = read(table)?;
    let points = size * size;
    let mut bar = progress::Bar::new();
    let start = Instant::now();
    let drawn = draw::layer(&bytes, height, size, |done| bar.show(done, points));
    let seconds = start.elapsed().as_secs_f64();
    bar.clear();
    let mut greys = drawn.map_err(|why| format!("{}: {why}", table.display()))?;
    greys.extend(scale::strip(size));
    let file = png::picture(size, &greys);
    let (calls, speed) = (points.div_ceil(draw::CALL), points as f64 / seconds / 1e6);
    let plural = if calls == 1 { "" } else { "s" };
    let done = format!(
        "{points} points in {calls} call{plural}, {seconds:.2} s, {speed:.2} million points a second"
    );
    PROGRAM.deliver(&request, picture, &file, &done)
}

fn main() -> ExitCode {
    PROGRAM.main(run)
}
