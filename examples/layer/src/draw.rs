//! The greys of a layer: the part's function compiled once, its list run in calls of 1,024 points, as a board does it.

use quetlapin::Refusal;

/// The part's function in the table: a point and a placement to the field and the fluid.
const PART: u16 = 6;
const ARGUMENT_WORDS: usize = 19;
const OUTPUT_WORDS: usize = 2;

/// The points of one call, as many as the library takes.
pub const CALL: usize = 1024;

/// The square in millimetres that the picture shows: the part and 4 mm around it.
pub const LOW: f64 = -4.0;
pub const HIGH: f64 = 44.0;

/// The distance in millimetres at which the greys end on either side of the surface.
pub const REACH: f64 = 2.0;

/// Greys deep in the material and at its surface, then outside at the surface and far away. The gap in the middle
/// is the step that shows a wall.
const DARK: [f64; 2] = [0.0, 56.0];
const LIGHT: [f64; 2] = [156.0, 255.0];

/// The grey of a field's value; a value that is no number counts as far away.
pub fn grey(field: f64) -> u8 {
    let share = field.abs().min(REACH) / REACH;
    let grey = if field < 0.0 {
        DARK[1] + (DARK[0] - DARK[1]) * share
    } else {
        LIGHT[0] + (LIGHT[1] - LIGHT[0]) * share
    };
    grey.round() as u8
}

/// The greys of the layer at this height, `size` points along each side, the highest y first. `done` is told the
/// points that are done after each call.
pub fn layer(
    table: &[u8],
    height: f64,
    size: usize,
    mut done: impl FnMut(usize),
) -> Result<Vec<u8>, String> {
    let mut code = vec![0; 73_996];
    let length = quetlapin::compile(table, PART, &mut code).map_err(words)?;
    let code = &code[..length];

    // Height and placement (the identity) are the same at all points: only x and y are written again.
    let mut arguments = vec![0; CALL * ARGUMENT_WORDS];
    for point in arguments.chunks_mut(ARGUMENT_WORDS) {
        point[2] = height.to_bits();
        for i in 0..4 {
            point[3 + 5 * i] = 1f64.to_bits();
        }
    }
    let (mut work, mut out) = (vec![0; 8192], vec![0; CALL * OUTPUT_WORDS]);
    let at = |i: usize| (LOW + (i as f64 + 0.5) * (HIGH - LOW) / size as f64).to_bits();
    let points = size * size;
    let mut greys = Vec::with_capacity(points);
    while greys.len() < points {
        let from = greys.len();
        let count = CALL.min(points - from);
        let arguments = &mut arguments[..count * ARGUMENT_WORDS];
        for (i, point) in arguments.chunks_mut(ARGUMENT_WORDS).enumerate() {
            point[0] = at((from + i) % size);
            point[1] = at(size - 1 - (from + i) / size);
        }
        let written = quetlapin::run_points(code, count as u64, arguments, &mut work, &mut out)
            .map_err(words)?;
        if written != count * OUTPUT_WORDS {
            return Err(format!(
                "function {PART} gives other outputs than a field and a fluid"
            ));
        }
        greys.extend(
            out[..written]
                .chunks(OUTPUT_WORDS)
                .map(|words| grey(f64::from_bits(words[0]))),
        );
        done(greys.len());
    }
    Ok(greys)
}

/// A refusal in words.
fn words(Refusal { number, place }: Refusal) -> String {
    let why = match number {
        1 => "the table has fewer than 8 bytes",
        2 => "this is no graph table: it does not begin with IFG",
        3 => "the table's version is not 1",
        4 => "the table is longer or shorter than its length field says",
        5 => "a record runs past the table's end",
        6 => "a field is outside its range",
        7 => "a constant is not finite",
        8 => "bytes follow the last function",
        9 => "an id is used twice",
        10 => "a call of no earlier function, or with a wrong count of arguments",
        11 => "a reference to a node or port that is not there",
        12 => "a reference to a value of another type",
        13 => "the nodes form a loop",
        14 => "the table has no function of this id",
        15 => "the function has more than 4,096 operations",
        16 => "the function has more than 8,192 words",
        19 => "the function takes other arguments than a point and a placement",
        21 => "the function gives more than a field and a fluid",
        _ => "not expected here",
    };
    match number {
        1..=13 => format!("refused with number {number} at byte {place}: {why}"),
        _ => format!("function {PART} refused with number {number}: {why}"),
    }
}
