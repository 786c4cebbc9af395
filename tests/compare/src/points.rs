//! Many points in one call: the answer and both buffers, against runs one by one too, and the meaning of each point.

use generate::codes::{self, Code};
use generate::random::Random;
use generate::{heat_exchanger, kinds, shapes};
use independent::{Meaning, Refusal};

use crate::check::as_independent;
use crate::marked::Marked;
use crate::report::{Part, Report, hex, hex_words};
use crate::run::{Room, argument_words, some_arguments, some_room};

/// Words of a call's arguments that are printed.
const PRINTED: usize = 2100;

/// What one call is given.
#[derive(Clone, Debug)]
struct Call {
    code: Vec<u8>,
    count: u64,
    arguments: Vec<u64>,
    room: Room,
}

impl Call {
    /// A call with all that a good code needs for so many points; no two arguments are alike.
    fn good(code: &[u8], count: usize) -> Call {
        let words = count * argument_words(code);
        Call {
            code: code.to_vec(),
            count: count as u64,
            arguments: (0..words)
                .map(|k| (1.0 + k as f64 / 64.0).to_bits())
                .collect(),
            room: Room {
                work: u16::from_le_bytes([code[10], code[11]]) as usize,
                out: count * output_words(code),
            },
        }
    }

    /// The arguments of a point of a call that is not refused.
    fn point(&self, point: usize) -> &[u64] {
        let words = argument_words(&self.code);
        &self.arguments[point * words..][..words]
    }

    fn print(&self) -> String {
        let all = self.arguments.len();
        let arguments = hex_words(&self.arguments[..all.min(PRINTED)]);
        let (count, room, code) = (self.count, self.room, hex(&self.code));
        format!("  {count} points, {room:?}, {all} arguments {arguments}\n  code {code}")
    }
}

fn output_words(code: &[u8]) -> usize {
    code.get(6).copied().unwrap_or(0) as usize
}

/// Holds a call: the answer, both buffers, the same by runs of each point, and the meaning where there is one.
fn compare(report: &mut Report, call: &Call, meaning: Option<&Meaning>) {
    let Call {
        code,
        count,
        arguments,
        room,
    } = call;
    let (mut work, mut out) = (Marked::words(room.work), Marked::words(room.out));
    let wanted = independent::run_points(code, *count, arguments, work.lent(), out.lent());
    let (mut got_work, mut got_out) = (Marked::words(room.work), Marked::words(room.out));
    let got = as_independent(quetlapin::run_points(
        code,
        *count,
        arguments,
        got_work.lent(),
        got_out.lent(),
    ));
    let inputs = || call.print();
    report.same_buffer("points: the work buffer", &work, &got_work, inputs);
    report.same_buffer("points: the output buffer", &out, &got_out, inputs);
    if wanted.is_ok() {
        let (mut work, mut out) = (Marked::words(room.work), Marked::words(room.out));
        let one_by_one = one_by_one(call, work.lent(), out.lent());
        report.same_buffer(
            "points: the work buffer, one by one",
            &work,
            &got_work,
            inputs,
        );
        report.same_buffer(
            "points: the output buffer, one by one",
            &out,
            &got_out,
            inputs,
        );
        report.same("points: the answer, one by one", &one_by_one, &got, inputs);
    } else {
        let untouched = work == Marked::words(room.work) && out == Marked::words(room.out);
        report.same(
            "the independent points: buffers after a refusal",
            &true,
            &untouched,
            inputs,
        );
    }
    if let (Ok(all), Some(meaning)) = (wanted, meaning) {
        for (point, words) in got_out
            .front(all)
            .chunks_exact(output_words(code))
            .enumerate()
        {
            let meant = meaning.on(call.point(point));
            if meant != words {
                let what = format!("points: the meaning of point {point}");
                report.same(&what, &meant[..], words, inputs);
            }
        }
    }
    report.hold(Part::points(code), wanted, got, inputs);
}

/// The library's own runs, one for each point of a call that is not refused; all their output words.
fn one_by_one(call: &Call, work: &mut [u64], out: &mut [u64]) -> Result<usize, Refusal> {
    let mut all = 0;
    for (point, out) in out.chunks_exact_mut(output_words(&call.code)).enumerate() {
        if point as u64 == call.count {
            break;
        }
        all += as_independent(quetlapin::run(&call.code, call.point(point), work, out))?;
    }
    Ok(all)
}

// ---- at random

/// A count of points: mostly few, at times some ten, seldom all of a call, and at times too many.
fn some_count(random: &mut Random) -> u64 {
    match random.below(2000) {
        0 => 1024,
        1..=30 => random.range(10, 70) as u64,
        31..=50 => *random.pick(&[1025, 1026, 65_536, 1 << 32, (1 << 63) + 1, u64::MAX]),
        _ => random.below(10) as u64,
    }
}

/// A call of a code, good or damaged: mostly with all that it says it needs.
fn some_call(random: &mut Random, code: Vec<u8>) -> Call {
    let count = some_count(random);
    // What is lent with a huge count is for a few points.
    let points = if count <= 1026 {
        count as usize
    } else {
        random.below(4)
    };
    let words = argument_words(&code);
    let lent = match random.below(100) {
        0 => points + 1,
        1 => points.saturating_sub(1),
        _ => points,
    };
    Call {
        count,
        arguments: some_arguments(random, lent * words),
        room: some_room(random, &code, points),
        code,
    }
}

/// Points of a compiled function, and at times of its code with damaged bytes.
pub fn compiled(report: &mut Report, random: &mut Random, meaning: &Meaning, code: &[u8]) {
    let call = some_call(random, code.to_vec());
    compare(report, &call, Some(meaning));
    if random.chance(20) {
        let mut bytes = code.to_vec();
        codes::damage_bytes(random, &mut bytes);
        let call = some_call(random, bytes);
        compare(report, &call, None);
    }
}

/// Points of a list that no compiler wrote, and of a damaged one.
pub fn list(report: &mut Report, random: &mut Random) {
    let code = codes::random_code(random);
    list_and_damaged(report, random, &code);
}

/// The same with a list of version 2.
#[cfg(feature = "evaluate_version")]
pub fn list_2(report: &mut Report, random: &mut Random) {
    let code = codes::random_code_2(random);
    list_and_damaged(report, random, &code);
}

fn list_and_damaged(report: &mut Report, random: &mut Random, code: &Code) {
    let damaged = codes::damaged_code(random, code);
    for bytes in [code.to_bytes(), damaged] {
        let call = some_call(random, bytes);
        compare(report, &call, None);
    }
}

// ---- known cases

/// Counts from none to one too many.
const COUNTS: [usize; 12] = [0, 1, 2, 7, 8, 9, 63, 64, 65, 1023, 1024, 1025];

/// Counts far over the limit, around the ends of shorter numbers.
const HUGE: [u64; 16] = [
    1026,
    32_768,
    65_535,
    65_536,
    65_537,
    (1 << 31) + 1,
    u32::MAX as u64,
    1 << 32,
    (1 << 32) + 1,
    (1 << 32) + 1024,
    1 << 53,
    (1 << 60) + 1,
    i64::MAX as u64,
    1 << 63,
    (1 << 63) + 1,
    u64::MAX,
];

/// Faults of a call. Those of counts leave what is lent, as do those of codes.
const FAULTS: [fn(&mut Call); 20] = [
    |call| call.code.truncate(call.code.len() - 1),
    |call| call.code.push(0),
    |call| call.code[3] = 3,
    |call| call.count = 1025,
    |call| call.count = 1 << 32,
    |call| call.count = 1 << 63,
    |call| call.count = u64::MAX,
    |call| {
        call.arguments
            .truncate(call.arguments.len().saturating_sub(1))
    },
    |call| call.arguments.push(0),
    |call| {
        let less = call
            .arguments
            .len()
            .saturating_sub(argument_words(&call.code));
        call.arguments.truncate(less);
    },
    |call| {
        let more = call.arguments.len() + argument_words(&call.code);
        call.arguments.resize(more, 0);
    },
    |call| call.arguments.clear(),
    |call| set(call.arguments.first_mut(), f64::INFINITY),
    |call| set(call.arguments.last_mut(), f64::NAN),
    |call| call.room.work = call.room.work.saturating_sub(1),
    |call| call.room.work = 0,
    |call| call.room.out = call.room.out.saturating_sub(1),
    |call| call.room.out = call.room.out.saturating_sub(output_words(&call.code)),
    |call| call.room.out = call.room.out.min(output_words(&call.code)),
    |call| call.room.out = 0,
];

fn set(word: Option<&mut u64>, value: f64) {
    if let Some(word) = word {
        *word = value.to_bits();
    }
}

/// A list of no instruction: its outputs are its arguments, from the last to the first.
fn reversed(arguments: u8) -> Vec<u8> {
    let mut code = Code::new(arguments);
    for k in (0..arguments).rev() {
        code.output(k.into());
    }
    code.to_bytes()
}

/// A list of constants, all of them outputs.
fn constants(count: u16) -> Vec<u8> {
    let mut code = Code::new(0);
    for k in 0..count {
        code.push(kinds::CONSTANT, 0, &[], &[f64::from(k).to_bits()]);
        code.output(k);
    }
    code.to_bytes()
}

/// Lists with few and many argument and output words, and with none of what a list can lack.
fn lists() -> Vec<Vec<u8>> {
    let mut sums = Code::new(3);
    sums.push(kinds::DOT, 0, &[0, 0], &[]);
    for _ in 0..128 {
        sums.output(3);
    }
    vec![
        reversed(1),
        reversed(3),
        reversed(128),
        constants(1),
        constants(128),
        sums.to_bytes(),
        codes::additions(40),
    ]
}

/// Compiled functions, for which each point has a meaning.
fn functions() -> Vec<(Vec<u8>, u16)> {
    [
        (shapes::case_a(), 1),
        (shapes::case_k(), 1),
        (shapes::case_m(), 1),
        (heat_exchanger::graph(), 6),
    ]
    .map(|(graph, id)| (graph.to_bytes(), id))
    .to_vec()
}

/// Calls with known answers, counts and lengths around every limit, and every two faults at once.
pub fn fixed(report: &mut Report) {
    two_points(report);
    for code in lists() {
        around(report, &code, None);
        two_faults(report, &code, &[0, 1, 3]);
    }
    for (table, id) in functions() {
        let code = independent::compile(&table, id, usize::MAX).expect("within the limits");
        let meaning = Meaning::of(&table, id);
        around(report, &code, Some(&meaning));
        two_faults(report, &code, &[0, 1, 3]);
    }
    let (a, _) = &functions()[0];
    let a = independent::compile(a, 1, usize::MAX).expect("example A");
    two_faults(report, &a, &[2, 1024, 1025]);
    for count in [1, 2, 9, 65, 1024] {
        each_not_finite(report, &a, count);
    }
    each_not_finite(report, &reversed(128), 3);
    for at in 0..a.len() {
        for byte in [0, 1, 2, 3, 4, 127, 128, 255] {
            for count in [0, 2, 1025] {
                let mut call = Call::good(&a, count);
                call.code[at] = byte;
                compare(report, &call, None);
            }
        }
    }
}

/// The same with lists of version 2: compiled ones, one with words that are never written, and one that writes
/// over its arguments.
#[cfg(feature = "evaluate_version")]
pub fn fixed_2(report: &mut Report) {
    for (table, id) in functions() {
        let code = independent::compile_version(&table, id, 2, usize::MAX);
        let code = code.expect("within the limits");
        let meaning = Meaning::of(&table, id);
        around(report, &code, Some(&meaning));
        two_faults(report, &code, &[0, 1, 3]);
    }
    let mut holes = Code::version_2(2);
    holes.push_at(5, kinds::ADDITION, 1, &[0, 1], &[]);
    holes.push_at(9, kinds::MULTIPLICATION, 1, &[5, 5], &[]);
    holes.output(9);
    holes.output(1);
    let mut over = Code::version_2(3);
    over.push_at(0, kinds::CROSS, 0, &[0, 0], &[]);
    over.push_at(1, kinds::ADDITION, 2, &[0, 0], &[]);
    for word in 0..4 {
        over.output(word);
    }
    for code in [holes, over] {
        let code = code.to_bytes();
        around(report, &code, None);
        two_faults(report, &code, &[0, 1, 3, 1024]);
        for at in 0..code.len() {
            for byte in [0, 1, 2, 3, 4, 127, 128, 255] {
                for count in [0, 2, 1025] {
                    let mut call = Call::good(&code, count);
                    call.code[at] = byte;
                    compare(report, &call, None);
                }
            }
        }
    }
}

/// Two points of A, as it is multiplied by hand.
fn two_points(report: &mut Report) {
    let a = independent::compile(&shapes::case_a().to_bytes(), 1, 20).expect("example A");
    let arguments = [3.0, 0.5, -2.0, 4.0].map(f64::to_bits);
    let (mut work, mut out) = ([7; 4], [7; 3]);
    let got = as_independent(quetlapin::run_points(
        &a, 2, &arguments, &mut work, &mut out,
    ));
    let word = f64::to_bits;
    let wanted_work = [word(-2.0), word(4.0), word(-8.0), 7];
    let wanted_out = [word(1.5), word(-8.0), 7];
    report.same(
        "two points of example A",
        &(Ok(2), wanted_work, wanted_out),
        &(got, work, out),
        || hex(&a),
    );
}

/// All counts, with arguments and buffers exact, too short, too long and empty.
fn around(report: &mut Report, code: &[u8], meaning: Option<&Meaning>) {
    let (words, outputs) = (argument_words(code), output_words(code));
    for count in COUNTS {
        let good = Call::good(code, count);
        compare(report, &good, meaning);
        // A whole layer of many words is held with fewer lengths.
        let few = count > 1000 && words + outputs > 50;
        let Room { work, out } = good.room;
        for room_work in [work, work.wrapping_sub(1), work + 5, 0] {
            for room_out in [
                out,
                out.wrapping_sub(1),
                out + 5,
                0,
                outputs,
                out.wrapping_sub(outputs),
            ] {
                let lent = room_work <= work + 5 && room_out <= out.max(outputs) + 5;
                if lent && !(few && room_work != work) {
                    let room = Room {
                        work: room_work,
                        out: room_out,
                    };
                    compare(
                        report,
                        &Call {
                            room,
                            ..good.clone()
                        },
                        None,
                    );
                }
            }
        }
        let all = good.arguments.len();
        for length in [
            0,
            1,
            words,
            all.wrapping_sub(1),
            all + 1,
            all.wrapping_sub(words),
            all + words,
        ] {
            if length <= all + words + 1 {
                let mut call = good.clone();
                call.arguments.resize(length, 0);
                compare(report, &call, None);
            }
        }
    }
    for count in HUGE
        .into_iter()
        .chain(wrapping(words))
        .chain(wrapping(outputs))
    {
        huge(report, code, count);
    }
}

/// Counts over the limit whose product with this is short once it is cut to 32 or 64 bits.
fn wrapping(words: usize) -> Vec<u64> {
    let words = words.max(1) as u64;
    // The odd part has an inverse; each step of Newton's doubles the bits that are right.
    let odd = words >> words.trailing_zeros();
    let inverse = (0..6).fold(odd, |x, _| {
        x.wrapping_mul(2u64.wrapping_sub(odd.wrapping_mul(x)))
    });
    let mut counts = vec![inverse, inverse.wrapping_mul(2), inverse as u32 as u64];
    for bits in [32, 64] {
        let step = (1u128 << bits) >> words.trailing_zeros();
        counts.extend((0..3).filter_map(|k| u64::try_from(step + k).ok()));
    }
    counts.retain(|&count| count > independent::MOST_POINTS);
    counts
}

/// A count over the limit, with the lengths that its products would have if they were cut, where these are short.
fn huge(report: &mut Report, code: &[u8], count: u64) {
    let lengths = |words: usize| {
        let long = count.wrapping_mul(words as u64);
        [0, long, long as u32 as u64, long as u16 as u64]
            .into_iter()
            .filter(|&length| length <= 1000)
            .map(|length| length as usize)
    };
    let good = Call::good(code, 1);
    for arguments in lengths(argument_words(code)) {
        for out in lengths(output_words(code)) {
            let mut call = good.clone();
            call.count = count;
            call.arguments.resize(arguments, 0);
            call.room.out = out;
            compare(report, &call, None);
        }
    }
    compare(report, &Call { count, ..good }, None);
}

/// Every two faults at once, so that the order of refusals is met, and each alone.
fn two_faults(report: &mut Report, code: &[u8], counts: &[usize]) {
    for &count in counts {
        for first in FAULTS {
            for second in FAULTS {
                let mut call = Call::good(code, count);
                first(&mut call);
                second(&mut call);
                compare(report, &call, None);
            }
        }
    }
}

/// Each argument in turn infinite or NaN, alone.
fn each_not_finite(report: &mut Report, code: &[u8], count: usize) {
    let good = Call::good(code, count);
    for at in 0..good.arguments.len() {
        let bits = [
            0x7FF0_0000_0000_0000,
            0xFFF0_0000_0000_0000,
            0x7FF8_0000_0000_0000,
            0xFFF0_0000_0000_0001,
        ];
        let mut call = good.clone();
        call.arguments[at] = bits[at % 4];
        compare(report, &call, None);
    }
}
