//! Safe functions over the library that checks, compiles and runs graph tables.
//!
//! They pass on what they are given and test nothing: every input has an answer.
#![doc = include_str!("../README.md")]

use std::fmt;

/// A refusal: its number, 1 to 22, 29, 31 or 33, and its place.
#[derive(Clone, Copy, Debug, PartialEq, Eq)]
pub struct Refusal {
    pub number: u32,
    pub place: usize,
}

impl fmt::Display for Refusal {
    fn fmt(&self, f: &mut fmt::Formatter<'_>) -> fmt::Result {
        write!(f, "refused {} at {}", self.number, self.place)
    }
}

impl std::error::Error for Refusal {}

/// Bytes that are enough for every code of version 1 that [`compile`] writes.
pub const LONGEST_CODE_1: usize = 73_996;

/// Bytes that are enough for every code of version 2: 4,096 constant matrices and 128 output words.
pub const LONGEST_CODE_2: usize = 12 + 4096 * 132 + 256;

unsafe extern "C" {
    #[cfg(feature = "check")]
    fn ifg_check(table: *const u8, table_length: usize) -> u64;

    #[cfg(feature = "compile")]
    fn ifg_compile(
        table: *const u8,
        table_length: usize,
        id: u16,
        code: *mut u8,
        code_length: usize,
    ) -> u64;

    #[cfg(feature = "compile_version")]
    fn ifg_compile_version(
        table: *const u8,
        table_length: usize,
        id: u16,
        version: u16,
        code: *mut u8,
        code_length: usize,
    ) -> u64;

    #[cfg(feature = "run")]
    fn ifr_run(
        code: *const u8,
        code_length: usize,
        arguments: *const u64,
        arguments_length: usize,
        work: *mut u64,
        work_length: usize,
        out: *mut u64,
        out_length: usize,
    ) -> u64;

    #[cfg(feature = "points")]
    fn ifr_run_points(
        code: *const u8,
        code_length: usize,
        count: u64,
        arguments: *const u64,
        arguments_length: usize,
        work: *mut u64,
        work_length: usize,
        out: *mut u64,
        out_length: usize,
    ) -> u64;

    #[cfg(feature = "evaluate")]
    fn ifg_evaluate(
        table: *const u8,
        table_length: usize,
        id: u16,
        arguments: *const u64,
        arguments_length: usize,
        code: *mut u8,
        code_length: usize,
        work: *mut u64,
        work_length: usize,
        out: *mut u64,
        out_length: usize,
    ) -> u64;

    #[cfg(feature = "evaluate_version")]
    fn ifg_evaluate_version(
        table: *const u8,
        table_length: usize,
        id: u16,
        version: u16,
        arguments: *const u64,
        arguments_length: usize,
        code: *mut u8,
        code_length: usize,
        work: *mut u64,
        work_length: usize,
        out: *mut u64,
        out_length: usize,
    ) -> u64;

    #[cfg(feature = "judge_placement")]
    fn ifg_judge_placement(
        table: *const u8,
        table_length: usize,
        id: u16,
        code: *const u8,
        code_length: usize,
        numbers: *const u16,
        numbers_length: usize,
    ) -> u64;
}

/// Below 2^32 a count or length, otherwise number * 2^32 + place.
#[cfg(feature = "check")]
fn answer(word: u64) -> Result<usize, Refusal> {
    let (number, low) = ((word >> 32) as u32, word as u32 as usize);
    match number {
        0 => Ok(low),
        _ => Err(Refusal { number, place: low }),
    }
}

/// Checks a table: its function count, or refusal 1 to 13.
#[cfg(feature = "check")]
pub fn check(table: &[u8]) -> Result<usize, Refusal> {
    answer(unsafe { ifg_check(table.as_ptr(), table.len()) })
}

/// Compiles the function with this id to a list of version 1: the code's length, or refusal 1 to 17.
///
/// The code stands at the front of the buffer; the bytes behind it are unchanged.
#[cfg(feature = "compile")]
pub fn compile(table: &[u8], id: u16, code: &mut [u8]) -> Result<usize, Refusal> {
    answer(unsafe {
        ifg_compile(
            table.as_ptr(),
            table.len(),
            id,
            code.as_mut_ptr(),
            code.len(),
        )
    })
}

/// Compiles the function with this id to a list of this version, 1 or 2: the code's length, or
/// refusal 1 to 17 or 31.
///
/// Version 1 is what [`compile`] writes. In version 2 the words of a value are used again once
/// nothing reads them; 16 then goes by version 2's word count, which is never above version 1's.
/// The code stands at the front of the buffer; the bytes behind it are unchanged.
///
/// The product of two scalars, whose result has an address of its own in version 2:
///
/// ```
/// # let table = [
/// #     0x49, 0x46, 0x47, 0x01, 0x00, 0x01, 0x1E, 0x00, 0x01, 0x00, 0x02, 0x01, 0x01, 0x00, 0x01, 0x01,
/// #     0x01, 0x01, 0x00, 0x00, 0x01, 0x00, 0x03, 0x01, 0x00, 0x00, 0x00, 0x00, 0x00, 0x01,
/// # ];
/// let mut code = [0; 22];
/// assert_eq!(quetlapin::compile_version(&table, 1, 2, &mut code), Ok(22));
/// // Kind 3, type 1, the result at word 2, the operands at 0 and 1; the output is word 2.
/// assert_eq!(code[12..], [3, 1, 2, 0, 0, 0, 1, 0, 2, 0]);
/// assert_eq!(quetlapin::compile_version(&table, 1, 1, &mut code), Ok(20));
/// let refusal = quetlapin::compile_version(&table, 1, 3, &mut code).unwrap_err();
/// assert_eq!(refusal.number, 31);
/// ```
#[cfg(feature = "compile_version")]
pub fn compile_version(
    table: &[u8],
    id: u16,
    version: u16,
    code: &mut [u8],
) -> Result<usize, Refusal> {
    answer(unsafe {
        ifg_compile_version(
            table.as_ptr(),
            table.len(),
            id,
            version,
            code.as_mut_ptr(),
            code.len(),
        )
    })
}

/// Runs a code of either version on arguments: the count of output words, or refusal 18 to 21.
///
/// The front of the work buffer holds all words of the list, the front of the
/// output buffer the outputs; the rest of both is unchanged, and so is a word that a version 2
/// list never writes.
///
/// A list of version 2 need not be the compiler's. The instructions of version 1's list in any order
/// that puts each after all it reads, with words of its own below 8,192 for each result and the
/// arguments in their place, give the same output words. Twice x less the square of y, the square
/// first and on other words:
///
/// ```
/// # #[cfg(feature = "compile")] {
/// # let table = [
/// #     0x49, 0x46, 0x47, 0x01, 0x00, 0x01, 0x32, 0x00, 0x01, 0x00, 0x02, 0x01, 0x03, 0x00, 0x01, 0x01,
/// #     0x01, 0x03, 0x00, 0x00, 0x01, 0x00, 0x01, 0x01, 0x00, 0x00, 0x00, 0x00, 0x00, 0x00, 0x02, 0x00,
/// #     0x03, 0x01, 0x00, 0x00, 0x01, 0x00, 0x00, 0x01, 0x03, 0x00, 0x02, 0x01, 0x01, 0x00, 0x00, 0x02,
/// #     0x00, 0x00,
/// # ];
/// let mut code = [0; 100];
/// let length = quetlapin::compile(&table, 1, &mut code).unwrap();
/// let version_1 = &code[..length];
/// // Two arguments, one output, 3 instructions, 5 words: the double of word 0 is word 2, the
/// // square of word 1 is word 3, their difference word 4.
/// assert_eq!(version_1[..12], *b"IFR\x01\x00\x02\x01\x00\x03\x00\x05\x00");
/// assert_eq!(version_1[12..], [1, 1, 0, 0, 0, 0, 3, 1, 1, 0, 1, 0, 2, 1, 2, 0, 3, 0, 4, 0]);
///
/// // The square on word 3, the double on word 6, the difference on word 2.
/// let mut other = b"IFR\x02\x00\x02\x01\x00\x03\x00\x07\x00".to_vec();
/// other.extend([3, 1, 3, 0, 1, 0, 1, 0]);
/// other.extend([1, 1, 6, 0, 0, 0, 0, 0]);
/// other.extend([2, 1, 2, 0, 6, 0, 3, 0]);
/// other.extend([2, 0]);
/// let arguments = [3f64.to_bits(), 0.5f64.to_bits()];
/// for list in [version_1, &other] {
///     let (mut work, mut out) = ([0; 7], [0; 1]);
///     assert_eq!(quetlapin::run(list, &arguments, &mut work, &mut out), Ok(1));
///     assert_eq!(f64::from_bits(out[0]), 5.75);
/// }
/// # }
/// ```
#[cfg(feature = "run")]
pub fn run(
    code: &[u8],
    arguments: &[u64],
    work: &mut [u64],
    out: &mut [u64],
) -> Result<usize, Refusal> {
    answer(unsafe {
        ifr_run(
            code.as_ptr(),
            code.len(),
            arguments.as_ptr(),
            arguments.len(),
            work.as_mut_ptr(),
            work.len(),
            out.as_mut_ptr(),
            out.len(),
        )
    })
}

/// Runs a code of either version at `count` points: the count of all output words, or refusal 18 to 22.
///
/// The arguments of all points stand end to end, and so do their output words at the front of the
/// output buffer. All is as after a [`run`] of each point in turn, but the code is checked once,
/// and every argument and both buffers are judged before any word is written.
#[cfg(feature = "points")]
pub fn run_points(
    code: &[u8],
    count: u64,
    arguments: &[u64],
    work: &mut [u64],
    out: &mut [u64],
) -> Result<usize, Refusal> {
    answer(unsafe {
        ifr_run_points(
            code.as_ptr(),
            code.len(),
            count,
            arguments.as_ptr(),
            arguments.len(),
            work.as_mut_ptr(),
            work.len(),
            out.as_mut_ptr(),
            out.len(),
        )
    })
}

/// Compiles the function with this id to a list of version 1 and runs its code on arguments: the
/// count of output words, or a refusal.
#[cfg(feature = "evaluate")]
pub fn evaluate(
    table: &[u8],
    id: u16,
    arguments: &[u64],
    code: &mut [u8],
    work: &mut [u64],
    out: &mut [u64],
) -> Result<usize, Refusal> {
    answer(unsafe {
        ifg_evaluate(
            table.as_ptr(),
            table.len(),
            id,
            arguments.as_ptr(),
            arguments.len(),
            code.as_mut_ptr(),
            code.len(),
            work.as_mut_ptr(),
            work.len(),
            out.as_mut_ptr(),
            out.len(),
        )
    })
}

/// Compiles the function with this id to a list of this version, 1 or 2, and runs its code on
/// arguments: the count of output words, or a refusal.
///
/// The output words are the same in both versions; the work words are that version's.
///
/// ```
/// # let table = [
/// #     0x49, 0x46, 0x47, 0x01, 0x00, 0x01, 0x1E, 0x00, 0x01, 0x00, 0x02, 0x01, 0x01, 0x00, 0x01, 0x01,
/// #     0x01, 0x01, 0x00, 0x00, 0x01, 0x00, 0x03, 0x01, 0x00, 0x00, 0x00, 0x00, 0x00, 0x01,
/// # ];
/// let arguments = [3f64.to_bits(), 0.5f64.to_bits()];
/// let (mut code, mut work, mut out) = ([0; 22], [0; 3], [0; 1]);
/// for version in [1, 2] {
///     let count = quetlapin::evaluate_version(
///         &table, 1, version, &arguments, &mut code, &mut work, &mut out,
///     );
///     assert_eq!(count, Ok(1));
///     assert_eq!(f64::from_bits(out[0]), 1.5);
/// }
/// ```
#[cfg(feature = "evaluate_version")]
pub fn evaluate_version(
    table: &[u8],
    id: u16,
    version: u16,
    arguments: &[u64],
    code: &mut [u8],
    work: &mut [u64],
    out: &mut [u64],
) -> Result<usize, Refusal> {
    answer(unsafe {
        ifg_evaluate_version(
            table.as_ptr(),
            table.len(),
            id,
            version,
            arguments.as_ptr(),
            arguments.len(),
            code.as_mut_ptr(),
            code.len(),
            work.as_mut_ptr(),
            work.len(),
            out.as_mut_ptr(),
            out.len(),
        )
    })
}

/// Judges a list of version 2 that is proposed for the function with this id: its instruction count, or a refusal.
///
/// `numbers` has, for each instruction of the list, the number (from 0) of the instruction in version 1's list that it
/// carries out. The list may stand in another order and use words again in any way: accepted is what reads at each
/// operand, and has at each output at the end, the very argument or result word that version 1's list has there. An
/// accepted list gives the same output words as [`compile`]'s for all finite arguments.
///
/// Refusals, in this order: 1 to 16 by version 1's counts; 18, also for a list of version 1; 33 if the argument words,
/// output words or instructions of the list, or the numbers, differ in count from version 1's; 29 at the first
/// instruction at fault, or at the instruction count if only an output is.
///
/// Twice x less the square of y: the square first, on y's own word, and the difference on the double's:
///
/// ```
/// # let table = [
/// #     0x49, 0x46, 0x47, 0x01, 0x00, 0x01, 0x32, 0x00, 0x01, 0x00, 0x02, 0x01, 0x03, 0x00, 0x01, 0x01,
/// #     0x01, 0x03, 0x00, 0x00, 0x01, 0x00, 0x01, 0x01, 0x00, 0x00, 0x00, 0x00, 0x00, 0x00, 0x02, 0x00,
/// #     0x03, 0x01, 0x00, 0x00, 0x01, 0x00, 0x00, 0x01, 0x03, 0x00, 0x02, 0x01, 0x01, 0x00, 0x00, 0x02,
/// #     0x00, 0x00,
/// # ];
/// // Version 1 has the double as instruction 0, the square as 1 and the difference as 2.
/// let mut list = b"IFR\x02\x00\x02\x01\x00\x03\x00\x03\x00".to_vec();
/// list.extend([3, 1, 1, 0, 1, 0, 1, 0]);
/// list.extend([1, 1, 2, 0, 0, 0, 0, 0]);
/// list.extend([2, 1, 2, 0, 2, 0, 1, 0]);
/// list.extend([2, 0]);
/// assert_eq!(quetlapin::judge_placement(&table, 1, &list, &[1, 0, 2]), Ok(3));
///
/// // The double on the square's word too, though the difference reads both: it is at fault, the third of the list.
/// list[22] = 1;
/// list[32] = 1;
/// let refusal = quetlapin::judge_placement(&table, 1, &list, &[1, 0, 2]).unwrap_err();
/// assert_eq!(refusal.to_string(), "refused 29 at 2");
/// ```
#[cfg(feature = "judge_placement")]
pub fn judge_placement(
    table: &[u8],
    id: u16,
    code: &[u8],
    numbers: &[u16],
) -> Result<usize, Refusal> {
    answer(unsafe {
        ifg_judge_placement(
            table.as_ptr(),
            table.len(),
            id,
            code.as_ptr(),
            code.len(),
            numbers.as_ptr(),
            numbers.len(),
        )
    })
}
