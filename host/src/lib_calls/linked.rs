//! The functions as C declares them, linked from the static library, and a safe call of each. A slice is a pointer
//! and a length. The program is linked too: its standard input and output are here.

use std::cell::RefCell;

#[link(name = "travel", kind = "static")]
extern "C" {
    fn travel_main() -> i32;
}

#[link(name = "travelmap", kind = "static")]
extern "C" {
    fn travelmap_check(list: *const i16, len: usize) -> u64;
    fn travelmap_box(
        focus_low: i16,
        focus_high: i16,
        first_low: i16,
        first_high: i16,
        second_low: i16,
        second_high: i16,
        result: *mut i16,
        result_len: usize,
    ) -> u64;
    fn travelmap_cell(list: *const i16, len: usize, focus: i16, first: i16, second: i16) -> u64;
    fn travelmap_corner(list: *const i16, len: usize, focus: i16, first: i16, second: i16) -> u64;
    fn travelmap_plane(list: *const i16, len: usize, focus: i16) -> u64;
    fn travelmap_section(
        list: *const i16,
        len: usize,
        axis: u32,
        code: i16,
        result: *mut i16,
        result_len: usize,
    ) -> u64;
    fn travelmap_split(
        list: *const i16,
        len: usize,
        axis: u32,
        at: i16,
        low: *mut i16,
        low_len: usize,
        high: *mut i16,
        high_len: usize,
    ) -> u64;
    fn travelmap_join(
        operation: u32,
        one: *const i16,
        one_len: usize,
        other: *const i16,
        other_len: usize,
        result: *mut i16,
        result_len: usize,
    ) -> u64;
    fn travelmap_nearest(list: *const i16, len: usize, focus: i16, first: i16, second: i16) -> u64;
    fn travelmap_nearest_distance(
        list: *const i16,
        len: usize,
        focus: i16,
        first: i16,
        second: i16,
    ) -> u64;
    fn travelmap_nearest_each(
        list: *const i16,
        len: usize,
        wishes: *const i16,
        wishes_len: usize,
        result: *mut i16,
        result_len: usize,
    ) -> u64;
}

/// Checks a list.
pub fn check(list: &[i16]) -> u64 {
    unsafe { travelmap_check(list.as_ptr(), list.len()) }
}

/// Makes the map of a box from its low and high end on each axis.
pub fn make_box(ends: [[i16; 2]; 3], result: &mut [i16]) -> u64 {
    let [[a, b], [c, d], [e, f]] = ends;
    unsafe { travelmap_box(a, b, c, d, e, f, result.as_mut_ptr(), result.len()) }
}

/// Is the cell permitted?
pub fn cell(list: &[i16], asked: [i16; 3]) -> u64 {
    unsafe { travelmap_cell(list.as_ptr(), list.len(), asked[0], asked[1], asked[2]) }
}

/// The corner report.
pub fn corner(list: &[i16], asked: [i16; 3]) -> u64 {
    unsafe { travelmap_corner(list.as_ptr(), list.len(), asked[0], asked[1], asked[2]) }
}

/// The part of the list at a focus number.
pub fn plane(list: &[i16], focus: i16) -> u64 {
    unsafe { travelmap_plane(list.as_ptr(), list.len(), focus) }
}

/// The section at a code of an axis.
pub fn section(list: &[i16], axis: u32, code: i16, result: &mut [i16]) -> u64 {
    let (start, len) = (result.as_mut_ptr(), result.len());
    unsafe { travelmap_section(list.as_ptr(), list.len(), axis, code, start, len) }
}

/// The two halves at a corner number of an axis.
pub fn split(list: &[i16], axis: u32, at: i16, low: &mut [i16], high: &mut [i16]) -> u64 {
    let (low, low_len) = (low.as_mut_ptr(), low.len());
    let (high, high_len) = (high.as_mut_ptr(), high.len());
    unsafe {
        travelmap_split(
            list.as_ptr(),
            list.len(),
            axis,
            at,
            low,
            low_len,
            high,
            high_len,
        )
    }
}

/// Joins two maps.
pub fn join(operation: u32, one: &[i16], other: &[i16], result: &mut [i16]) -> u64 {
    let (a, a_len, b, b_len) = (one.as_ptr(), one.len(), other.as_ptr(), other.len());
    unsafe {
        travelmap_join(
            operation,
            a,
            a_len,
            b,
            b_len,
            result.as_mut_ptr(),
            result.len(),
        )
    }
}

/// The nearest permitted cell to a wish.
pub fn nearest(list: &[i16], wish: [i16; 3]) -> u64 {
    unsafe { travelmap_nearest(list.as_ptr(), list.len(), wish[0], wish[1], wish[2]) }
}

/// The distance from a wish to the nearest permitted cell.
pub fn nearest_distance(list: &[i16], wish: [i16; 3]) -> u64 {
    unsafe { travelmap_nearest_distance(list.as_ptr(), list.len(), wish[0], wish[1], wish[2]) }
}

/// The nearest permitted cells to many wishes.
pub fn nearest_many(list: &[i16], wishes: &[i16], result: &mut [i16]) -> u64 {
    let (asked, asked_len) = (wishes.as_ptr(), wishes.len());
    let (start, len) = (result.as_mut_ptr(), result.len());
    unsafe { travelmap_nearest_each(list.as_ptr(), list.len(), asked, asked_len, start, len) }
}

/// The most bytes that the program reads or writes at a time where its input comes in pieces; 19,214 and 19,215 bytes
/// come in several.
const STEPS: [usize; 4] = [usize::MAX, 100, 4096, 7];

/// The program's standard input and output.
struct Pipes {
    input: Vec<u8>,
    taken: usize,
    output: Vec<u8>,
    step: usize,
}

thread_local! {
    static PIPES: RefCell<Pipes> = const { RefCell::new(Pipes { input: Vec::new(), taken: 0, output: Vec::new(), step: 0 }) };
}

/// What the program calls to read.
#[no_mangle]
extern "C" fn travel_read(file: i32, to: *mut u8, count: usize) -> isize {
    if file != 0 {
        return -1;
    }
    PIPES.with_borrow_mut(|pipes| {
        let left = &pipes.input[pipes.taken..];
        let count = count.min(left.len()).min(pipes.step);
        // The program lends `count` bytes to be written to.
        unsafe { to.copy_from_nonoverlapping(left.as_ptr(), count) };
        pipes.taken += count;
        count as isize
    })
}

/// What the program calls to write.
#[no_mangle]
extern "C" fn travel_write(file: i32, from: *const u8, count: usize) -> isize {
    if file != 1 {
        return -1;
    }
    PIPES.with_borrow_mut(|pipes| {
        let count = count.min(pipes.step);
        // The program lends `count` bytes to be read.
        let lent = unsafe { std::slice::from_raw_parts(from, count) };
        pipes.output.extend_from_slice(lent);
        count as isize
    })
}

/// What the program writes for an input that it gets at once.
pub fn program(input: &[u8]) -> Vec<u8> {
    run(input, usize::MAX)
}

/// What the program writes for an input that it gets in pieces.
pub fn program_in_pieces(input: &[u8]) -> Vec<u8> {
    run(input, STEPS[input.len() % STEPS.len()])
}

/// Runs the program; it reads and writes at most `step` bytes at a time.
fn run(input: &[u8], step: usize) -> Vec<u8> {
    PIPES.with_borrow_mut(|pipes| {
        pipes.input.clear();
        pipes.input.extend_from_slice(input);
        pipes.taken = 0;
        pipes.output.clear();
        pipes.step = step;
    });
    unsafe { travel_main() };
    PIPES.with_borrow_mut(|pipes| std::mem::take(&mut pipes.output))
}
