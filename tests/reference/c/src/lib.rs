//! The reference behind the C functions, so that the C programs of the tests
//! can be run with it as well as with the archives. Answers come from the
//! definition as far as 20,000 LR(1) sets go, and are compared with the second
//! way.

use std::slice::{from_raw_parts, from_raw_parts_mut};

use reference::answer::{generate, reference};

/// # Safety
/// Pointers and lengths must belong together; a length of 0 goes with any pointer.
#[no_mangle]
#[allow(clippy::too_many_arguments)]
pub unsafe extern "C" fn sidumza_generate(
    card: *const u16,
    card_len: usize,
    table: *mut u16,
    table_len: usize,
    work: *mut u64,
    work_len: usize,
    work2: *mut u32,
    work2_len: usize,
    out: *mut u64,
) {
    let numbers = generate(
        slice(card, card_len),
        slice_mut(table, table_len),
        slice_mut(work, work_len),
        slice_mut(work2, work2_len),
        |card| reference(card, 20_000, true).answer,
    );
    from_raw_parts_mut(out, 5).copy_from_slice(&numbers);
}

/// # Safety
/// As for `sidumza_generate`.
#[no_mangle]
#[allow(clippy::too_many_arguments)]
pub unsafe extern "C" fn sidumza_parse(
    table: *const u16,
    table_len: usize,
    input: *const u8,
    input_len: usize,
    stack: *mut u16,
    stack_len: usize,
    list: *mut u16,
    list_len: usize,
    second: *mut u16,
    second_len: usize,
    step_limit: u64,
    out: *mut u64,
) {
    let outcome = reference::parser::parse(
        slice(table, table_len),
        slice(input, input_len),
        slice_mut(stack, stack_len),
        slice_mut(list, list_len),
        slice_mut(second, second_len),
        step_limit,
    );
    from_raw_parts_mut(out, 7).copy_from_slice(&outcome.out());
}

/// # Safety
/// As for `sidumza_generate`.
#[no_mangle]
#[allow(clippy::too_many_arguments)]
pub unsafe extern "C" fn sidumza_parse_restricted(
    table: *const u16,
    table_len: usize,
    input: *const u8,
    input_len: usize,
    closed: u64,
    stack: *mut u16,
    stack_len: usize,
    list: *mut u16,
    list_len: usize,
    second: *mut u16,
    second_len: usize,
    step_limit: u64,
    out: *mut u64,
) {
    let outcome = reference::parser::parse_restricted(
        slice(table, table_len),
        slice(input, input_len),
        closed,
        slice_mut(stack, stack_len),
        slice_mut(list, list_len),
        slice_mut(second, second_len),
        step_limit,
    );
    from_raw_parts_mut(out, 7).copy_from_slice(&outcome.out());
}

/// # Safety
/// As for `sidumza_generate`.
#[no_mangle]
pub unsafe extern "C" fn sidumza_merge(
    first: *const u16,
    first_len: usize,
    second: *const u16,
    second_len: usize,
    merged: *mut u16,
    merged_len: usize,
    out: *mut u64,
) {
    let numbers = reference::merge::call(
        slice(first, first_len),
        slice(second, second_len),
        slice_mut(merged, merged_len),
    );
    from_raw_parts_mut(out, 3).copy_from_slice(&numbers);
}

/// # Safety
/// As for `sidumza_generate`.
#[no_mangle]
pub unsafe extern "C" fn sidumza_sample(
    card: *const u16,
    card_len: usize,
    production: u64,
    area: *mut u8,
    area_len: usize,
    out: *mut u64,
) {
    let area = slice_mut(area, area_len);
    let numbers = reference::sample::call(slice(card, card_len), production, area);
    from_raw_parts_mut(out, 2).copy_from_slice(&numbers);
}

#[no_mangle]
pub extern "C" fn sidumza_lowest(expected: u64) -> u32 {
    (0..64).find(|m| expected >> m & 1 == 1).unwrap_or(64)
}

/// # Safety
/// `out` must have 64 places.
#[no_mangle]
pub unsafe extern "C" fn sidumza_terminals(expected: u64, out: *mut u8) -> usize {
    let out = from_raw_parts_mut(out, 64);
    out.fill(0);
    let terminals = (0..64).filter(|m| expected >> m & 1 == 1);
    terminals.zip(out).map(|(terminal, place)| *place = terminal).count()
}

unsafe fn slice<'a, T>(from: *const T, length: usize) -> &'a [T] {
    if length == 0 {
        &[]
    } else {
        from_raw_parts(from, length)
    }
}

unsafe fn slice_mut<'a, T>(from: *mut T, length: usize) -> &'a mut [T] {
    if length == 0 {
        &mut []
    } else {
        from_raw_parts_mut(from, length)
    }
}
