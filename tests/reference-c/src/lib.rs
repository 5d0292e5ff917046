//! The reference implementation behind the C interface of
//! include/chomphurek.h, so that what is written for the verified library can
//! be run against the reference too. Nothing is decided here.

use std::slice;

/// A buffer lent by C to be read.
///
/// # Safety
/// The caller lends `len` readable bytes at `bytes`, or `len` is 0.
unsafe fn read<'a>(bytes: *const u8, len: usize) -> &'a [u8] {
    if len == 0 {
        return &[];
    }
    slice::from_raw_parts(bytes, len)
}

/// A buffer lent by C to be written.
///
/// # Safety
/// The caller lends `len` bytes at `bytes` for this call alone, or `len` is 0.
unsafe fn write<'a>(bytes: *mut u8, len: usize) -> &'a mut [u8] {
    if len == 0 {
        return &mut [];
    }
    slice::from_raw_parts_mut(bytes, len)
}

/// # Safety
/// Every pointer is lent as include/chomphurek.h says.
#[no_mangle]
pub unsafe extern "C" fn chomphurek_check(text: *const u8, text_len: usize) -> u32 {
    reference::check(read(text, text_len))
}

/// # Safety
/// Every pointer is lent as include/chomphurek.h says.
#[no_mangle]
pub unsafe extern "C" fn chomphurek_plain_run(
    text: *const u8,
    text_len: usize,
    inputs: *const u8,
    inputs_len: usize,
    steps: u32,
    answer: *mut u8,
    answer_len: usize,
) -> u32 {
    reference::plain_run(
        read(text, text_len),
        read(inputs, inputs_len),
        steps,
        write(answer, answer_len),
    )
}

/// # Safety
/// Every pointer is lent as include/chomphurek.h says.
#[no_mangle]
pub unsafe extern "C" fn chomphurek_explore(
    text: *const u8,
    text_len: usize,
    steps: u32,
    branches: u32,
    table: *mut u8,
    table_len: usize,
    pool: *mut u8,
    pool_len: usize,
) -> u32 {
    reference::explore(
        read(text, text_len),
        steps,
        branches,
        write(table, table_len),
        write(pool, pool_len),
    )
}

/// # Safety
/// Every pointer is lent as include/chomphurek.h says.
#[no_mangle]
pub unsafe extern "C" fn chomphurek_place(
    text: *const u8,
    text_len: usize,
    inputs: *const u8,
    inputs_len: usize,
    steps: u32,
    branches: u32,
    table: *mut u8,
    table_len: usize,
    pool: *mut u8,
    pool_len: usize,
) -> u32 {
    reference::place(
        read(text, text_len),
        read(inputs, inputs_len),
        steps,
        branches,
        write(table, table_len),
        write(pool, pool_len),
    )
}
