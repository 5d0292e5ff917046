//! The four calls of the archive named by CHOMPHUREK_LIB, with the reference's
//! signatures. Nothing is decided here; what include/chomphurek.h asks of a
//! caller (no overlap, no other use meanwhile) slices give by themselves.

use std::ptr;

extern "C" {
    fn chomphurek_check(text: *const u8, text_len: usize) -> u32;
    fn chomphurek_plain_run(
        text: *const u8,
        text_len: usize,
        inputs: *const u8,
        inputs_len: usize,
        steps: u32,
        answer: *mut u8,
        answer_len: usize,
    ) -> u32;
    fn chomphurek_explore(
        text: *const u8,
        text_len: usize,
        steps: u32,
        branches: u32,
        table: *mut u8,
        table_len: usize,
        pool: *mut u8,
        pool_len: usize,
    ) -> u32;
    fn chomphurek_place(
        text: *const u8,
        text_len: usize,
        inputs: *const u8,
        inputs_len: usize,
        steps: u32,
        branches: u32,
        table: *mut u8,
        table_len: usize,
        pool: *mut u8,
        pool_len: usize,
    ) -> u32;
}

/// An empty buffer is lent as NULL, which the header allows.
fn read(bytes: &[u8]) -> *const u8 {
    match bytes {
        [] => ptr::null(),
        _ => bytes.as_ptr(),
    }
}

fn write(bytes: &mut [u8]) -> *mut u8 {
    match bytes {
        [] => ptr::null_mut(),
        _ => bytes.as_mut_ptr(),
    }
}

pub fn check(text: &[u8]) -> u32 {
    // SAFETY: a slice is as many readable bytes as it is long.
    unsafe { chomphurek_check(read(text), text.len()) }
}

pub fn plain_run(text: &[u8], inputs: &[u8], steps: u32, answer: &mut [u8]) -> u32 {
    // SAFETY: as above; `answer` is borrowed for writing, so it overlaps none.
    unsafe {
        chomphurek_plain_run(
            read(text),
            text.len(),
            read(inputs),
            inputs.len(),
            steps,
            write(answer),
            answer.len(),
        )
    }
}

pub fn explore(text: &[u8], steps: u32, branches: u32, table: &mut [u8], pool: &mut [u8]) -> u32 {
    // SAFETY: as above, for `table` and `pool`.
    unsafe {
        chomphurek_explore(
            read(text),
            text.len(),
            steps,
            branches,
            write(table),
            table.len(),
            write(pool),
            pool.len(),
        )
    }
}

pub fn place(
    text: &[u8],
    inputs: &[u8],
    steps: u32,
    branches: u32,
    table: &mut [u8],
    pool: &mut [u8],
) -> u32 {
    // SAFETY: as above, for `table` and `pool`.
    unsafe {
        chomphurek_place(
            read(text),
            text.len(),
            read(inputs),
            inputs.len(),
            steps,
            branches,
            write(table),
            table.len(),
            write(pool),
            pool.len(),
        )
    }
}
