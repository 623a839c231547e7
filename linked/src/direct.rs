//! The entry points of the static library.

use crate::Header;

// A slice goes as its address and its length.
extern "C" {
    fn yardstick_read(
        bytes: *const u8,
        byte_count: usize,
        table: *mut u32,
        table_words: usize,
        part: usize,
    ) -> usize;

    fn yardstick_write(
        registers: usize,
        nodes: usize,
        entry: usize,
        table: *const u32,
        table_words: usize,
        out: *mut u8,
        out_bytes: usize,
        part: usize,
    ) -> usize;

    fn yardstick_check_runnable(
        registers: usize,
        nodes: usize,
        entry: usize,
        table: *const u32,
        table_words: usize,
        part: usize,
    ) -> usize;

    fn yardstick_check_source(
        registers: usize,
        nodes: usize,
        entry: usize,
        table: *const u32,
        table_words: usize,
        part: usize,
    ) -> usize;

    fn yardstick_harden(
        registers: usize,
        nodes: usize,
        entry: usize,
        table: *const u32,
        table_words: usize,
        out: *mut u32,
        out_words: usize,
        part: usize,
    ) -> usize;

    fn yardstick_run(
        registers: usize,
        nodes: usize,
        entry: usize,
        table: *const u32,
        table_words: usize,
        inputs: *const u32,
        input_words: usize,
        events: *mut u32,
        event_words: usize,
        budget: usize,
        inverted: bool,
        place: usize,
        part: usize,
    ) -> usize;

    fn yardstick_campaign(
        registers: usize,
        nodes: usize,
        entry: usize,
        table: *const u32,
        table_words: usize,
        inputs: *const u32,
        input_words: usize,
        first: *mut u32,
        first_words: usize,
        second: *mut u32,
        second_words: usize,
        budget: usize,
        part: usize,
    ) -> usize;
}

// In each call the addresses and lengths are those of live slices, and no lent one overlaps another.

/// Reads a graph file into a table.
pub fn read(bytes: &[u8], table: &mut [u32], part: usize) -> usize {
    unsafe {
        yardstick_read(
            bytes.as_ptr(),
            bytes.len(),
            table.as_mut_ptr(),
            table.len(),
            part,
        )
    }
}

/// Writes the file of a graph over the first bytes of a buffer.
pub fn write(header: &Header, table: &[u32], out: &mut [u8], part: usize) -> usize {
    unsafe {
        yardstick_write(
            header.registers,
            header.nodes,
            header.entry,
            table.as_ptr(),
            table.len(),
            out.as_mut_ptr(),
            out.len(),
            part,
        )
    }
}

pub fn check_runnable(header: &Header, table: &[u32], part: usize) -> usize {
    unsafe {
        yardstick_check_runnable(
            header.registers,
            header.nodes,
            header.entry,
            table.as_ptr(),
            table.len(),
            part,
        )
    }
}

pub fn check_source(header: &Header, table: &[u32], part: usize) -> usize {
    unsafe {
        yardstick_check_source(
            header.registers,
            header.nodes,
            header.entry,
            table.as_ptr(),
            table.len(),
            part,
        )
    }
}

/// Hardens a source into another table.
pub fn harden(header: &Header, table: &[u32], out: &mut [u32], part: usize) -> usize {
    unsafe {
        yardstick_harden(
            header.registers,
            header.nodes,
            header.entry,
            table.as_ptr(),
            table.len(),
            out.as_mut_ptr(),
            out.len(),
            part,
        )
    }
}

/// Runs a graph; a fault names one branch by its place.
pub fn run(
    header: &Header,
    table: &[u32],
    input: &[u32],
    events: &mut [u32],
    budget: usize,
    fault: Option<usize>,
    part: usize,
) -> usize {
    unsafe {
        yardstick_run(
            header.registers,
            header.nodes,
            header.entry,
            table.as_ptr(),
            table.len(),
            input.as_ptr(),
            input.len(),
            events.as_mut_ptr(),
            events.len(),
            budget,
            fault.is_some(),
            fault.unwrap_or(0),
            part,
        )
    }
}

/// Scores a graph.
pub fn campaign(
    header: &Header,
    table: &[u32],
    input: &[u32],
    first: &mut [u32],
    second: &mut [u32],
    budget: usize,
    part: usize,
) -> usize {
    unsafe {
        yardstick_campaign(
            header.registers,
            header.nodes,
            header.entry,
            table.as_ptr(),
            table.len(),
            input.as_ptr(),
            input.len(),
            first.as_mut_ptr(),
            first.len(),
            second.as_mut_ptr(),
            second.len(),
            budget,
            part,
        )
    }
}
