//! The calls as `include/shortest.h` declares them: each buffer is a pointer
//! and the number of its elements, and `out` is where the numbers of the
//! answer go.

use crate::lent::Entry;

extern "C" {
    pub fn shortest_check_task(file: *const u8, file_length: usize, out: *mut u64);
    pub fn shortest_check_origin(file: *const u8, file_length: usize, out: *mut u64);
    pub fn shortest_check_plan(
        task: *const u8,
        task_length: usize,
        plan: *const u8,
        plan_length: usize,
        out: *mut u64,
    );
    pub fn shortest_mark(
        task: *const u8,
        task_length: usize,
        level: u32,
        action_marks: *mut u8,
        action_marks_length: usize,
        fact_marks: *mut u8,
        fact_marks_length: usize,
        out: *mut u64,
    );
    pub fn shortest_reduce(
        task: *const u8,
        task_length: usize,
        level: u32,
        signer: u32,
        action_marks: *mut u8,
        action_marks_length: usize,
        fact_marks: *mut u8,
        fact_marks_length: usize,
        reduced: *mut u8,
        reduced_length: usize,
        origin: *mut u8,
        origin_length: usize,
        out: *mut u64,
    );
    pub fn shortest_plan(
        task: *const u8,
        task_length: usize,
        level: u32,
        signer: u32,
        action_marks: *mut u8,
        action_marks_length: usize,
        fact_marks: *mut u8,
        fact_marks_length: usize,
        reduced: *mut u8,
        reduced_length: usize,
        origin: *mut u8,
        origin_length: usize,
        table: *mut Entry,
        table_length: usize,
        plan: *mut u8,
        plan_length: usize,
        out: *mut u64,
    );
    pub fn shortest_sheet(
        task: *const u8,
        task_length: usize,
        plan: *const u8,
        plan_length: usize,
        page: *mut u8,
        page_length: usize,
        out: *mut u64,
    );
    pub fn shortest_translate(
        text: *const u8,
        text_length: usize,
        signer: u32,
        file: *mut u8,
        file_length: usize,
        out: *mut u64,
    );
}
