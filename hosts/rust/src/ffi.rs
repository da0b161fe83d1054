//! The C interface, as `include/lawhemuri.h` declares it.

#[repr(C)]
pub struct Sheet {
    pub refusal: u64,
    pub line: u64,
    pub fluents: u64,
    pub actions: u64,
    pub rules: u64,
    pub start: u64,
    pub goal_len: u64,
    pub goal: [u16; 16],
}

#[repr(C)]
pub struct Span {
    pub at: usize,
    pub len: usize,
}

#[repr(C)]
pub struct Written {
    pub refusal: u64,
    pub line: u64,
    pub length: u64,
}

#[repr(C)]
pub struct Merged {
    pub refusal: u64,
    pub sheet: u64,
    pub line: u64,
    pub length: u64,
}

#[repr(C)]
pub struct Part {
    pub sheet: u64,
    pub at: usize,
    pub len: usize,
}

#[repr(C)]
pub struct Run {
    pub refusal: u64,
    pub ends: u64,
    pub calls: u64,
    pub answers: u64,
    pub rounds: u64,
}

#[repr(C)]
pub struct Found {
    pub refusal: u64,
    pub found: u64,
    pub row: u64,
}

#[repr(C)]
pub struct States {
    pub refusal: u64,
    pub states: u64,
}

#[repr(C)]
pub struct Archived {
    pub refusal: u64,
    pub count: u64,
}

#[repr(C)]
pub struct Marked {
    pub refusal: u64,
    pub yes: u64,
}

#[repr(C)]
pub struct Opened {
    pub refusal: u64,
    pub kept: [u64; 44],
}

#[repr(C)]
pub struct Shared {
    pub refusal: u64,
    pub ends: u64,
    pub calls: u64,
    pub answers: u64,
    pub kept: [u64; 44],
}

extern "C" {
    pub fn lawhemuri_version() -> u64;
    pub fn lawhemuri_read(sheet: *const u8, sheet_len: usize, rules: *mut u16, rules_len: usize) -> Sheet;
    pub fn lawhemuri_fluent_name(sheet: *const u8, sheet_len: usize, fluent: u64) -> Span;
    pub fn lawhemuri_write(sheet: *const u8, sheet_len: usize, text: *mut u8, text_len: usize) -> Written;
    pub fn lawhemuri_merge(
        first: *const u8,
        first_len: usize,
        second: *const u8,
        second_len: usize,
        text: *mut u8,
        text_len: usize,
    ) -> Merged;
    pub fn lawhemuri_merged_fluent(first: *const u8, first_len: usize, second: *const u8, second_len: usize, fluent: u64)
        -> Part;
    pub fn lawhemuri_evaluate(
        fluents: u64,
        actions: u64,
        rules: *const u16,
        rules_len: usize,
        goal: *const u16,
        goal_len: usize,
        start: u64,
        calls: *mut u64,
        calls_len: usize,
        answers: *mut u64,
        answers_len: usize,
        ends: *mut u64,
        ends_len: usize,
        list: *mut u64,
        list_len: usize,
    ) -> Run;
    pub fn lawhemuri_class(
        fluents: u64,
        actions: u64,
        rules: *const u16,
        rules_len: usize,
        goal: *const u16,
        goal_len: usize,
        starts: *const u64,
        starts_len: usize,
        results: *mut u64,
        results_len: usize,
        calls: *mut u64,
        calls_len: usize,
        answers: *mut u64,
        answers_len: usize,
        ends: *mut u64,
        ends_len: usize,
        list: *mut u64,
        list_len: usize,
    ) -> u64;
    pub fn lawhemuri_path(
        fluents: u64,
        actions: u64,
        rules: *const u16,
        rules_len: usize,
        goal: *const u16,
        goal_len: usize,
        calls: *const u64,
        calls_len: usize,
        call_count: u64,
        answers: *const u64,
        answers_len: usize,
        answer_count: u64,
        record: u64,
        states: *mut u64,
        states_len: usize,
    ) -> States;
    pub fn lawhemuri_lookup(
        calls: *const u64,
        calls_len: usize,
        count: u64,
        list: *const u64,
        list_len: usize,
        action: u64,
        state: u64,
    ) -> Found;
    pub fn lawhemuri_store(fluents: u64, states: *const u64, states_len: usize, words: *mut u64, words_len: usize) -> Archived;
    pub fn lawhemuri_restore(
        fluents: u64,
        count: u64,
        words: *const u64,
        words_len: usize,
        states: *mut u64,
        states_len: usize,
    ) -> Archived;
    pub fn lawhemuri_report(
        fluents: u64,
        results: *const u64,
        results_len: usize,
        ends: *const u64,
        ends_len: usize,
        out: *mut u64,
        out_len: usize,
    ) -> u64;
    pub fn lawhemuri_mark(
        fluents: u64,
        actions: u64,
        rules: *const u16,
        rules_len: usize,
        goal: *const u16,
        goal_len: usize,
        start: u64,
        recorded: *const u16,
        recorded_len: usize,
        table: *mut u64,
        table_len: usize,
    ) -> Marked;
    pub fn lawhemuri_open(
        first_calls: u64,
        first_answers: u64,
        second_calls: u64,
        second_answers: u64,
        calls: *mut u64,
        calls_len: usize,
        answers: *mut u64,
        answers_len: usize,
    ) -> Opened;
    pub fn lawhemuri_share(
        second: bool,
        fluents: u64,
        actions: u64,
        rules: *const u16,
        rules_len: usize,
        goal: *const u16,
        goal_len: usize,
        start: u64,
        kept: *const u64,
        kept_len: usize,
        calls: *mut u64,
        calls_len: usize,
        answers: *mut u64,
        answers_len: usize,
        ends: *mut u64,
        ends_len: usize,
    ) -> Shared;
    pub fn lawhemuri_share_path(
        fluents: u64,
        actions: u64,
        rules: *const u16,
        rules_len: usize,
        kept: *const u64,
        kept_len: usize,
        calls: *const u64,
        calls_len: usize,
        answers: *const u64,
        answers_len: usize,
        record: u64,
        states: *mut u64,
        states_len: usize,
    ) -> States;
}
