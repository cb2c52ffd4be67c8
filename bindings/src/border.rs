//! The C interface, as the Rattle crates export it. This is the only place in Rust that has it; `tugrokt.h` says the same in C.
//! No compiler checks these declarations against the Rattle source. `tests/tests/declarations.rs` does.
//!
//! A slice passes as a pointer and its length, a reply as a struct by value.

/// What reading and merging reply. As in every reply, what it does not have is 0, and a later version's new fields stand at the end.
#[repr(C)]
#[derive(Clone, Copy, Debug, PartialEq, Eq)]
pub struct Reading {
    /// The number of the question that refused the text or the texts, and 0 for a sheet.
    pub number: usize,
    /// The line that a refusal names.
    pub line: usize,
    /// The span of the sheet.
    pub span: usize,
    /// The length of its lists of units.
    pub units: usize,
    /// The length of its lists of rules.
    pub rules: usize,
}

/// What planning and deciding reply.
#[repr(C)]
#[derive(Clone, Copy, Debug, PartialEq, Eq)]
pub struct Planning {
    /// The number of the question that refused the call, and 0 for an answer.
    pub number: usize,
    /// The line that a refusal names.
    pub line: usize,
    /// The length of the ring where there is no plan, and 0 for a plan and for a sheet that fits.
    pub length: usize,
}

/// What seating replies.
#[repr(C)]
#[derive(Clone, Copy, Debug, PartialEq, Eq)]
pub struct Seating {
    /// The number of the question that refused the call, and 0 for an answer.
    pub number: usize,
    /// The line that a refusal names.
    pub line: usize,
    /// 1 for a plan, and 0 for none.
    pub planned: usize,
    /// How many units seating looked at, and 0 for none.
    pub looked: usize,
}

/// What printing replies.
#[repr(C)]
#[derive(Clone, Copy, Debug, PartialEq, Eq)]
pub struct Printing {
    /// The number of the question that refused the call, and 0 for an answer.
    pub number: usize,
    /// The line that a refusal names.
    pub line: usize,
    /// The length of the ring where there is no plan, and 0 for a plan.
    pub length: usize,
    /// The place just past the answer, and for a refusal the place that was given.
    pub place: usize,
}

/// What writing replies, and so does answering a text, which 15 alone refuses.
#[repr(C)]
#[derive(Clone, Copy, Debug, PartialEq, Eq)]
pub struct Writing {
    /// The number of the question that refused the call, and 0 for a text.
    pub number: usize,
    /// What a refusal names: for 17 the place in the lists of units, for 18 that in the lists of rules, from 1.
    pub line: usize,
    /// The place just past the text, and for a refusal the place that was given.
    pub place: usize,
}

/// Where the line of a unit stands in one of two texts.
#[repr(C)]
#[derive(Clone, Copy, Debug, PartialEq, Eq)]
pub struct Line {
    /// The number of the question that refused the call, and 0 for a line.
    pub number: usize,
    /// The line that a refusal names: of the first text where the first is refused, else of the second.
    pub line: usize,
    /// The text that holds the unit, 1 or 2, and 0 for a refusal.
    pub sheet: usize,
    /// The place of its line's first byte in that text.
    pub start: usize,
    /// How many bytes the line has without its line feed.
    pub length: usize,
}

extern "C" {
    pub fn tugrokt_read(
        text: *const u8,
        text_length: usize,
        loader: *mut u16,
        loader_length: usize,
        first: *mut u16,
        first_length: usize,
        last: *mut u16,
        last_length: usize,
        from: *mut u16,
        from_length: usize,
        to: *mut u16,
        to_length: usize,
        low: *mut u16,
        low_length: usize,
        high: *mut u16,
        high_length: usize,
    ) -> Reading;
}

extern "C" {
    pub fn tugrokt_read_partner(
        text: *const u8,
        text_length: usize,
        loader: *mut u16,
        loader_length: usize,
        first: *mut u16,
        first_length: usize,
        last: *mut u16,
        last_length: usize,
        from: *mut u16,
        from_length: usize,
        to: *mut u16,
        to_length: usize,
        low: *mut u16,
        low_length: usize,
        high: *mut u16,
        high_length: usize,
    ) -> Reading;
}

extern "C" {
    pub fn tugrokt_plan(
        span: usize,
        loader: *const u16,
        loader_length: usize,
        first: *const u16,
        first_length: usize,
        last: *const u16,
        last_length: usize,
        from: *const u16,
        from_length: usize,
        to: *const u16,
        to_length: usize,
        low: *const u16,
        low_length: usize,
        high: *const u16,
        high_length: usize,
        table: *mut i16,
        table_length: usize,
        plan: *mut u16,
        plan_length: usize,
        earliest: *mut u16,
        earliest_length: usize,
        latest: *mut u16,
        latest_length: usize,
        ring: *mut u16,
        ring_length: usize,
    ) -> Planning;
}

extern "C" {
    pub fn tugrokt_decide(
        span: usize,
        loader: *const u16,
        loader_length: usize,
        first: *const u16,
        first_length: usize,
        last: *const u16,
        last_length: usize,
        from: *const u16,
        from_length: usize,
        to: *const u16,
        to_length: usize,
        low: *const u16,
        low_length: usize,
        high: *const u16,
        high_length: usize,
        table: *mut i16,
        table_length: usize,
        ring: *mut u16,
        ring_length: usize,
    ) -> Planning;
}

extern "C" {
    pub fn tugrokt_seat(
        span: usize,
        loader: *const u16,
        loader_length: usize,
        first: *const u16,
        first_length: usize,
        last: *const u16,
        last_length: usize,
        from: *const u16,
        from_length: usize,
        to: *const u16,
        to_length: usize,
        low: *const u16,
        low_length: usize,
        high: *const u16,
        high_length: usize,
        table: *mut i16,
        table_length: usize,
        plan: *mut u16,
        plan_length: usize,
        earliest: *mut u16,
        earliest_length: usize,
        latest: *mut u16,
        latest_length: usize,
    ) -> Seating;
}

extern "C" {
    pub fn tugrokt_print(
        span: usize,
        loader: *const u16,
        loader_length: usize,
        first: *const u16,
        first_length: usize,
        last: *const u16,
        last_length: usize,
        from: *const u16,
        from_length: usize,
        to: *const u16,
        to_length: usize,
        low: *const u16,
        low_length: usize,
        high: *const u16,
        high_length: usize,
        table: *mut i16,
        table_length: usize,
        plan: *mut u16,
        plan_length: usize,
        earliest: *mut u16,
        earliest_length: usize,
        latest: *mut u16,
        latest_length: usize,
        ring: *mut u16,
        ring_length: usize,
        page: *mut u8,
        page_length: usize,
        place: usize,
    ) -> Printing;
}

extern "C" {
    pub fn tugrokt_write_sheet(
        span: usize,
        loader: *const u16,
        loader_length: usize,
        first: *const u16,
        first_length: usize,
        last: *const u16,
        last_length: usize,
        from: *const u16,
        from_length: usize,
        to: *const u16,
        to_length: usize,
        low: *const u16,
        low_length: usize,
        high: *const u16,
        high_length: usize,
        page: *mut u8,
        page_length: usize,
        place: usize,
    ) -> Writing;
}

extern "C" {
    pub fn tugrokt_write_partner(
        span: usize,
        loader: *const u16,
        loader_length: usize,
        first: *const u16,
        first_length: usize,
        last: *const u16,
        last_length: usize,
        from: *const u16,
        from_length: usize,
        to: *const u16,
        to_length: usize,
        low: *const u16,
        low_length: usize,
        high: *const u16,
        high_length: usize,
        page: *mut u8,
        page_length: usize,
        place: usize,
    ) -> Writing;
}

extern "C" {
    pub fn tugrokt_merge(
        one: *const u8,
        one_length: usize,
        two: *const u8,
        two_length: usize,
        loader: *mut u16,
        loader_length: usize,
        first: *mut u16,
        first_length: usize,
        last: *mut u16,
        last_length: usize,
        from: *mut u16,
        from_length: usize,
        to: *mut u16,
        to_length: usize,
        low: *mut u16,
        low_length: usize,
        high: *mut u16,
        high_length: usize,
    ) -> Reading;
}

extern "C" {
    pub fn tugrokt_line_of(
        one: *const u8,
        one_length: usize,
        two: *const u8,
        two_length: usize,
        loader: u16,
    ) -> Line;
}

extern "C" {
    pub fn tugrokt_answer(
        text: *const u8,
        text_length: usize,
        page: *mut u8,
        page_length: usize,
        place: usize,
    ) -> Writing;
}

extern "C" {
    pub fn tugrokt_answer_fits(
        text: *const u8,
        text_length: usize,
        page: *mut u8,
        page_length: usize,
        place: usize,
    ) -> Writing;
}

extern "C" {
    pub fn tugrokt_answer_partner(
        text: *const u8,
        text_length: usize,
        page: *mut u8,
        page_length: usize,
        place: usize,
    ) -> Writing;
}

extern "C" {
    pub fn tugrokt_answer_fits_partner(
        text: *const u8,
        text_length: usize,
        page: *mut u8,
        page_length: usize,
        place: usize,
    ) -> Writing;
}
