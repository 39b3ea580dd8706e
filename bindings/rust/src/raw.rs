//! The calls as the static library has them (see `bindings/c/pozqaben.h`). Each writes its answer into the array and
//! returns true; where the array has fewer than the entries named, it returns false and alters nothing at all.
//! A slice's pointer and its length are two arguments: declared as `&[u8]`, the two would be passed together, in memory
//! where registers run out.
//!
//! # Safety
//!
//! A pointer is not null, also where its length is 0, and leads to as many elements as the length says; no buffer that a
//! call writes overlaps another of its arguments.

/// How many entries each call writes.
pub const READ_ENTRIES: usize = 6;
pub const SURVEY_ENTRIES: usize = 11;
pub const EDGE_FLOOR_ENTRIES: usize = 4;
pub const LAY_ENTRIES: usize = 11;
pub const CHECK_ENTRIES: usize = 2;
pub const LAYER_VIEW_ENTRIES: usize = 4;
pub const HARDEST_BOX_ENTRIES: usize = 3;
pub const FLATTEN_ENTRIES: usize = 3;
pub const UNFLATTEN_ENTRIES: usize = 3;

/// A ticket's kind, as the answers have it.
pub const ROW: u64 = 1;
pub const CHANNEL: u64 = 2;
pub const BOX: u64 = 3;
pub const TWO_LAYER: u64 = 4;

extern "C" {
    /// number, place, kind, n, byte 2, nets
    pub fn pozqaben_read(ticket: *const u8, ticket_length: usize, answer: *mut u64, answer_length: usize) -> bool;

    /// number, place, kind, n, w, nets, pins, across, up, layers, floor
    pub fn pozqaben_survey(ticket: *const u8, ticket_length: usize, answer: *mut u64, answer_length: usize) -> bool;

    /// number, place, floor, edge floor
    pub fn pozqaben_edge_floor(ticket: *const u8, ticket_length: usize, answer: *mut u64, answer_length: usize) -> bool;

    /// number, place, kind, n, w, k, first, nets, across, up, floor
    pub fn pozqaben_lay(
        ticket: *const u8,
        ticket_length: usize,
        wiring: *mut u8,
        wiring_length: usize,
        answer: *mut u64,
        answer_length: usize,
    ) -> bool;

    /// number, place
    pub fn pozqaben_check(
        ticket: *const u8,
        ticket_length: usize,
        w: usize,
        k: usize,
        first: bool,
        wiring: *const u8,
        wiring_length: usize,
        scratch: *mut u8,
        scratch_length: usize,
        answer: *mut u64,
        answer_length: usize,
    ) -> bool;

    /// number, place, start, length
    pub fn pozqaben_layer_view(
        wiring: *const u8,
        wiring_length: usize,
        n: usize,
        w: usize,
        k: usize,
        layer: usize,
        answer: *mut u64,
        answer_length: usize,
    ) -> bool;

    /// number, place, length
    pub fn pozqaben_hardest_box(n: usize, w: usize, ticket: *mut u8, ticket_length: usize, answer: *mut u64, answer_length: usize) -> bool;

    /// number, place, length
    pub fn pozqaben_flatten(
        ticket: *const u8,
        ticket_length: usize,
        flat: *mut u8,
        flat_length: usize,
        answer: *mut u64,
        answer_length: usize,
    ) -> bool;

    /// number, place, length
    pub fn pozqaben_unflatten(
        flat: *const u8,
        flat_length: usize,
        ticket: *mut u8,
        ticket_length: usize,
        answer: *mut u64,
        answer_length: usize,
    ) -> bool;
}
