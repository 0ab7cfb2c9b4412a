//! The functions of `regcheck.h`, as they are. The crate `regcheck` calls them safely.
//!
//! It links `libregcheck.a` from the folder `REGCHECK_LIB_DIR`; else from `lib` or `bin` two folders above
//! the crate, where a release and the repository have it; else the installed library.

/// `regcheck_answer`.
#[repr(C)]
#[derive(Clone, Copy, Debug, Default, PartialEq, Eq)]
pub struct Answer {
    pub status: u32,
    pub number: u32,
    pub line: u32,
    pub other: u32,
    pub length: u64,
}

pub const ATOMIC: u32 = 0;
pub const NOT_ATOMIC: u32 = 1;
pub const REFUSED: u32 = 2;
/// Of `reglevel_report` alone: a number stands for nothing.
pub const BAD_NUMBER: u32 = 3;
pub const NO_MEMORY: u32 = 4;
pub const TOO_SMALL: u32 = 5;
/// Of `regsearch_report`, and of `reglevel_report` if `levels::CAUSAL` is required.
pub const UNKNOWN: u32 = 6;

/// What `reglevel_report` may require.
pub mod levels {
    pub const ATOMIC: u32 = 0;
    pub const REGULAR: u32 = 1;
    pub const SESSION: u32 = 2;
    pub const OWN_WRITES: u32 = 3;
    pub const MONOTONIC: u32 = 4;
    pub const SEQUENTIAL: u32 = 5;
    pub const CAUSAL: u32 = 6;
}

/// What a report of levels has to say in addition is a sum of these: each stale read,
pub const STALE: u32 = 1;
/// and an order for the strongest level of each register, and one if all is causal.
pub const ORDERS: u32 = 2;

/// The line of a refusal has no more bytes.
pub const LINE_LENGTH: usize = 128;

extern "C" {
    /// Puts the report of the input into `out`, and what came of it into `answer`.
    ///
    /// # Safety
    /// The pointers aren't null, and point to as many bytes as the lengths say; nothing else uses `out`
    /// and `answer` meanwhile.
    pub fn regcheck_report(
        input: *const u8,
        input_length: usize,
        out: *mut u8,
        out_length: usize,
        answer: *mut Answer,
    );

    /// The same for histories with compare-and-swap and repeated values too, by a search within these bounds.
    /// A bound of 0 is the program's default.
    ///
    /// # Safety
    /// As of [`regcheck_report`].
    pub fn regsearch_report(
        input: *const u8,
        input_length: usize,
        steps: u64,
        configurations: usize,
        out: *mut u8,
        out_length: usize,
        answer: *mut Answer,
    );

    /// The same for the program reglevel: of a history of reads and writes, whether it keeps one of the
    /// [`levels`]. `ATOMIC` says that each register does, or the whole if it is `CAUSAL`, and `NOT_ATOMIC`
    /// that one doesn't.
    ///
    /// # Safety
    /// As of [`regcheck_report`].
    pub fn reglevel_report(
        input: *const u8,
        input_length: usize,
        level: u32,
        more: u32,
        out: *mut u8,
        out_length: usize,
        answer: *mut Answer,
    );

    /// Puts the line that regcheck and reglevel write of a history that they refuse into `out`, and gives its
    /// length: 0 if the history isn't refused, or if memory ran out.
    ///
    /// # Safety
    /// As of [`regcheck_report`].
    pub fn regcheck_refusal(
        input: *const u8,
        input_length: usize,
        out: *mut u8,
        out_length: usize,
    ) -> usize;

    /// The same for regsearch.
    ///
    /// # Safety
    /// As of [`regcheck_report`].
    pub fn regsearch_refusal(
        input: *const u8,
        input_length: usize,
        out: *mut u8,
        out_length: usize,
    ) -> usize;
}
