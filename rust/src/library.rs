//! The functions of libhost.a, as include/sundewcup_host.h has them. Nothing else in this package is `unsafe`.

/// Numbers of a session, and of all shift rows of one event.
pub const SESSION_NUMBERS: usize = 1056;
pub const SHIFT_NUMBERS: usize = 96;
pub const REPORT_NUMBERS: usize = 24;

extern "C" {
    fn sundewcup_open(
        session: *mut [u64; SESSION_NUMBERS],
        table: *const u8,
        length: usize,
        line: *mut i64,
        field: *mut i64,
    ) -> i64;
    fn sundewcup_event_unchecked(
        session: *mut [u64; SESSION_NUMBERS],
        event: *const u8,
        length: usize,
        shifts: *mut [i64; SHIFT_NUMBERS],
        made: *mut usize,
    ) -> i64;
    fn sundewcup_feed(
        session: *mut [u64; SESSION_NUMBERS],
        events: *const u8,
        length: usize,
        out: *mut i64,
        room: usize,
    ) -> usize;
    fn sundewcup_limits(session: *const [u64; SESSION_NUMBERS], id: u32, out: *mut [i64; 3]) -> i64;
    fn sundewcup_place_unchecked(session: *const [u64; SESSION_NUMBERS], id: u32, price: i64) -> i64;
    fn sundewcup_report(session: *const [u64; SESSION_NUMBERS], id: u32, out: *mut [i64; REPORT_NUMBERS]) -> i64;
    fn sundewcup_check(session: *const [u64; SESSION_NUMBERS]) -> i64;
    fn sundewcup_session_numbers() -> usize;
}

/// The number of the refusal or 0, its line, and the place of its field or 0; -1 where the library does not say it. After a refusal the
/// numbers are no session, and only `check` and `open` may take them.
pub fn open(session: &mut [u64; SESSION_NUMBERS], table: &[u8]) -> (i64, i64, i64) {
    let mut line = -1;
    let mut field = -1;
    // SAFETY: the pointers come from references that live through the call and do not overlap; any numbers may stand in the session.
    let number = unsafe { sundewcup_open(session, table.as_ptr(), table.len(), &mut line, &mut field) };
    (number, line, field)
}

/// The number of the refusal or 0, and how many shift rows were written. The session is one that `open` opened or `check` found sound.
pub fn event(session: &mut [u64; SESSION_NUMBERS], event: &[u8], shifts: &mut [i64; SHIFT_NUMBERS]) -> (i64, usize) {
    let mut made = 0;
    // SAFETY: as in `open`; that the session is sound holds since only these functions change one (`Session` keeps it to itself).
    let number = unsafe { sundewcup_event_unchecked(session, event.as_ptr(), event.len(), shifts, &mut made) };
    (number, made)
}

/// How many numbers were written; more than `out` has where that is too short, and then nothing is done.
pub fn feed(session: &mut [u64; SESSION_NUMBERS], events: &[u8], out: &mut [i64]) -> usize {
    // SAFETY: as in `event`.
    unsafe { sundewcup_feed(session, events.as_ptr(), events.len(), out.as_mut_ptr(), out.len()) }
}

pub fn limits(session: &[u64; SESSION_NUMBERS], id: u32, out: &mut [i64; 3]) -> i64 {
    // SAFETY: as in `event`; the session is only read.
    unsafe { sundewcup_limits(session, id, out) }
}

pub fn place(session: &[u64; SESSION_NUMBERS], id: u32, price: i64) -> i64 {
    // SAFETY: as in `limits`.
    unsafe { sundewcup_place_unchecked(session, id, price) }
}

pub fn report(session: &[u64; SESSION_NUMBERS], id: u32, out: &mut [i64; REPORT_NUMBERS]) -> i64 {
    // SAFETY: as in `limits`.
    unsafe { sundewcup_report(session, id, out) }
}

/// 0 where the numbers are a sound session.
pub fn check(session: &[u64; SESSION_NUMBERS]) -> i64 {
    // SAFETY: the session is only read, and may be any numbers.
    unsafe { sundewcup_check(session) }
}

/// How many numbers the library takes a session to be.
pub fn session_numbers() -> usize {
    // SAFETY: it takes nothing.
    unsafe { sundewcup_session_numbers() }
}
