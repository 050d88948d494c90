//! The proved library's functions over slices. Every one is total: any numbers, any lengths. An answer is `code + 256 × count`;
//! `kakoludar.h` says what each run of numbers holds.

extern "C" {
    fn kakoludar_version() -> u64;
    fn kakoludar_layout() -> u64;
    fn kakoludar_standing(
        session: *const u64,
        session_len: usize,
        buys: *const u64,
        buys_len: usize,
        sells: *const u64,
        sells_len: usize,
        standing: *mut u64,
        standing_len: usize,
    ) -> u64;
    fn kakoludar_open(settings: *const u64, settings_len: usize, session: *mut u64, session_len: usize) -> u64;
    fn kakoludar_apply(
        session: *mut u64,
        session_len: usize,
        event: *const u64,
        event_len: usize,
        buys: *mut u64,
        buys_len: usize,
        sells: *mut u64,
        sells_len: usize,
        room: *mut u64,
        room_len: usize,
    ) -> u64;
    fn kakoludar_sound(
        session: *const u64,
        session_len: usize,
        buys: *const u64,
        buys_len: usize,
        sells: *const u64,
        sells_len: usize,
    ) -> u64;
    fn kakoludar_view(
        side: u64,
        session: *const u64,
        session_len: usize,
        buys: *const u64,
        buys_len: usize,
        sells: *const u64,
        sells_len: usize,
    ) -> u64;
    fn kakoludar_resume(
        saved: *const u8,
        saved_len: usize,
        session: *mut u64,
        session_len: usize,
        buys: *mut u64,
        buys_len: usize,
        sells: *mut u64,
        sells_len: usize,
        place: *mut u64,
        place_len: usize,
    ) -> u64;
    fn kakoludar_resume_lent(
        saved: *const u8,
        saved_len: usize,
        session: *mut u64,
        session_len: usize,
        buys: *mut u64,
        buys_len: usize,
        sells: *mut u64,
        sells_len: usize,
        place: *mut u64,
        place_len: usize,
        spare_buys: *mut u64,
        spare_buys_len: usize,
        spare_sells: *mut u64,
        spare_sells_len: usize,
        room: *mut u64,
        room_len: usize,
    ) -> u64;
    fn kakoludar_read_settings(line: *const u8, line_len: usize, settings: *mut u64, settings_len: usize) -> u64;
    fn kakoludar_read_event(line: *const u8, line_len: usize, event: *mut u64, event_len: usize) -> u64;
    fn kakoludar_write_settings(settings: *const u64, settings_len: usize, line: *mut u8, line_len: usize) -> u64;
    fn kakoludar_write_event(event: *const u64, event_len: usize, line: *mut u8, line_len: usize) -> u64;
    fn kakoludar_write_report(record: *const u64, record_len: usize, line: *mut u8, line_len: usize) -> u64;
    fn kakoludar_start(run: *mut u64, run_len: usize) -> u64;
    fn kakoludar_feed(
        run: *mut u64,
        run_len: usize,
        bytes: *const u8,
        bytes_len: usize,
        buys: *mut u64,
        buys_len: usize,
        sells: *mut u64,
        sells_len: usize,
        room: *mut u64,
        room_len: usize,
        out: *mut u8,
        out_len: usize,
        counts: *mut u64,
        counts_len: usize,
    ) -> u64;
    fn kakoludar_end(
        run: *mut u64,
        run_len: usize,
        bytes: *const u8,
        bytes_len: usize,
        buys: *mut u64,
        buys_len: usize,
        sells: *mut u64,
        sells_len: usize,
        room: *mut u64,
        room_len: usize,
        out: *mut u8,
        out_len: usize,
        counts: *mut u64,
        counts_len: usize,
    ) -> u64;
}

/// An answer's code: 0 for done, or a refusal's number.
pub fn code(answer: u64) -> u64 {
    answer % 256
}

/// An answer's count.
pub fn count(answer: u64) -> u64 {
    answer / 256
}

// Safety of every call below: each pointer and length are of one living slice, `&mut` slices overlap no other, and the library
// keeps no pointer after it answers.

/// The version of the library that is linked.
pub fn version() -> u64 {
    unsafe { kakoludar_version() }
}

/// The layout of the library that is linked.
pub fn layout() -> u64 {
    unsafe { kakoludar_layout() }
}

/// Opens a day: 0; 1; 12 or 13.
pub fn open(settings: &[u64], session: &mut [u64]) -> u64 {
    unsafe { kakoludar_open(settings.as_ptr(), settings.len(), session.as_mut_ptr(), session.len()) }
}

/// Applies an event: the count of reports; 1 to 11.
pub fn apply(session: &mut [u64], event: &[u64], buys: &mut [u64], sells: &mut [u64], room: &mut [u64]) -> u64 {
    unsafe {
        kakoludar_apply(
            session.as_mut_ptr(),
            session.len(),
            event.as_ptr(),
            event.len(),
            buys.as_mut_ptr(),
            buys.len(),
            sells.as_mut_ptr(),
            sells.len(),
            room.as_mut_ptr(),
            room.len(),
        )
    }
}

/// 1 where the session and its live orders are sound, else 0.
pub fn sound(session: &[u64], buys: &[u64], sells: &[u64]) -> u64 {
    unsafe { kakoludar_sound(session.as_ptr(), session.len(), buys.as_ptr(), buys.len(), sells.as_ptr(), sells.len()) }
}

/// How many numbers of a side's table are live, from its start; the side is 1 for buy, 2 for sell.
pub fn view(side: u64, session: &[u64], buys: &[u64], sells: &[u64]) -> u64 {
    unsafe { kakoludar_view(side, session.as_ptr(), session.len(), buys.as_ptr(), buys.len(), sells.as_ptr(), sells.len()) }
}

/// Where a day stands: 0; 1 or 2.
pub fn standing(session: &[u64], buys: &[u64], sells: &[u64], standing: &mut [u64]) -> u64 {
    unsafe {
        kakoludar_standing(
            session.as_ptr(),
            session.len(),
            buys.as_ptr(),
            buys.len(),
            sells.as_ptr(),
            sells.len(),
            standing.as_mut_ptr(),
            standing.len(),
        )
    }
}

/// Comes back from saved lines: 0 and how many bytes count, in `place`; 1; 14, 15 or 22 and the place. It takes some 52 KiB of stack.
pub fn resume(saved: &[u8], session: &mut [u64], buys: &mut [u64], sells: &mut [u64], place: &mut [u64]) -> u64 {
    unsafe {
        kakoludar_resume(
            saved.as_ptr(),
            saved.len(),
            session.as_mut_ptr(),
            session.len(),
            buys.as_mut_ptr(),
            buys.len(),
            sells.as_mut_ptr(),
            sells.len(),
            place.as_mut_ptr(),
            place.len(),
        )
    }
}

/// The same with two spare tables and a report room lent to work in, for a thread with a small stack.
#[allow(clippy::too_many_arguments)]
pub fn resume_lent(
    saved: &[u8],
    session: &mut [u64],
    buys: &mut [u64],
    sells: &mut [u64],
    place: &mut [u64],
    spare_buys: &mut [u64],
    spare_sells: &mut [u64],
    room: &mut [u64],
) -> u64 {
    unsafe {
        kakoludar_resume_lent(
            saved.as_ptr(),
            saved.len(),
            session.as_mut_ptr(),
            session.len(),
            buys.as_mut_ptr(),
            buys.len(),
            sells.as_mut_ptr(),
            sells.len(),
            place.as_mut_ptr(),
            place.len(),
            spare_buys.as_mut_ptr(),
            spare_buys.len(),
            spare_sells.as_mut_ptr(),
            spare_sells.len(),
            room.as_mut_ptr(),
            room.len(),
        )
    }
}

/// Reads a settings line: how many bytes it has; 1, 14, 15 with the place.
pub fn read_settings(line: &[u8], settings: &mut [u64]) -> u64 {
    unsafe { kakoludar_read_settings(line.as_ptr(), line.len(), settings.as_mut_ptr(), settings.len()) }
}

/// Reads an event line: how many bytes it has; 1, 14, 15 with the place.
pub fn read_event(line: &[u8], event: &mut [u64]) -> u64 {
    unsafe { kakoludar_read_event(line.as_ptr(), line.len(), event.as_mut_ptr(), event.len()) }
}

/// Writes a settings line: its length; 1, 12, 16, 17.
pub fn write_settings(settings: &[u64], line: &mut [u8]) -> u64 {
    unsafe { kakoludar_write_settings(settings.as_ptr(), settings.len(), line.as_mut_ptr(), line.len()) }
}

/// Writes an event line: its length; 1, 4, 16, 17.
pub fn write_event(event: &[u64], line: &mut [u8]) -> u64 {
    unsafe { kakoludar_write_event(event.as_ptr(), event.len(), line.as_mut_ptr(), line.len()) }
}

/// Writes a report line: its length, 0 where the numbers are no report's; 1, 16, 17.
pub fn write_report(record: &[u64], line: &mut [u8]) -> u64 {
    unsafe { kakoludar_write_report(record.as_ptr(), record.len(), line.as_mut_ptr(), line.len()) }
}

/// Begins a run of text: 0; 1.
pub fn start(run: &mut [u64]) -> u64 {
    unsafe { kakoludar_start(run.as_mut_ptr(), run.len()) }
}

/// `feed` or `end`: they take the same slices.
pub type Feed = fn(&mut [u64], &[u8], &mut [u64], &mut [u64], &mut [u64], &mut [u8], &mut [u64]) -> u64;

macro_rules! feed {
    ($words:literal, $name:ident, $call:ident) => {
        #[doc = $words]
        #[allow(clippy::too_many_arguments)]
        pub fn $name(
            run: &mut [u64],
            bytes: &[u8],
            buys: &mut [u64],
            sells: &mut [u64],
            room: &mut [u64],
            out: &mut [u8],
            counts: &mut [u64],
        ) -> u64 {
            unsafe {
                $call(
                    run.as_mut_ptr(),
                    run.len(),
                    bytes.as_ptr(),
                    bytes.len(),
                    buys.as_mut_ptr(),
                    buys.len(),
                    sells.as_mut_ptr(),
                    sells.len(),
                    room.as_mut_ptr(),
                    room.len(),
                    out.as_mut_ptr(),
                    out.len(),
                    counts.as_mut_ptr(),
                    counts.len(),
                )
            }
        }
    };
}

feed!("Takes the whole lines of some bytes: why it took no more; 1.", feed, kakoludar_feed);
feed!("Takes the last bytes of the input, and tells the end: why it took no more; 1.", end, kakoludar_end);
