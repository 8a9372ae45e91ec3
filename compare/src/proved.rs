//! Safe calls of the proved library.

extern "C" {
    fn bench_report(text: *const u8, text_len: usize, out: *mut u8, out_len: usize) -> usize;
    fn bench_read(
        text: *const u8,
        text_len: usize,
        homes: *mut u32,
        homes_len: usize,
        numbers: *mut u32,
        numbers_len: usize,
    ) -> u64;
    fn bench_run(
        sites: u32,
        table: *const u32,
        table_len: usize,
        events: *const u32,
        events_len: usize,
        answers: *mut u8,
        answers_len: usize,
    ) -> u32;
}

/// The room that the report of any text fits in.
pub const ROOM: usize = 24_576;

/// What the library answers in place of a message count.
const REFUSED: u32 = 0xFFFF_FFFF;

/// Writes the report of the text and gives its length, or nothing when `out`
/// is too short for it.
pub fn report(text: &[u8], out: &mut [u8]) -> Option<usize> {
    // SAFETY: both slices are valid for the lengths that go with them, and
    // the library keeps neither pointer.
    let length = unsafe { bench_report(text.as_ptr(), text.len(), out.as_mut_ptr(), out.len()) };
    assert!(length <= out.len(), "a report longer than its buffer");
    (length > 0).then_some(length)
}

/// Reads the text into two lists, as far as they have room: the table with two
/// numbers a transaction, the events with seven each. Gives the number of the
/// line at fault, or 0 when the text is in good form.
pub fn read(text: &[u8], table: &mut [u32], events: &mut [u32]) -> u64 {
    // SAFETY: all three slices are valid for the lengths that go with them,
    // and the library keeps no pointer.
    unsafe {
        bench_read(
            text.as_ptr(),
            text.len(),
            table.as_mut_ptr(),
            table.len(),
            events.as_mut_ptr(),
            events.len(),
        )
    }
}

/// Sets up and runs. The table has two numbers a transaction, the events have
/// seven each. Gives the messages sent, or nothing when refused.
pub fn run(sites: u32, table: &[u32], events: &[u32], answers: &mut [u8]) -> Option<u32> {
    // SAFETY: all three slices are valid for the lengths that go with them,
    // and the library keeps no pointer.
    let messages = unsafe {
        bench_run(
            sites,
            table.as_ptr(),
            table.len(),
            events.as_ptr(),
            events.len(),
            answers.as_mut_ptr(),
            answers.len(),
        )
    };
    (messages != REFUSED).then_some(messages)
}
