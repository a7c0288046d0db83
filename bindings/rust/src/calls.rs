//! The calls of the library. A slice goes to it as a pointer and a length in elements.
//!
//! A caller's duties: no pointer is null; each is aligned, and good for its length until the call
//! returns; what the call writes overlaps with nothing else that it is handed. The library keeps
//! no pointer and no state.

use crate::{Mark, Mode, Order, Refusal, Rooms, Totals};

#[link(name = "hatsuvren_c", kind = "static")]
extern "C" {
    fn hatsuvren_run(
        mode: u32,
        log: *const u8,
        log_length: usize,
        counts: *mut u16,
        counts_length: usize,
        words: *mut u32,
        words_length: usize,
        mail: *mut u16,
        mail_length: usize,
        report: *mut u8,
        report_length: usize,
        told: *mut [usize; 6],
    ) -> u8;
    fn hatsuvren_compare(
        report: *const u8,
        report_length: usize,
        first_node: u8,
        first_number: u16,
        second_node: u8,
        second_number: u16,
        order: *mut u8,
        place: *mut usize,
    ) -> u8;
    fn hatsuvren_name(number: u8, text: *mut u8, text_length: usize) -> usize;
}

/// Runs a log of any bytes.
///
/// The report of an accepted log fills the front of `report`, and the rest is untouched. It has a
/// group for each mark, in the order of the log. The mark's stamp counts, for each node, the marks
/// that are it or before it in the log's causal order; its direct predecessors are the marks that
/// are before it with no other mark between. `rooms` then hold the state after the last event.
///
/// After a refusal `report` is untouched and `rooms` are all zero. The number is 2 to 13; 13 tells
/// how many bytes the report needs.
pub fn run(
    mode: Mode,
    log: &[u8],
    rooms: &mut Rooms,
    report: &mut [u8],
) -> Result<Totals, Refusal> {
    let Rooms {
        counts,
        words,
        mail,
    } = rooms;
    run_in(mode, log, counts, words, mail, report)
}

/// Runs a log of any bytes, as [`run`] does, in a work room of three slices of any lengths.
///
/// If one of them is shorter than [`COUNTS`](crate::COUNTS), [`WORDS`](crate::WORDS) or
/// [`MAIL`](crate::MAIL), the log is refused with 1 at 0 and nothing is touched. What a longer one
/// has behind that is never touched.
pub fn run_in(
    mode: Mode,
    log: &[u8],
    counts: &mut [u16],
    words: &mut [u32],
    mail: &mut [u16],
    report: &mut [u8],
) -> Result<Totals, Refusal> {
    let mode = match mode {
        Mode::Full => 0,
        Mode::Short => 1,
    };
    let mut told = [0; 6];
    // SAFETY: not null, aligned, good for its length: each pointer and length are those of a slice,
    // and `told` is a local. No overlap: what is written is borrowed as `&mut`.
    let number = unsafe {
        hatsuvren_run(
            mode,
            log.as_ptr(),
            log.len(),
            counts.as_mut_ptr(),
            counts.len(),
            words.as_mut_ptr(),
            words.len(),
            mail.as_mut_ptr(),
            mail.len(),
            report.as_mut_ptr(),
            report.len(),
            &mut told,
        )
    };
    let [place, events, marks, sends, carried, bytes] = told;
    match number {
        0 => Ok(Totals {
            events,
            marks,
            sends,
            carried,
            bytes,
        }),
        _ => Err(Refusal {
            number,
            place,
            needed: (number == 13).then_some(bytes),
        }),
    }
}

/// Compares two marks of a report of any bytes.
///
/// For the report of an accepted log the answer is how the two marks stand in the causal order of
/// that log. Hand over the report alone, which is `&room[..totals.bytes]`.
///
/// A report that is not well formed is refused with 14 and the place of its first bad group; one
/// that lacks the first mark with 15, and one that lacks the second with 16, at 0.
pub fn compare(report: &[u8], first: Mark, second: Mark) -> Result<Order, Refusal> {
    let (mut order, mut place) = (0, 0);
    // SAFETY: not null, aligned, good for its length: pointer and length are those of a slice, and
    // `order` and `place` are locals. No overlap: what is written is borrowed as `&mut`.
    let number = unsafe {
        hatsuvren_compare(
            report.as_ptr(),
            report.len(),
            first.node,
            first.number,
            second.node,
            second.number,
            &mut order,
            &mut place,
        )
    };
    match (number, order) {
        (0, 1) => Ok(Order::Before),
        (0, 2) => Ok(Order::After),
        (0, 3) => Ok(Order::Apart),
        (0, _) => unreachable!("the library answers 1, 2 or 3"),
        _ => Err(Refusal {
            number,
            place,
            needed: None,
        }),
    }
}

/// What a number means, in words: 0 is `accepted`, 1 to 16 are the refusals, and 255 is a mode that
/// no call of this package asks for. The others mean nothing.
pub fn name(number: u8) -> Option<String> {
    let length = lay_name(number, &mut []);
    let mut text = vec![0; length + 1];
    lay_name(number, &mut text);
    text.truncate(length);
    String::from_utf8(text).ok().filter(|name| !name.is_empty())
}

// Lays a name and a zero over the front of the text, if it has space for both, and returns the
// name's length.
fn lay_name(number: u8, text: &mut [u8]) -> usize {
    // SAFETY: not null, aligned, good for its length: pointer and length are those of a slice. No
    // overlap: there is no other.
    unsafe { hatsuvren_name(number, text.as_mut_ptr(), text.len()) }
}

#[cfg(test)]
mod tests {
    use crate::{Rooms, COUNTS, MAIL, WORDS};

    extern "C" {
        fn hatsuvren_counts_length() -> usize;
        fn hatsuvren_words_length() -> usize;
        fn hatsuvren_mail_length() -> usize;
        fn hatsuvren_rooms_bytes() -> usize;
    }

    #[test]
    fn the_rooms_are_as_large_as_the_library_says() {
        // SAFETY: these take nothing and return a number.
        let said = unsafe {
            [
                hatsuvren_counts_length(),
                hatsuvren_words_length(),
                hatsuvren_mail_length(),
                hatsuvren_rooms_bytes(),
            ]
        };
        assert_eq!(said, [1_024, 1_056, 4_480, 15_232]);
        assert_eq!(said, [COUNTS, WORDS, MAIL, std::mem::size_of::<Rooms>()]);
    }
}
