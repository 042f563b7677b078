//! The functions as the archive exports them. A slice is a pointer and a
//! length; tables are flat words, five a row; a book is flat words, four a
//! place, with 63 contact numbers a place beside them.
//!
//! Each returns the refusal's number, or 0. The lent answer gets the number,
//! the place and the figures, and has at least [`ANSWER_WORDS`] words, for
//! [`oivarnum_book_route`] [`BOOKED_WORDS`]: where it has fewer, 10 is returned
//! and nothing changes.

/// The words that every lent answer must have.
pub const ANSWER_WORDS: usize = 7;
/// The words that an answer of [`oivarnum_book_route`] must have.
pub const BOOKED_WORDS: usize = 8;

extern "C" {
    /// The answer's figures: the counts of contacts and of ranges.
    pub fn oivarnum_read(
        text: *const u8,
        text_len: usize,
        contacts: *mut u64,
        contacts_len: usize,
        ranges: *mut u64,
        ranges_len: usize,
        answer: *mut u64,
        answer_len: usize,
    ) -> u64;

    /// The answer's figure: the text's length.
    pub fn oivarnum_write(
        contacts: *const u64,
        contacts_len: usize,
        contact_count: usize,
        ranges: *const u64,
        ranges_len: usize,
        range_count: usize,
        out: *mut u8,
        out_len: usize,
        answer: *mut u64,
        answer_len: usize,
    ) -> u64;

    /// The answer's figures: delivery, opens, last call, room.
    pub fn oivarnum_walk(
        contacts: *const u64,
        contacts_len: usize,
        contact_count: usize,
        ranges: *const u64,
        ranges_len: usize,
        range_count: usize,
        source: u64,
        destination: u64,
        time: u64,
        size: u64,
        deadline: u64,
        excluded: u64,
        chain: *const u64,
        chain_len: usize,
        answer: *mut u64,
        answer_len: usize,
    ) -> u64;

    /// The answer's figures: delivery, opens, last call, room, count.
    pub fn oivarnum_route(
        contacts: *const u64,
        contacts_len: usize,
        contact_count: usize,
        ranges: *const u64,
        ranges_len: usize,
        range_count: usize,
        source: u64,
        destination: u64,
        time: u64,
        size: u64,
        deadline: u64,
        excluded: u64,
        chain: *mut u64,
        chain_len: usize,
        answer: *mut u64,
        answer_len: usize,
    ) -> u64;

    /// The answer's figures: those of [`oivarnum_walk`].
    pub fn oivarnum_walk_booked(
        contacts: *const u64,
        contacts_len: usize,
        contact_count: usize,
        ranges: *const u64,
        ranges_len: usize,
        range_count: usize,
        book: *const u64,
        book_len: usize,
        booked: *const u16,
        booked_len: usize,
        source: u64,
        destination: u64,
        time: u64,
        size: u64,
        deadline: u64,
        excluded: u64,
        class: u64,
        chain: *const u64,
        chain_len: usize,
        answer: *mut u64,
        answer_len: usize,
    ) -> u64;

    /// The answer's figures: those of [`oivarnum_route`].
    pub fn oivarnum_route_booked(
        contacts: *const u64,
        contacts_len: usize,
        contact_count: usize,
        ranges: *const u64,
        ranges_len: usize,
        range_count: usize,
        book: *const u64,
        book_len: usize,
        booked: *const u16,
        booked_len: usize,
        source: u64,
        destination: u64,
        time: u64,
        size: u64,
        deadline: u64,
        excluded: u64,
        class: u64,
        chain: *mut u64,
        chain_len: usize,
        answer: *mut u64,
        answer_len: usize,
    ) -> u64;

    /// The answer's figures: those of [`oivarnum_route`], and the booking's place.
    pub fn oivarnum_book_route(
        contacts: *const u64,
        contacts_len: usize,
        contact_count: usize,
        ranges: *const u64,
        ranges_len: usize,
        range_count: usize,
        book: *mut u64,
        book_len: usize,
        booked: *mut u16,
        booked_len: usize,
        source: u64,
        destination: u64,
        time: u64,
        size: u64,
        deadline: u64,
        excluded: u64,
        class: u64,
        chain: *mut u64,
        chain_len: usize,
        answer: *mut u64,
        answer_len: usize,
    ) -> u64;

    /// The answer has no figures.
    pub fn oivarnum_release(
        contacts: *const u64,
        contacts_len: usize,
        contact_count: usize,
        ranges: *const u64,
        ranges_len: usize,
        range_count: usize,
        book: *mut u64,
        book_len: usize,
        booked: *const u16,
        booked_len: usize,
        place: u64,
        answer: *mut u64,
        answer_len: usize,
    ) -> u64;
}
