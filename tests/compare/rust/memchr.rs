//! Stand-in for the crate `memchr`: a plain loop.
//!
//! Imitates the one call of fasta.rs, in `Reader::_search`: `Memchr::new(needle, haystack)`, an iterator over the places of the needle in the
//! haystack, in rising order. Where records and lines end rests on it.

pub struct Memchr<'h> {
    needle: u8,
    haystack: &'h [u8],
    at: usize,
}

impl<'h> Memchr<'h> {
    pub fn new(needle: u8, haystack: &'h [u8]) -> Memchr<'h> {
        Memchr { needle, haystack, at: 0 }
    }
}

impl Iterator for Memchr<'_> {
    type Item = usize;

    fn next(&mut self) -> Option<usize> {
        while self.at < self.haystack.len() {
            let here = self.at;
            self.at += 1;
            if self.haystack[here] == self.needle {
                return Some(here);
            }
        }
        None
    }
}
