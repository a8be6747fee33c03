//! The job of the program `list` by the Rust reader: a row for each record of standard input (line, byte, id, joined length), then `end`.
//!
//! Buffers are of the sizes that `list` has. Input and output go past the standard library's own buffers, and the joined length is summed
//! over the lines without a copy. The reader lends a record only until it is asked for its position, so the id is kept.
use crate::fasta::{Reader, Record};
use std::fs::File;
use std::io::{self, BufWriter, Write};
use std::os::fd::{AsFd, BorrowedFd};

fn file(of: BorrowedFd) -> File {
    File::from(of.try_clone_to_owned().unwrap())
}

pub fn main() {
    let mut reader = Reader::with_capacity(file(io::stdin().as_fd()), 65536);
    let mut out = BufWriter::with_capacity(131072, file(io::stdout().as_fd()));
    let mut id = Vec::new();
    while let Some(record) = reader.next() {
        let record = record.unwrap();
        id.clear();
        id.extend_from_slice(record.id_bytes());
        let length: usize = record.seq_lines().map(<[u8]>::len).sum();
        let at = reader.position().unwrap();
        write!(out, "{}\t{}\t", at.line(), at.byte()).unwrap();
        out.write_all(&id).unwrap();
        write!(out, "\t{}\n", length).unwrap();
    }
    out.write_all(b"end\n").unwrap();
    out.flush().unwrap();
}
