//! Stand-in for the crate `buffer_redux`: a buffered reader that has exactly the capacity asked for.
//!
//! Imitates these calls of fasta.rs and of lib.rs's `fill_buf`, as we know them from the crate's documentation. The crate is not supplied, so no
//! run here checks that it does the same.
//!   `BufReader::with_capacity(capacity, inner)`
//!   `buffer()`: the bytes read and not yet consumed
//!   `capacity()`: the size of the whole buffer
//!   `consume(n)` (of `BufRead`): the first n of them go
//!   `make_room()`: the data moves to the start of the buffer, which makes room for reading at the end
//!   `reserve(additional)`: space for that many bytes behind the data. The crate may allot more; here it is exactly as many
//!   `read_into_buf()`: one read into the space at the end; gives the number of bytes read
//!   `seek(from)` (of `Seek`): discards the buffer, wherever the place sought lies
//! Refusal 3, where a record is moved, and what a set copies rest on it. `Read` and `fill_buf` stand here because `BufRead` asks for them, and
//! stop if called. `CAPACITY` is no part of the crate: it shows the driver the capacity of the reader made or grown last.
use std::io::{self, BufRead, Read, Seek, SeekFrom};
use std::marker::PhantomData;
use std::sync::atomic::{AtomicUsize, Ordering};

pub static CAPACITY: AtomicUsize = AtomicUsize::new(0);

pub mod policy {
    pub struct StdPolicy;
}

pub struct BufReader<R, P = policy::StdPolicy> {
    inner: R,
    data: Vec<u8>,
    from: usize,
    to: usize,
    policy: PhantomData<P>,
}

impl<R> BufReader<R, policy::StdPolicy> {
    pub fn with_capacity(capacity: usize, inner: R) -> Self {
        CAPACITY.store(capacity, Ordering::Relaxed);
        BufReader { inner, data: vec![0; capacity], from: 0, to: 0, policy: PhantomData }
    }
}

impl<R, P> BufReader<R, P> {
    pub fn buffer(&self) -> &[u8] {
        &self.data[self.from..self.to]
    }

    pub fn capacity(&self) -> usize {
        self.data.len()
    }

    pub fn make_room(&mut self) {
        self.data.copy_within(self.from..self.to, 0);
        self.to -= self.from;
        self.from = 0;
    }

    pub fn reserve(&mut self, additional: usize) {
        let space = self.data.len() - self.to;
        if space < additional {
            self.data.resize(self.to + additional, 0);
        }
        CAPACITY.store(self.data.len(), Ordering::Relaxed);
    }
}

impl<R: Read, P> BufReader<R, P> {
    pub fn read_into_buf(&mut self) -> io::Result<usize> {
        let n = self.inner.read(&mut self.data[self.to..])?;
        self.to += n;
        Ok(n)
    }
}

impl<R: Read, P> Read for BufReader<R, P> {
    fn read(&mut self, _: &mut [u8]) -> io::Result<usize> {
        unimplemented!("fasta.rs does not call this")
    }
}

impl<R: Read, P> BufRead for BufReader<R, P> {
    fn fill_buf(&mut self) -> io::Result<&[u8]> {
        unimplemented!("fasta.rs does not call this")
    }

    fn consume(&mut self, n: usize) {
        self.from = self.to.min(self.from + n);
    }
}

impl<R: Seek, P> Seek for BufReader<R, P> {
    fn seek(&mut self, to: SeekFrom) -> io::Result<u64> {
        self.from = 0;
        self.to = 0;
        self.inner.seek(to)
    }
}
