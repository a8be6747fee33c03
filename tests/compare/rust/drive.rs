//! Runs scripts of the layout that the program `drive` reads on the Rust reader, and prints the same lines.
//!
//! A `read` or `set` here is the whole call: the Rust pulls its input itself, in pieces of changing size, so scripts for it hold no asks and no
//! reports. The driver adds what the Rust has not and the compared lines need:
//!   the window's length: a policy around the Rust's own refuses sizes above it, and sizes not above the present one
//!   the room of an output (refusal 9): the text is written to a `Vec` and its length compared
//!   which record is current (refusal 7), and that a line number has no line (refusal 8)
//!   policy kind 3, used only to show a known difference: `DoubleUntil` with no window around it, stopped by a panic at its 1,000th growth
//! Printed without place: `refused 3`, since the Rust's error names none. A panic prints `panic` and ends the script.
use crate::fasta::{self, Error, Position, Reader, Record, RecordSet, RefRecord};
use crate::policy::{BufPolicy, DoubleUntil, DoubleUntilLimited, StdPolicy};
use std::borrow::Cow;
use std::fmt::Write as _;
use std::io::{self, Read, Seek, SeekFrom, Write};
use std::panic::{catch_unwind, AssertUnwindSafe};
use std::sync::atomic::Ordering;

/// An input served in pieces of 1 to 7 bytes: answers may not depend on the cutting.
pub struct Pieces {
    pub input: Vec<u8>,
    pub at: u64,
    pub turn: usize,
}

impl Read for Pieces {
    fn read(&mut self, out: &mut [u8]) -> io::Result<usize> {
        self.turn = (self.turn * 5 + 3) % 7;
        let from = self.input.len().min(self.at as usize);
        let n = out.len().min(self.input.len() - from).min(self.turn + 1);
        out[..n].copy_from_slice(&self.input[from..from + n]);
        self.at += n as u64;
        Ok(n)
    }
}

impl Seek for Pieces {
    fn seek(&mut self, to: SeekFrom) -> io::Result<u64> {
        let SeekFrom::Start(at) = to else { unimplemented!("fasta.rs seeks from the start") };
        self.at = at;
        Ok(at)
    }
}

/// The Rust's policies under the bound of a window.
pub struct Bounded {
    pub kind: u64,
    pub n: usize,
    pub limit: usize,
    pub window: usize,
    pub growths: usize,
}

impl BufPolicy for Bounded {
    fn grow_to(&mut self, size: usize) -> Option<usize> {
        self.growths += 1;
        assert!(self.kind != 3 || self.growths < 1000);
        let larger = match self.kind {
            0 => StdPolicy.grow_to(size),
            1 => DoubleUntil(self.n).grow_to(size),
            3 => return DoubleUntil(self.n).grow_to(size),
            _ => DoubleUntilLimited::new(self.n, self.limit).grow_to(size),
        };
        larger.filter(|&larger| size < larger && larger <= self.window)
    }
}

struct Script<'a> {
    data: &'a [u8],
}

impl<'a> Script<'a> {
    fn take(&mut self, n: usize) -> &'a [u8] {
        let (taken, rest) = self.data.split_at(n);
        self.data = rest;
        taken
    }
    fn u8(&mut self) -> u8 {
        self.take(1)[0]
    }
    fn u32(&mut self) -> usize {
        u32::from_le_bytes(self.take(4).try_into().unwrap()) as usize
    }
    fn u64(&mut self) -> u64 {
        u64::from_le_bytes(self.take(8).try_into().unwrap())
    }
}

enum Call<'a> {
    Read,
    Seek(u64, u64),
    Position,
    Set,
    View(Option<usize>, u8, usize, usize),
    Write(Option<usize>, u8, usize, usize),
    Capacity,
    Grow(usize),
    Free(u8, &'a [u8], &'a [u8], &'a [u8], usize, usize),
}

fn call<'a>(script: &mut Script<'a>) -> Call<'a> {
    match script.u8() {
        1 => Call::Read,
        3 => Call::Seek(script.u64(), script.u64()),
        4 => Call::Position,
        5 => {
            script.take(12);
            Call::Set
        }
        6 => Call::View(None, script.u8(), script.u64() as usize, script.u32()),
        7 => Call::Write(None, script.u8(), script.u64() as usize, script.u32()),
        8 => Call::View(Some(script.u32()), script.u8(), script.u64() as usize, script.u32()),
        9 => Call::Write(Some(script.u32()), script.u8(), script.u64() as usize, script.u32()),
        10 => Call::Capacity,
        11 => Call::Grow(script.u64() as usize),
        13 => {
            let what = script.u8();
            let (a, b, c) = (script.u32(), script.u32(), script.u32());
            let (wrap, room) = (script.u64() as usize, script.u32());
            Call::Free(what, script.take(a), script.take(b), script.take(c), wrap, room)
        }
        other => panic!("call {other} has no counterpart in the Rust"),
    }
}

fn hex(bytes: &[u8]) -> String {
    if bytes.is_empty() {
        return "-".into();
    }
    bytes.iter().fold(String::new(), |mut text, byte| {
        write!(text, "{byte:02x}").unwrap();
        text
    })
}

fn part(bytes: &[u8]) -> String {
    format!("part {}", hex(bytes))
}

fn view(record: &RefRecord, what: u8, line: usize, scratch: usize) -> String {
    match what {
        0 => part(record.head()),
        1 => {
            assert_eq!(record.id_bytes(), record.id_desc_bytes().0);
            part(record.id_bytes())
        }
        2 => {
            assert_eq!(record.desc_bytes(), record.id_desc_bytes().1);
            record.desc_bytes().map_or("none".into(), part)
        }
        3 => part(record.seq()),
        4 => record.seq_lines().nth(line).map_or("refused 8".into(), part),
        _ => match record.full_seq() {
            Cow::Borrowed(part) => format!("window {}", hex(part)),
            Cow::Owned(joined) if joined.len() > scratch => format!("refused 9 {}", joined.len()),
            Cow::Owned(joined) => format!("scratch {}", hex(&joined)),
        },
    }
}

fn written(text: &[u8], room: usize, show_rest: bool) -> String {
    if text.len() > room {
        return format!("refused 9 {}", text.len());
    }
    let rest = vec![b'#'; room - text.len()];
    if show_rest { format!("wrote {} {}", hex(text), hex(&rest)) } else { format!("wrote {}", hex(text)) }
}

fn write(record: &RefRecord, what: u8, wrap: usize, room: usize) -> String {
    let mut text = vec![];
    match what {
        0 => record.write(&mut text),
        1 => record.write_wrap(&mut text, wrap),
        _ => record.write_unchanged(&mut text),
    }
    .unwrap();
    written(&text, room, false)
}

fn free(what: u8, a: &[u8], b: &[u8], c: &[u8], wrap: usize, room: usize) -> String {
    let mut text = vec![];
    let out = &mut text;
    match what {
        0 => fasta::write_head(out, a),
        1 => fasta::write_id_desc(out, a, Some(b)),
        2 => fasta::write_id_desc(out, a, None),
        3 => fasta::write_seq(out, c),
        4 => fasta::write_wrap_seq(out, c, wrap),
        5 => fasta::write_to(out, a, c),
        6 => fasta::write_parts(out, a, Some(b), c),
        7 => fasta::write_parts(out, a, None, c),
        8 => fasta::write_wrap(out, a, Some(b), c, wrap),
        _ => fasta::write_wrap(out, a, None, c, wrap),
    }
    .unwrap();
    written(&text, room, true)
}

fn refusal(error: Error) -> String {
    match error {
        Error::InvalidStart { line, found } => format!("refused 2 {line} {found}"),
        Error::BufferLimit => "refused 3".into(),
        Error::Io(error) => format!("error {error}"),
    }
}

/// The length of a set's copied bytes: no public call gives it, but the derived `Debug` shows them.
fn filled(set: &RecordSet) -> usize {
    let shown = format!("{set:?}");
    let bytes = shown.split_once('[').unwrap().1.split_once(']').unwrap().0;
    if bytes.is_empty() { 0 } else { bytes.split(',').count() }
}

fn number(position: Option<&Position>) -> String {
    position.map_or("none".into(), |at| format!("at {} {}", at.line(), at.byte()))
}

struct Session {
    reader: Reader<Pieces, Bounded>,
    policy: Bounded,
    set: RecordSet,
    /// The current record. It borrows from `reader`, which is not changed while this is there.
    current: Option<RefRecord<'static>>,
}

impl Session {
    fn answer(&mut self, call: &Call) -> String {
        match *call {
            Call::Read => {
                self.current = None;
                match self.reader.next() {
                    None => "end".into(),
                    Some(Err(error)) => refusal(error),
                    Some(Ok(record)) => {
                        let lines = record.num_seq_lines();
                        // The lifetime is stretched by hand so that `position` can be called beside it; every change of the reader drops it first.
                        self.current = Some(unsafe { std::mem::transmute::<RefRecord<'_>, RefRecord<'static>>(record) });
                        let at = self.reader.position().unwrap();
                        format!("record {} {} {lines}", at.line(), at.byte())
                    }
                }
            }
            Call::Seek(line, byte) => {
                self.current = None;
                self.reader.seek(&Position::new(line, byte)).map_or_else(refusal, |()| "ok".into())
            }
            Call::Position => number(self.reader.position()),
            Call::Set => {
                self.current = None;
                match self.reader.read_record_set(&mut self.set) {
                    None => "end".into(),
                    Some(Err(error)) => refusal(error),
                    Some(Ok(())) => format!("set {} {}", self.set.len(), filled(&self.set)),
                }
            }
            Call::View(of, what, line, scratch) => self.record(of).map_or("refused 7".into(), |record| view(&record, what, line, scratch)),
            Call::Write(of, what, wrap, room) => self.record(of).map_or("refused 7".into(), |record| write(&record, what, wrap, room)),
            Call::Capacity => format!("capacity {}", buffer_redux::CAPACITY.load(Ordering::Relaxed)),
            Call::Grow(size) => self.policy.grow_to(size).map_or("none".into(), |larger| format!("grow {larger}")),
            Call::Free(what, a, b, c, wrap, room) => free(what, a, b, c, wrap, room),
        }
    }

    fn record(&self, of: Option<usize>) -> Option<RefRecord<'_>> {
        match of {
            None => self.current.clone(),
            Some(number) => self.set.into_iter().nth(number),
        }
    }
}

pub fn main() {
    std::panic::set_hook(Box::new(|_| {}));
    let mut data = vec![];
    io::stdin().read_to_end(&mut data).unwrap();
    let mut script = Script { data: &data };
    let mut out = io::BufWriter::new(io::stdout());
    // One set for the whole run, as a program has it. No compared answer shows what an earlier script left in it.
    let mut set = RecordSet::default();
    while !script.data.is_empty() {
        assert_eq!(script.u32(), 6);
        let [capacity, kind, n, limit, window, _slots] = std::array::from_fn(|_| script.u64());
        let length = script.u32();
        let input = script.take(length).to_vec();
        let policy = || Bounded { kind, n: n as usize, limit: limit as usize, window: window as usize, growths: 0 };
        let pieces = Pieces { input, at: 0, turn: length % 7 };
        let reader = Reader::with_capacity(pieces, capacity as usize).set_policy(policy());
        let mut session = Session { reader, policy: policy(), set: std::mem::take(&mut set), current: None };
        writeln!(out, "made").unwrap();
        let mut alive = true;
        for _ in 0..script.u32() {
            let call = call(&mut script);
            if alive {
                match catch_unwind(AssertUnwindSafe(|| session.answer(&call))) {
                    Ok(line) => writeln!(out, "{line}").unwrap(),
                    Err(_) => {
                        writeln!(out, "panic").unwrap();
                        alive = false;
                    }
                }
            }
        }
        set = session.set;
        writeln!(out, "done").unwrap();
    }
}
