//! What `oas_bench numbers` does, in plain Rust: the same work by the same steps, for `bench/run` to compare with.
//! `buffered` is the writing again, with a `BufWriter` of the standard library.

use std::io::{self, Read, Write};
use std::time::Instant;

const MADE: u64 = 65536;

struct Numbers {
    state: u64,
}

impl Numbers {
    fn step(&mut self) -> u64 {
        let mut state = self.state;
        state ^= state << 13;
        state ^= state >> 7;
        state ^= state << 17;
        self.state = state;
        state
    }

    fn next(&mut self) -> u64 {
        let bits = self.step();
        let shift = self.step() % 64;
        bits >> shift
    }
}

struct Tally {
    count: u64,
    digest: u64,
}

impl Write for Tally {
    fn write(&mut self, piece: &[u8]) -> io::Result<usize> {
        if let [first, .., last] = piece {
            self.digest = self.digest.wrapping_mul(31).wrapping_add(u64::from(*first));
            self.digest = self.digest.wrapping_mul(31).wrapping_add(u64::from(*last));
        }
        self.count += piece.len() as u64;
        Ok(piece.len())
    }

    fn flush(&mut self) -> io::Result<()> {
        Ok(())
    }
}

#[derive(Debug)]
struct SinkFault;

trait Sink {
    fn put(&mut self, byte: u8) -> Result<(), SinkFault>;
}

const WINDOW: usize = 8192;

struct Outlet<'a, W> {
    writer: &'a mut W,
    window: [u8; WINDOW],
    held: usize,
    taken: u64,
    failed: bool,
}

impl<'a, W: Write> Outlet<'a, W> {
    fn new(writer: &'a mut W) -> Self {
        Outlet {
            writer,
            window: [0; WINDOW],
            held: 0,
            taken: 0,
            failed: false,
        }
    }

    fn spill(&mut self) -> Result<(), SinkFault> {
        if self.failed {
            return Err(SinkFault);
        }
        let mut sent = 0;
        while sent < self.held {
            match self.writer.write(&self.window[sent..self.held]) {
                Ok(0) | Err(_) => {
                    self.taken = self.taken.saturating_add(sent as u64);
                    self.failed = true;
                    self.held = WINDOW;
                    return Err(SinkFault);
                }
                Ok(count) => sent += count,
            }
        }
        self.taken = self.taken.saturating_add(sent as u64);
        self.held = 0;
        Ok(())
    }

    fn close(&mut self) -> Result<(), SinkFault> {
        self.spill()?;
        self.writer.flush().map_err(|_| SinkFault)
    }

    #[cold]
    #[inline(never)]
    fn put_after_spill(&mut self, byte: u8) -> Result<(), SinkFault> {
        self.spill()?;
        self.window[0] = byte;
        self.held = 1;
        Ok(())
    }
}

impl<'a, W: Write> Sink for Outlet<'a, W> {
    #[inline]
    fn put(&mut self, byte: u8) -> Result<(), SinkFault> {
        if self.held >= WINDOW {
            return self.put_after_spill(byte);
        }
        self.window[self.held] = byte;
        self.held += 1;
        Ok(())
    }
}

fn put_unsigned<K: Sink>(sink: &mut K, value: u64) -> Result<(), SinkFault> {
    let mut rest = value;
    while rest >= 128 {
        sink.put((rest % 128) as u8 + 128)?;
        rest /= 128;
    }
    sink.put(rest as u8)
}

#[inline(never)]
fn put_numbers<K: Sink>(numbers: &[u64], times: u64, sink: &mut K) -> Result<(), SinkFault> {
    for _ in 0..times {
        for number in numbers {
            put_unsigned(sink, *number)?;
        }
    }
    Ok(())
}

/// With the writer of the standard library, a number at a time.
#[inline(never)]
fn put_buffered<W: Write>(numbers: &[u64], times: u64, writer: &mut W) -> io::Result<()> {
    let mut writer = io::BufWriter::new(writer);
    for _ in 0..times {
        for number in numbers {
            let mut bytes = [0u8; 10];
            let mut count = 0;
            let mut rest = *number;
            while rest >= 128 {
                bytes[count] = (rest % 128) as u8 + 128;
                count += 1;
                rest /= 128;
            }
            bytes[count] = rest as u8;
            writer.write_all(&bytes[..=count])?;
        }
    }
    writer.flush()
}

#[derive(Clone, Copy, Debug)]
enum SourceFault {
    Device,
    TooLong,
}

#[derive(Debug)]
#[allow(dead_code)]
enum Why {
    Truncated,
    IntegerRange,
    InputTooLong,
    Read,
    Other(u64),
}

trait Source {
    fn next(&mut self) -> Result<Option<u8>, SourceFault>;
}

struct SliceSource<'a> {
    bytes: &'a [u8],
    at: usize,
    limit: u64,
}

impl<'a> Source for SliceSource<'a> {
    fn next(&mut self) -> Result<Option<u8>, SourceFault> {
        if self.at >= self.bytes.len() {
            return Ok(None);
        }
        if self.at as u64 >= self.limit {
            return Err(SourceFault::TooLong);
        }
        let byte = self.bytes[self.at];
        self.at += 1;
        Ok(Some(byte))
    }
}

#[derive(Clone, Copy)]
enum Ending {
    Open,
    Ended,
    Failed,
    TooLong,
}

struct ReaderSource<R> {
    reader: R,
    window: Vec<u8>,
    start: usize,
    end: usize,
    filled: usize,
    before: u64,
    limit: u64,
    ending: Ending,
}

impl<R: Read> ReaderSource<R> {
    #[cold]
    #[inline(never)]
    fn next_window(&mut self) -> Result<Option<u8>, SourceFault> {
        match self.ending {
            Ending::Open => {}
            Ending::Ended => return Ok(None),
            Ending::Failed => return Err(SourceFault::Device),
            Ending::TooLong => return Err(SourceFault::TooLong),
        }
        if self.start == self.filled {
            self.before += self.start as u64;
            self.start = 0;
            match self.reader.read(&mut self.window) {
                Ok(0) => {
                    self.end = 0;
                    self.filled = 0;
                    self.ending = Ending::Ended;
                    return Ok(None);
                }
                Ok(n) => {
                    self.filled = n;
                    self.end = (self.limit - self.before).min(n as u64) as usize;
                }
                Err(_) => {
                    self.end = 0;
                    self.filled = 0;
                    self.ending = Ending::Failed;
                    return Err(SourceFault::Device);
                }
            }
        }
        if self.start < self.end {
            let byte = self.window[self.start];
            self.start += 1;
            return Ok(Some(byte));
        }
        self.ending = Ending::TooLong;
        Err(SourceFault::TooLong)
    }
}

impl<R: Read> Source for ReaderSource<R> {
    #[inline]
    fn next(&mut self) -> Result<Option<u8>, SourceFault> {
        if self.start < self.end {
            let byte = self.window[self.start];
            self.start += 1;
            return Ok(Some(byte));
        }
        self.next_window()
    }
}

fn next_byte<S: Source>(source: &mut S) -> Result<u8, Why> {
    match source.next() {
        Ok(Some(byte)) => Ok(byte),
        Ok(None) => Err(Why::Truncated),
        Err(SourceFault::Device) => Err(Why::Read),
        Err(SourceFault::TooLong) => Err(Why::InputTooLong),
    }
}

fn read_unsigned<S: Source>(source: &mut S) -> Result<u64, Why> {
    let mut value: u64 = 0;
    let mut weight: u64 = 1;
    for _ in 0..9u8 {
        let byte = next_byte(source)?;
        value += u64::from(byte % 128) * weight;
        if byte < 128 {
            return Ok(value);
        }
        weight *= 128;
    }
    let last = next_byte(source)?;
    if last > 1 {
        return Err(Why::IntegerRange);
    }
    Ok(value + u64::from(last) * weight)
}

#[inline(never)]
fn sum<S: Source>(source: &mut S, count: u64) -> Result<u64, Why> {
    let mut total = 0u64;
    for _ in 0..count {
        total = total.wrapping_add(read_unsigned(source)?);
    }
    Ok(total)
}

fn put<W: Write>(numbers: &[u64], times: u64, writer: &mut W) -> Result<(), SinkFault> {
    let mut outlet = Outlet::new(writer);
    put_numbers(numbers, times, &mut outlet)?;
    outlet.close()
}

fn main() {
    let word = std::env::args().nth(1);
    let times = word.and_then(|word| word.parse().ok()).unwrap_or(1);
    let mut made = Numbers {
        state: 0x9e37_79b9_7f4a_7c15,
    };
    let numbers: Vec<u64> = (0..MADE).map(|_| made.next()).collect();
    let mut bytes = Vec::new();
    put(&numbers, times, &mut bytes).unwrap();
    let count = MADE * times;

    let start = Instant::now();
    let mut tally = Tally {
        count: 0,
        digest: 0,
    };
    put(&numbers, times, &mut tally).unwrap();
    eprintln!("put {}", start.elapsed().as_micros());
    println!("put {} {}", tally.count, tally.digest);

    let start = Instant::now();
    let mut source = SliceSource {
        bytes: &bytes,
        at: 0,
        limit: u64::MAX,
    };
    let total = sum(&mut source, count).unwrap();
    eprintln!("slice {}", start.elapsed().as_micros());
    println!("slice {count} {total}");

    let start = Instant::now();
    let mut source = ReaderSource {
        reader: bytes.as_slice(),
        window: vec![0; 65536],
        start: 0,
        end: 0,
        filled: 0,
        before: 0,
        limit: u64::MAX,
        ending: Ending::Open,
    };
    let total = sum(&mut source, count).unwrap();
    eprintln!("reader {}", start.elapsed().as_micros());
    println!("reader {count} {total}");

    let start = Instant::now();
    let mut tally = Tally {
        count: 0,
        digest: 0,
    };
    put_buffered(&numbers, times, &mut tally).unwrap();
    eprintln!("buffered {}", start.elapsed().as_micros());
}
