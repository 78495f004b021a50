//! The baseline of `bench/canon`: plain Rust that does what `oascanon canon` does, by profile two, from standard input to
//! standard output, by the same design: elements are held as keys in ascending runs.
//! A refusal is named by its number alone, without a place.

mod element;
mod input;
mod keys;
mod modal;
mod output;
mod reader;
mod rings;
mod runs;
mod shapes;

use input::{Input, Result, Why};
use output::Output;
use std::collections::BTreeMap;
use std::io;
use std::process::ExitCode;

const MAGIC: &[u8] = b"%SEMI-OASIS\r\n";
const END_LENGTH: u64 = 256;

pub struct Layout {
    pub unit: (u64, u64),
    /// By its name what each cell has: the keys of its elements, ascending, and how often each is there.
    pub cells: BTreeMap<Vec<u8>, runs::Run>,
}

fn gcd(a: u64, b: u64) -> u64 {
    if b == 0 { a } else { gcd(b, a % b) }
}

/// The magic and START: the unit in lowest terms, and whether the table offsets are in END.
fn read_head<R: io::Read>(input: &mut Input<R>) -> Result<((u64, u64), bool)> {
    for &wanted in MAGIC {
        if input.byte()? != wanted {
            return Err(Why::Magic);
        }
    }
    if input.unsigned()? != 1 {
        return Err(Why::OutOfPlace);
    }
    if input.label()? != b"1.0" {
        return Err(Why::Version);
    }
    let unit = input.real()?;
    if unit.negative || unit.num == 0 || unit.den == 0 {
        return Err(Why::Unit);
    }
    let flag = input.unsigned()?;
    if flag > 1 {
        return Err(Why::OffsetFlag);
    }
    if flag == 0 {
        input.skip_offsets()?;
    }
    let divisor = gcd(unit.num, unit.den);
    Ok(((unit.num / divisor, unit.den / divisor), flag == 1))
}

/// What follows END's id, which is at `start`.
fn read_end<R: io::Read>(input: &mut Input<R>, start: u64, has_offsets: bool) -> Result<()> {
    if has_offsets {
        input.skip_offsets()?;
    }
    for _ in 0..input.unsigned()? {
        input.byte()?;
    }
    if input.unsigned()? != 0 {
        return Err(Why::ValidationScheme);
    }
    if input.at() - start != END_LENGTH {
        return Err(Why::EndLength);
    }
    Ok(())
}

fn read_layout<R: io::Read>(input: &mut Input<R>) -> Result<Layout> {
    let (unit, offsets_in_end) = read_head(input)?;
    let mut reader = reader::Reader::default();
    loop {
        let start = input.at();
        let id = input.unsigned()?;
        if id == 2 {
            read_end(input, start, offsets_in_end)?;
            break;
        }
        reader.take(id, input)?;
    }
    if input.next()?.is_some() {
        return Err(Why::TrailingBytes);
    }
    Ok(Layout { unit, cells: reader.finish()? })
}

fn canon() -> Result<()> {
    let layout = read_layout(&mut Input::new(io::stdin().lock()))?;
    Output::new(io::stdout().lock()).layout(layout).map_err(|_| Why::Write)
}

fn main() -> ExitCode {
    match canon() {
        Ok(()) => ExitCode::SUCCESS,
        Err(why) => {
            eprintln!("standard input: refused {}", why as u8);
            ExitCode::FAILURE
        }
    }
}
