//! Bytes through a window, and the basic types.

use std::io::Read;

/// Why a file is refused, by the numbers of docs/REFUSALS.md.
#[derive(Clone, Copy, Debug, PartialEq, Eq)]
pub enum Why {
    Magic = 1,
    Truncated,
    IntegerRange,
    StringByte,
    EmptyName,
    FloatReal,
    RealType,
    Unit,
    Version,
    OffsetFlag,
    RecordLeftOut,
    UnknownRecord,
    OutOfPlace,
    InfoByte,
    ListKind,
    PointCount,
    RepetitionKind,
    ModalUndefined,
    Magnification,
    Angle,
    MixedNumbering,
    NumberTwice,
    CoordinateRange,
    TooManyElements,
    TooHeavy,
    UnknownReference,
    DuplicateCell,
    EndLength,
    ValidationScheme,
    TrailingBytes,
    InputTooLong,
    Read,
    Write,
}

pub type Result<T> = std::result::Result<T, Why>;

const WINDOW: usize = 1 << 16;
const LONGEST: u64 = 1 << 36;

pub struct Real {
    pub negative: bool,
    pub num: u64,
    pub den: u64,
}

pub struct Input<R> {
    reader: R,
    window: Box<[u8]>,
    start: usize,
    end: usize,
    /// How many bytes came before those in the window.
    before: u64,
}

impl<R: Read> Input<R> {
    pub fn new(reader: R) -> Self {
        Input { reader, window: vec![0; WINDOW].into_boxed_slice(), start: 0, end: 0, before: 0 }
    }

    /// How many bytes were given.
    pub fn at(&self) -> u64 {
        self.before + self.start as u64
    }

    #[cold]
    fn fill(&mut self) -> Result<()> {
        self.before += self.start as u64;
        self.start = 0;
        self.end = self.reader.read(&mut self.window).map_err(|_| Why::Read)?;
        if self.before + self.end as u64 > LONGEST {
            return Err(Why::InputTooLong);
        }
        Ok(())
    }

    #[inline]
    pub fn next(&mut self) -> Result<Option<u8>> {
        if self.start == self.end {
            self.fill()?;
            if self.end == 0 {
                return Ok(None);
            }
        }
        let byte = self.window[self.start];
        self.start += 1;
        Ok(Some(byte))
    }

    #[inline]
    pub fn byte(&mut self) -> Result<u8> {
        self.next()?.ok_or(Why::Truncated)
    }

    #[inline]
    pub fn unsigned(&mut self) -> Result<u64> {
        let mut value = 0;
        for shift in (0..63).step_by(7) {
            let byte = self.byte()?;
            value |= u64::from(byte & 0x7F) << shift;
            if byte < 0x80 {
                return Ok(value);
            }
        }
        let last = self.byte()?;
        if last > 1 {
            return Err(Why::IntegerRange);
        }
        Ok(value | u64::from(last) << 63)
    }

    #[inline]
    pub fn signed(&mut self) -> Result<i64> {
        let coded = self.unsigned()?;
        let magnitude = (coded >> 1) as i64;
        Ok(if coded & 1 == 0 { magnitude } else { -magnitude })
    }

    pub fn real(&mut self) -> Result<Real> {
        let kind = self.unsigned()?;
        if kind > 7 {
            return Err(Why::RealType);
        }
        if kind > 5 {
            return Err(Why::FloatReal);
        }
        let num = if kind == 2 || kind == 3 { 1 } else { self.unsigned()? };
        let den = if kind > 1 { self.unsigned()? } else { 1 };
        Ok(Real { negative: kind % 2 == 1, num, den })
    }

    fn string(&mut self, lowest: u8, length: u64) -> Result<Vec<u8>> {
        let mut string = Vec::new();
        for _ in 0..length {
            let byte = self.byte()?;
            if !(lowest..=0x7E).contains(&byte) {
                return Err(Why::StringByte);
            }
            string.push(byte);
        }
        Ok(string)
    }

    /// An n-string.
    pub fn name(&mut self) -> Result<Vec<u8>> {
        match self.unsigned()? {
            0 => Err(Why::EmptyName),
            length => self.string(0x21, length),
        }
    }

    /// An a-string.
    pub fn label(&mut self) -> Result<Vec<u8>> {
        let length = self.unsigned()?;
        self.string(0x20, length)
    }

    /// A step along an axis or a diagonal, by a direction of `bits` bits.
    pub fn delta(&mut self, bits: u32) -> Result<(i64, i64)> {
        Ok(towards(self.unsigned()?, bits))
    }

    pub fn gdelta(&mut self) -> Result<(i64, i64)> {
        let coded = self.unsigned()?;
        if coded & 1 == 0 {
            return Ok(towards(coded >> 1, 3));
        }
        let x = (coded >> 2) as i64;
        Ok((if coded & 2 == 0 { x } else { -x }, self.signed()?))
    }

    pub fn skip_offsets(&mut self) -> Result<()> {
        for _ in 0..12 {
            self.unsigned()?;
        }
        Ok(())
    }
}

fn towards(coded: u64, bits: u32) -> (i64, i64) {
    let far = (coded >> bits) as i64;
    match coded & ((1 << bits) - 1) {
        0 => (far, 0),
        1 => (0, far),
        2 => (-far, 0),
        3 => (0, -far),
        4 => (far, far),
        5 => (-far, far),
        6 => (-far, -far),
        _ => (far, -far),
    }
}
