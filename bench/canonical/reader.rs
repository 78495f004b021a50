//! From records to cells, with names by number.

use crate::element::{Element, Numbered};
use crate::input::{Input, Real, Result, Why};
use crate::keys;
use crate::modal::{Drawn, Kind, Modal, Reference, field};
use crate::runs::{Run, Store};
use crate::shapes::{PointList, Repetition};
use std::collections::BTreeMap;
use std::io::Read;

const MOST_ELEMENTS: u64 = 1 << 24;
const MOST_WEIGHT: u64 = 1 << 28;

struct Cell {
    name: Reference,
    elements: Store,
    numbered: BTreeMap<Numbered, u64>,
}

/// The numbers of one class of names.
#[derive(Default)]
struct Names {
    explicit: Option<bool>,
    strings: BTreeMap<u64, Vec<u8>>,
}

impl Names {
    fn insert(&mut self, string: Vec<u8>, given: Option<u64>) -> Result<()> {
        if *self.explicit.get_or_insert(given.is_some()) != given.is_some() {
            return Err(Why::MixedNumbering);
        }
        let number = given.unwrap_or(self.strings.len() as u64);
        if self.strings.get(&number).is_some_and(|had| *had != string) {
            return Err(Why::NumberTwice);
        }
        self.strings.insert(number, string);
        Ok(())
    }

    fn get(&self, number: u64) -> Result<Vec<u8>> {
        self.strings.get(&number).cloned().ok_or(Why::UnknownReference)
    }
}

#[derive(Default)]
pub struct Reader {
    modal: Modal,
    names: Names,
    strings: Names,
    done: Vec<Cell>,
    open: Option<Cell>,
    count: u64,
    weight: u64,
    key: Vec<u8>,
}

/// Adds an element, by its key, which has a buffer.
fn add(elements: &mut Store, key: &mut Vec<u8>, element: &Element, times: u64) {
    key.clear();
    keys::put(key, element);
    elements.add(key, times);
}

fn is_one(real: &Real) -> bool {
    !real.negative && real.num == real.den && real.den > 0
}

/// The quarter turns of an angle in degrees.
fn quarters(angle: &Real) -> Result<u8> {
    let quarter = 90 * u128::from(angle.den);
    let num = u128::from(angle.num);
    if quarter == 0 || num % quarter != 0 {
        return Err(Why::Angle);
    }
    let turns = (num / quarter % 4) as u8;
    Ok(if angle.negative { (4 - turns) % 4 } else { turns })
}

fn read_cell_reference<R: Read>(input: &mut Input<R>, info: u8) -> Result<Reference> {
    Ok(if info & 0x40 != 0 { Reference::Number(input.unsigned()?) } else { Reference::String(input.name()?) })
}

impl Reader {
    /// Takes the record with that id, whose rest comes next.
    pub fn take<R: Read>(&mut self, id: u64, input: &mut Input<R>) -> Result<()> {
        match id {
            0 => {}
            3 | 4 => {
                let name = input.name()?;
                let number = if id == 4 { Some(input.unsigned()?) } else { None };
                self.names.insert(name, number)?;
                self.done.extend(self.open.take());
            }
            5 | 6 => {
                let string = input.label()?;
                let number = if id == 6 { Some(input.unsigned()?) } else { None };
                self.strings.insert(string, number)?;
                self.done.extend(self.open.take());
            }
            13 => self.begin(Reference::Number(input.unsigned()?))?,
            14 => self.begin(Reference::String(input.name()?))?,
            15 => self.modal.relative = false,
            16 => self.modal.relative = true,
            17 | 18 => self.take_placement(id, input)?,
            19 => self.take_text(input)?,
            20..=22 | 27 => self.take_geometry(id, input)?,
            1 => return Err(Why::OutOfPlace),
            35.. => return Err(Why::UnknownRecord),
            _ => return Err(Why::RecordLeftOut),
        }
        Ok(())
    }

    fn begin(&mut self, name: Reference) -> Result<()> {
        if let Reference::String(name) = &name {
            self.add_weight(1 + name.len() as u64)?;
        }
        self.modal = Modal::default();
        self.done.extend(self.open.replace(Cell { name, elements: Store::default(), numbered: BTreeMap::new() }));
        Ok(())
    }

    fn take_placement<R: Read>(&mut self, id: u64, input: &mut Input<R>) -> Result<()> {
        let info = input.byte()?;
        field!(info, 0x80, self.modal.cell, read_cell_reference(input, info)?);
        let (mut magnification, mut angle) = (None, None);
        if id == 18 {
            field!(info, 0x04, magnification, input.real()?);
            field!(info, 0x02, angle, input.real()?);
        }
        let mut kind = Kind::Placement { turns: info >> 1 & 3, flip: info & 1 != 0 };
        self.modal.read_spot(input, &kind, info & 0x20 != 0, info & 0x10 != 0, info & 0x08 != 0)?;
        if id == 18 {
            self.check_defined(&kind, info & 0x08 != 0)?;
            if !magnification.is_none_or(|real| is_one(&real)) {
                return Err(Why::Magnification);
            }
            kind = Kind::Placement { turns: angle.map_or(Ok(0), |real| quarters(&real))?, flip: info & 1 != 0 };
        }
        self.draw(kind, info & 0x08 != 0)
    }

    fn take_text<R: Read>(&mut self, input: &mut Input<R>) -> Result<()> {
        let info = input.byte()?;
        if info & 0x80 != 0 {
            return Err(Why::InfoByte);
        }
        if info & 0x40 != 0 {
            let by_number = info & 0x20 != 0;
            let string = if by_number { Reference::Number(input.unsigned()?) } else { Reference::String(input.label()?) };
            self.modal.string = Some(string);
        }
        field!(info, 0x01, self.modal.textlayer, input.unsigned()?);
        field!(info, 0x02, self.modal.texttype, input.unsigned()?);
        self.modal.read_spot(input, &Kind::Text, info & 0x10 != 0, info & 0x08 != 0, info & 0x04 != 0)?;
        self.draw(Kind::Text, info & 0x04 != 0)
    }

    fn take_geometry<R: Read>(&mut self, id: u64, input: &mut Input<R>) -> Result<()> {
        let info = input.byte()?;
        let modal = &mut self.modal;
        if (id == 20 && info & 0xA0 == 0xA0) || (matches!(id, 21 | 27) && info > 0x3F) {
            return Err(Why::InfoByte);
        }
        modal.read_layers(input, info)?;
        let kind = match id {
            20 => {
                field!(info, 0x40, modal.width, input.unsigned()?);
                field!(info, 0x20, modal.height, input.unsigned()?);
                if info & 0x80 != 0 {
                    modal.height = modal.width.or(modal.height);
                }
                Kind::Rectangle
            }
            21 => {
                field!(info, 0x20, modal.polygon, PointList::read(input, true)?);
                Kind::Polygon
            }
            22 => {
                field!(info, 0x40, modal.half_width, input.unsigned()?);
                if info & 0x80 != 0 {
                    modal.read_extensions(input)?;
                }
                field!(info, 0x20, modal.path, PointList::read(input, false)?);
                Kind::Path
            }
            _ => {
                field!(info, 0x20, modal.radius, input.unsigned()?);
                Kind::Circle
            }
        };
        modal.read_spot(input, &kind, info & 0x10 != 0, info & 0x08 != 0, info & 0x04 != 0)?;
        self.draw(kind, info & 0x04 != 0)
    }

    fn add_weight(&mut self, weight: u64) -> Result<()> {
        if weight > MOST_WEIGHT - self.weight {
            return Err(Why::TooHeavy);
        }
        self.weight += weight;
        Ok(())
    }

    /// The weight of one copy, where all that it needs is defined.
    fn check_defined(&self, kind: &Kind, repeated: bool) -> Result<u64> {
        if self.open.is_none() {
            return Err(Why::OutOfPlace);
        }
        if repeated && self.modal.repetition.is_none() {
            return Err(Why::ModalUndefined);
        }
        self.modal.weight(kind).ok_or(Why::ModalUndefined)
    }

    /// Draws each copy of a record in the open cell.
    fn draw(&mut self, kind: Kind, repeated: bool) -> Result<()> {
        let one = self.check_defined(&kind, repeated)?;
        let repetition = if repeated { self.modal.repetition.as_ref() } else { None };
        let number = repetition.map_or(Some(1), Repetition::count).ok_or(Why::TooManyElements)?;
        if number > MOST_ELEMENTS - self.count {
            return Err(Why::TooManyElements);
        }
        let cell = self.open.as_mut().ok_or(Why::OutOfPlace)?;
        let weight = number.saturating_mul(one);
        if weight > MOST_WEIGHT - self.weight {
            return Err(Why::TooHeavy);
        }
        for i in 0..number {
            let by = repetition.map_or((0, 0), |repetition| repetition.offset(i));
            match self.modal.copy(&kind, by).ok_or(Why::CoordinateRange)? {
                Drawn::Element(element) => add(&mut cell.elements, &mut self.key, &element, 1),
                Drawn::Numbered(numbered) => *cell.numbered.entry(numbered).or_insert(0) += 1,
            }
        }
        self.count += number;
        self.weight += weight;
        Ok(())
    }

    /// The cells, with the strings of numbers.
    pub fn finish(mut self) -> Result<BTreeMap<Vec<u8>, Run>> {
        self.done.extend(self.open.take());
        if !self.done.iter().all(|cell| self.knows(cell)) {
            return Err(Why::UnknownReference);
        }
        let (mut cells, mut named) = (BTreeMap::new(), 0);
        for cell in std::mem::take(&mut self.done) {
            let name = match cell.name {
                Reference::String(name) => name,
                Reference::Number(number) => {
                    let name = self.names.get(number)?;
                    named += 1 + name.len() as u64;
                    name
                }
            };
            if cells.insert(name, (cell.elements, cell.numbered)).is_some() {
                return Err(Why::DuplicateCell);
            }
        }
        self.add_weight(named)?;
        cells.into_iter().map(|(name, (elements, numbered))| Ok((name, self.resolved(elements, numbered)?))).collect()
    }

    fn knows(&self, cell: &Cell) -> bool {
        let has_name = match cell.name {
            Reference::Number(number) => self.names.strings.contains_key(&number),
            Reference::String(_) => true,
        };
        has_name
            && cell.numbered.keys().all(|numbered| match numbered {
                Numbered::Placement { number, .. } => self.names.strings.contains_key(number),
                Numbered::Text { number, .. } => self.strings.strings.contains_key(number),
            })
    }

    /// The elements of a cell, with those by number.
    fn resolved(&mut self, mut elements: Store, numbered: BTreeMap<Numbered, u64>) -> Result<Run> {
        for (one, times) in numbered {
            let (length, element) = match one {
                Numbered::Placement { number, x, y, turns, flip } => {
                    let cell = self.names.get(number)?;
                    (cell.len(), Element::Placement { cell, x, y, turns, flip })
                }
                Numbered::Text { number, textlayer, texttype, x, y } => {
                    let string = self.strings.get(number)?;
                    (string.len(), Element::Text { string, textlayer, texttype, x, y })
                }
            };
            self.add_weight(times * length as u64)?;
            add(&mut elements, &mut self.key, &element, times);
        }
        Ok(elements.close())
    }
}
