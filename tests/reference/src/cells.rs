//! The cells of one path, in order of location and then of property.

use crate::limits;
use crate::value::{ErrorNumber, Value};

#[derive(Clone, Copy)]
pub struct Cell {
    /// Location and property in one number, so that order is one comparison.
    key: u32,
    pub value: Value,
}

/// Properties are numbered below 32.
const KEY_SHIFT: u32 = 5;

fn key(location: u32, property: u8) -> u32 {
    location << KEY_SHIFT | u32::from(property)
}

impl Cell {
    pub fn location(&self) -> u32 {
        self.key >> KEY_SHIFT
    }

    pub fn property(&self) -> u32 {
        self.key & ((1 << KEY_SHIFT) - 1)
    }
}

#[derive(Clone, Copy)]
pub struct Cells {
    cells: [Cell; limits::CELLS],
    count: usize,
}

impl Cells {
    pub const EMPTY: Cells =
        Cells { cells: [Cell { key: 0, value: Value::NOTHING }; limits::CELLS], count: 0 };

    pub fn as_slice(&self) -> &[Cell] {
        &self.cells[..self.count]
    }

    fn find(&self, key: u32) -> Result<usize, usize> {
        self.as_slice().binary_search_by_key(&key, |cell| cell.key)
    }

    pub fn get(&self, location: u32, property: u8) -> Result<Value, ErrorNumber> {
        match self.find(key(location, property)) {
            Ok(at) => Ok(self.cells[at].value),
            Err(_) => Err(ErrorNumber::NoCell),
        }
    }

    pub fn set(&mut self, location: u32, property: u8, value: Value) -> Result<(), ErrorNumber> {
        let key = key(location, property);
        match self.find(key) {
            Ok(at) => self.cells[at].value = value,
            Err(_) if self.count == limits::CELLS => return Err(ErrorNumber::Cells),
            Err(at) => {
                self.cells.copy_within(at..self.count, at + 1);
                self.cells[at] = Cell { key, value };
                self.count += 1;
            }
        }
        Ok(())
    }

    /// Removes all cells of a location; they stand side by side.
    pub fn dispose(&mut self, location: u32) {
        let start = self.as_slice().partition_point(|c| c.location() < location);
        let end = self.as_slice().partition_point(|c| c.location() <= location);
        self.cells.copy_within(end..self.count, start);
        self.count -= end - start;
    }
}
