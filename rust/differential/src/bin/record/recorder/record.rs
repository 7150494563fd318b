//! A record, part by part.

use differential::table::Position;

/// The bytes of a record after its length.
pub struct Record(pub Vec<u8>);

impl Record {
    pub fn new(operation: u8) -> Self {
        Self(vec![operation, 0])
    }

    pub fn slice(self, bytes: &[u8]) -> Self {
        let length = u16::try_from(bytes.len()).expect("a slice of the layout's length");
        self.bytes(&length.to_le_bytes()).bytes(bytes)
    }

    pub fn bytes(mut self, bytes: &[u8]) -> Self {
        self.0.extend(bytes);
        self
    }

    pub fn position(self, position: Position) -> Self {
        position.iter().fold(self, |record, coordinate| record.bytes(&coordinate.to_le_bytes()))
    }

    pub fn number(self, number: u32) -> Self {
        self.bytes(&number.to_le_bytes())
    }
}
