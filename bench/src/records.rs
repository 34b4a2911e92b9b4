// The records of case files as bytes, for what writes case files and what looks into them.

pub const FORM: u16 = 1;
pub const ASSUME: u16 = 2;
pub const SEAL: u16 = 3;
pub const LINE: u16 = 4;
pub const TABLE: u16 = 5;
pub const PULSES: u16 = 6;

/// In the place of a premise that is not given.
pub const EMPTY_PLACE: usize = 65_535;

/// How many bytes a head has.
pub const HEAD: usize = 4;

/// Every rule that can be admitted, and the assumption's number before them.
pub const RULES: [usize; 12] = [0, 1, 2, 3, 4, 5, 6, 7, 16, 17, 18, 19];

/// A record: its head, then its payload.
pub fn record(kind: u16, payload: &[u8]) -> Vec<u8> {
    [&field(payload.len())[..], &kind.to_le_bytes(), payload].concat()
}

/// The payload of a form record.
pub fn form(kind: u8, left: usize, right: usize) -> Vec<u8> {
    [&[kind][..], &field(left), &field(right)].concat()
}

/// A number as a field, the low byte first.
pub fn field(number: usize) -> [u8; 2] {
    (number as u16).to_le_bytes()
}

/// The field at an offset.
pub fn field_at(bytes: &[u8], offset: usize) -> usize {
    u16::from_le_bytes([bytes[offset], bytes[offset + 1]]) as usize
}

pub fn kind_of(record: &[u8]) -> u16 {
    field_at(record, 2) as u16
}
