//! Bytes that are put together field by field, with the place of each field, so that damage can aim at it.

#[derive(Clone, Copy, Debug, PartialEq, Eq)]
pub enum Kind {
    Version,
    /// A byte or width that has one good value, or two.
    Fixed,
    /// That of the metadata list.
    ListVersion,
    Count,
    Length,
    MetadataPosition,
    TimerPosition,
    Id,
    /// A number that may have any value.
    Free,
    Run,
    Inventory,
}

#[derive(Clone, Copy, Debug)]
pub struct Field {
    pub kind: Kind,
    pub at: usize,
    pub length: usize,
}

#[derive(Clone, Default)]
pub struct Builder {
    pub bytes: Vec<u8>,
    pub fields: Vec<Field>,
}

impl Builder {
    pub fn run(&mut self, kind: Kind, bytes: &[u8]) {
        self.fields.push(Field { kind, at: self.bytes.len(), length: bytes.len() });
        self.bytes.extend(bytes);
    }

    pub fn u8(&mut self, kind: Kind, value: u8) {
        self.run(kind, &[value]);
    }

    pub fn u16(&mut self, kind: Kind, value: u16) {
        self.run(kind, &value.to_be_bytes());
    }

    pub fn u32(&mut self, kind: Kind, value: u32) {
        self.run(kind, &value.to_be_bytes());
    }

    pub fn u64(&mut self, kind: Kind, value: u64) {
        self.run(kind, &value.to_be_bytes());
    }

    /// A u16 length and the bytes.
    pub fn counted(&mut self, bytes: &[u8]) {
        self.u16(Kind::Length, bytes.len() as u16);
        self.run(Kind::Run, bytes);
    }

    /// The bytes of a field.
    pub fn run_of(&self, field: Field) -> &[u8] {
        &self.bytes[field.at..field.at + field.length]
    }

    /// Puts all of another behind.
    pub fn append(&mut self, other: &Builder) {
        let base = self.bytes.len();
        self.fields.extend(other.fields.iter().map(|field| Field { at: base + field.at, ..*field }));
        self.bytes.extend(&other.bytes);
    }
}
