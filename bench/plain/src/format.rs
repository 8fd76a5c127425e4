//! The parts of a section file: header, references, heads of nodes.

pub const FILE_TYPE: [u8; 16] = [
    0xE4, 0x52, 0x5C, 0x7B, 0x8C, 0xD8, 0xA7, 0x4D, 0xAE, 0xB1, 0x53, 0x78, 0xD0, 0x29, 0x96, 0xD3,
];
pub const FILE_FORMAT: [u8; 16] = [
    0x3F, 0xDD, 0x9A, 0x10, 0x1B, 0x91, 0xF5, 0x49, 0xA5, 0xD0, 0x17, 0x91, 0xED, 0xC8, 0xAE, 0xD8,
];
pub const FIRST_MARK: u64 = 0xA456_7AB1_F5F7_F4C4;
pub const LAST_MARK: u64 = 0x8BC2_15C3_8233_BA4B;
pub const HEADER_BYTES: u64 = 1024;
pub const LONGEST: u64 = 1 << 40;
pub const MOST_FRAGMENTS: usize = 2048;
pub const MOST_LISTS: usize = 1024;
pub const LEAST_ID: u32 = 16;
pub const SENTINEL: u32 = 1;
pub const TERMINATOR: u32 = 0xFF;
pub const DATA: u32 = 1;
pub const LIST: u32 = 2;
pub const NIL: Span = Span {
    start: u64::MAX,
    size: 0,
};

/// The `N` bytes at a place that is known to be in the file.
pub fn bytes_at<const N: usize>(bytes: &[u8], place: u64) -> [u8; N] {
    let place = place as usize;
    bytes[place..place + N].try_into().unwrap()
}

pub fn u32_at(bytes: &[u8], place: u64) -> u32 {
    u32::from_le_bytes(bytes_at(bytes, place))
}

pub fn u64_at(bytes: &[u8], place: u64) -> u64 {
    u64::from_le_bytes(bytes_at(bytes, place))
}

/// A range of the file.
#[derive(Clone, Copy, PartialEq, Eq, Debug)]
pub struct Span {
    pub start: u64,
    pub size: u64,
}

impl Span {
    /// A start of eight bytes and a size of four.
    pub fn read(bytes: &[u8], place: u64) -> Span {
        Span {
            start: u64_at(bytes, place),
            size: u64::from(u32_at(bytes, place + 8)),
        }
    }

    pub fn put(self, into: &mut Vec<u8>) {
        into.extend_from_slice(&self.start.to_le_bytes());
        into.extend_from_slice(&(self.size as u32).to_le_bytes());
    }

    pub fn is_absent(self) -> bool {
        self.size == 0 && (self.start == 0 || self.start == u64::MAX)
    }

    pub fn ends_past(self, end: u64) -> bool {
        self.start.checked_add(self.size).is_none_or(|e| e > end)
    }

    pub fn is_in_header(self) -> bool {
        self.size > 0 && self.start < HEADER_BYTES
    }

    /// Where the nodes of a list's fragment begin.
    pub fn nodes_from(self) -> u64 {
        self.start + 16
    }

    /// Where they must end.
    pub fn nodes_to(self) -> u64 {
        self.start + self.size - 20
    }

    /// How many entries a fragment of the log holds.
    pub fn entries(self) -> u64 {
        (self.size - 12) / 8
    }

    /// Where its next reference stands.
    pub fn log_next(self) -> u64 {
        self.start + 8 * self.entries()
    }
}

#[derive(Clone, Copy, Debug)]
pub struct Header {
    pub count: u32,
    pub end: u64,
    pub generation: u64,
    pub version: [u8; 16],
    pub hashed: Span,
    pub log: Span,
    pub root: Span,
}

impl Header {
    pub fn read(bytes: &[u8]) -> Header {
        Header {
            count: u32_at(bytes, 0x60),
            end: u64_at(bytes, 0xC4),
            generation: u64_at(bytes, 0xE4),
            version: bytes_at(bytes, 0xD4),
            hashed: Span::read(bytes, 0x94),
            log: Span::read(bytes, 0xA0),
            root: Span::read(bytes, 0xAC),
        }
    }
}

const START_FORMS: [(usize, u64); 4] = [(8, 1), (4, 1), (2, 8), (4, 8)];
const SIZE_FORMS: [(usize, u64); 4] = [(4, 1), (8, 1), (1, 8), (2, 8)];

/// The first four bytes of a node.
#[derive(Clone, Copy, Debug)]
pub struct Head(pub u32);

impl Head {
    pub fn read(bytes: &[u8], place: u64) -> Head {
        Head(u32_at(bytes, place))
    }

    pub fn id(self) -> u32 {
        self.0 & 0x3FF
    }

    pub fn size(self) -> u64 {
        u64::from((self.0 >> 10) & 0x1FFF)
    }

    pub fn base(self) -> u32 {
        (self.0 >> 27) & 0xF
    }

    pub fn is_set(self) -> bool {
        self.0 >> 31 == 1
    }

    fn start_form(self) -> (usize, u64) {
        START_FORMS[(self.0 >> 23) as usize & 3]
    }

    fn size_form(self) -> (usize, u64) {
        SIZE_FORMS[(self.0 >> 25) as usize & 3]
    }

    pub fn reference_width(self) -> u64 {
        match self.base() {
            DATA | LIST => (self.start_form().0 + self.size_form().0) as u64,
            _ => 0,
        }
    }

    /// Whether no node at `place` that ends by `stop` has this head.
    pub fn is_bad(self, place: u64, stop: u64) -> bool {
        self.id() == 0
            || !self.is_set()
            || self.base() > 2
            || self.size() < 4 + self.reference_width()
            || place + self.size() > stop
    }

    /// The reference of a node that has one.
    pub fn reference(self, bytes: &[u8], place: u64) -> Span {
        let (start_width, start_unit) = self.start_form();
        let (size_width, size_unit) = self.size_form();
        let start = place as usize + 4;
        let size = start + start_width;
        Span {
            start: number(&bytes[start..size]) * start_unit,
            size: number(&bytes[size..size + size_width]) * size_unit,
        }
    }
}

fn number(bytes: &[u8]) -> u64 {
    let mut eight = [0; 8];
    eight[..bytes.len()].copy_from_slice(bytes);
    u64::from_le_bytes(eight)
}
