//! Sections made by many transactions on several lists, the same at each run.
//! Nodes of all formats are laid out here apart from `save`, which knows fragments of 1,024 bytes alone.

use crate::crc::crc32;
use crate::format::*;
use crate::numbers::Numbers;

/// What a section is made of: the size of each fragment, and where it stops growing.
pub struct Shape {
    pub name: &'static str,
    pub fragment: u64,
    pub lists: usize,
    pub fragments: usize,
    pub length: usize,
}

/// Room for the fragments that are added later is left in each.
pub const SHAPES: [Shape; 3] = [
    Shape {
        name: "64KiB",
        fragment: 1024,
        lists: 12,
        fragments: 1980,
        length: 64 << 10,
    },
    Shape {
        name: "4MiB",
        fragment: 1024,
        lists: 64,
        fragments: 1980,
        length: 4 << 20,
    },
    Shape {
        name: "most",
        fragment: 16 << 10,
        lists: 256,
        fragments: 1980,
        length: usize::MAX,
    },
];

/// A list that grows: its ID, its last fragment and that one's number, the place behind its last node, and its count.
struct Growing {
    id: u32,
    fragment: Span,
    number: u32,
    free: u64,
    count: u32,
}

struct Generator {
    shape: &'static Shape,
    numbers: Numbers,
    bytes: Vec<u8>,
    lists: Vec<Growing>,
    fragments: usize,
    transactions: u32,
    log: Span,
    used: u64,
}

/// The bytes of a section: its finished part, and behind it what an unfinished transaction left.
pub fn generate(shape: &'static Shape) -> Vec<u8> {
    let mut made = Generator {
        shape,
        numbers: Numbers::new(shape.length as u64),
        bytes: vec![0; HEADER_BYTES as usize],
        lists: Vec::new(),
        fragments: 0,
        transactions: 0,
        log: NIL,
        used: 0,
    };
    made.log = made.new_fragment();
    let (log, root) = (made.log, made.new_list());
    let mut touched = vec![0];
    made.put_plain(0);
    made.finish(&mut touched);
    while made.bytes.len() < shape.length && made.fragments < shape.fragments {
        made.transaction(&mut touched);
        made.finish(&mut touched);
    }
    let end = made.bytes.len() as u64;
    made.transaction(&mut touched);
    made.head(log, root, end);
    made.bytes
}

impl Generator {
    fn put(&mut self, place: u64, bytes: &[u8]) {
        self.bytes[place as usize..][..bytes.len()].copy_from_slice(bytes);
    }

    /// A new piece at the end, of zeros up to a place divisible by 8.
    fn new_piece(&mut self, size: u64) -> Span {
        let start = self.bytes.len() as u64;
        self.bytes
            .resize((start + size).next_multiple_of(8) as usize, 0);
        Span { start, size }
    }

    fn new_fragment(&mut self) -> Span {
        self.fragments += 1;
        self.new_piece(self.shape.fragment)
    }

    fn new_list_fragment(&mut self, id: u32, number: u32) -> Span {
        let span = self.new_fragment();
        self.put(span.start, &FIRST_MARK.to_le_bytes());
        self.put(span.start + 8, &id.to_le_bytes());
        self.put(span.start + 12, &number.to_le_bytes());
        self.put_span(span.nodes_to(), NIL);
        self.put(span.nodes_to() + 12, &LAST_MARK.to_le_bytes());
        span
    }

    fn put_span(&mut self, place: u64, span: Span) {
        let mut bytes = Vec::new();
        span.put(&mut bytes);
        self.put(place, &bytes);
    }

    /// A list without nodes behind the others; answers its first fragment.
    fn new_list(&mut self) -> Span {
        let id = LEAST_ID + self.lists.len() as u32;
        let fragment = self.new_list_fragment(id, 0);
        self.lists.push(Growing {
            id,
            fragment,
            number: 0,
            free: fragment.nodes_from(),
            count: 0,
        });
        fragment
    }

    /// A node behind the last of a list, in a new fragment where it does not fit.
    fn put_node(&mut self, at: usize, node: &[u8]) {
        let Growing {
            id,
            fragment,
            number,
            free,
            ..
        } = self.lists[at];
        let stop = fragment.nodes_to();
        if free + node.len() as u64 > stop {
            let next = self.new_list_fragment(id, number + 1);
            if free + 4 <= stop {
                self.put(free, &0x8000_10FFu32.to_le_bytes());
            }
            self.put_span(stop, next);
            let list = &mut self.lists[at];
            (list.fragment, list.number, list.free) = (next, number + 1, next.nodes_from());
        }
        let place = self.lists[at].free;
        self.put(place, node);
        self.lists[at].free += node.len() as u64;
        self.lists[at].count += 1;
    }

    fn payload(&mut self) -> Vec<u8> {
        let len = self.numbers.below(56);
        (0..len).map(|_| self.numbers.next() as u8).collect()
    }

    fn id(&mut self) -> u32 {
        0x100 + self.numbers.below(0x200) as u32
    }

    fn put_plain(&mut self, at: usize) {
        let payload = self.payload();
        let node = node(self.id(), 0, &[], (0, 0), &payload);
        self.put_node(at, &node);
    }

    /// A node that refers, in one of the formats that can name this range.
    fn put_referring(&mut self, at: usize, base: u32, span: Span) {
        let starts = [
            Some(span.start.to_le_bytes().to_vec()),
            u32::try_from(span.start)
                .ok()
                .map(|n| n.to_le_bytes().to_vec()),
            eighth::<u16>(span.start).map(|n| n.to_le_bytes().to_vec()),
            eighth::<u32>(span.start).map(|n| n.to_le_bytes().to_vec()),
        ];
        let sizes = [
            u32::try_from(span.size)
                .ok()
                .map(|n| n.to_le_bytes().to_vec()),
            Some(span.size.to_le_bytes().to_vec()),
            eighth::<u8>(span.size).map(|n| n.to_le_bytes().to_vec()),
            eighth::<u16>(span.size).map(|n| n.to_le_bytes().to_vec()),
        ];
        let (stp, start) = self.one_of(&starts);
        let (cb, size) = self.one_of(&sizes);
        let payload = self.payload();
        let node = node(
            self.id(),
            base,
            &[start, size].concat(),
            (stp, cb),
            &payload,
        );
        self.put_node(at, &node);
    }

    fn one_of(&mut self, forms: &[Option<Vec<u8>>; 4]) -> (u32, Vec<u8>) {
        loop {
            let form = self.numbers.below(4) as usize;
            if let Some(bytes) = &forms[form] {
                return (form as u32, bytes.clone());
            }
        }
    }

    fn put_data(&mut self, at: usize) {
        let size = 1 + self.numbers.below(480);
        let span = self.new_piece(size);
        for place in span.start..span.start + size {
            self.bytes[place as usize] = self.numbers.next() as u8;
        }
        self.put_referring(at, DATA, span);
    }

    fn put_branch(&mut self, at: usize, touched: &mut Vec<usize>) {
        let span = self.new_list();
        let made = self.lists.len() - 1;
        self.put_plain(made);
        self.put_referring(at, LIST, span);
        touched.push(made);
    }

    fn put_any(&mut self, at: usize, touched: &mut Vec<usize>) {
        match self.numbers.below(50) {
            0 if self.lists.len() < self.shape.lists => self.put_branch(at, touched),
            0 => self.put_referring(at, DATA, NIL),
            1..=10 => self.put_data(at),
            _ => self.put_plain(at),
        }
    }

    /// Nodes for one to six lists.
    fn transaction(&mut self, touched: &mut Vec<usize>) {
        for _ in 0..1 + self.numbers.below(6) {
            let at = self.numbers.below(self.lists.len() as u64) as usize;
            if !touched.contains(&at) {
                touched.push(at);
            }
            for _ in 0..1 + self.numbers.below(8) {
                self.put_any(at, touched);
            }
        }
    }

    /// Finishes the transaction: an entry for each list touched, and the sentinel.
    fn finish(&mut self, touched: &mut Vec<usize>) {
        let mut entries = Vec::new();
        for at in touched.drain(..) {
            entries.extend_from_slice(&self.lists[at].id.to_le_bytes());
            entries.extend_from_slice(&self.lists[at].count.to_le_bytes());
        }
        let sum = crc32(&entries);
        entries.extend_from_slice(&SENTINEL.to_le_bytes());
        entries.extend_from_slice(&sum.to_le_bytes());
        for entry in entries.chunks_exact(8) {
            if self.used == self.log.entries() {
                let next = self.new_fragment();
                self.put_span(self.log.log_next(), next);
                (self.log, self.used) = (next, 0);
            }
            self.put(self.log.start + 8 * self.used, entry);
            self.used += 1;
        }
        self.transactions += 1;
    }

    fn head(&mut self, log: Span, root: Span, end: u64) {
        self.put(0x00, &FILE_TYPE);
        self.put(0x30, &FILE_FORMAT);
        self.put(0x4C, &0x2Au32.to_le_bytes());
        self.put(0x60, &self.transactions.to_le_bytes());
        self.put_span(0x94, NIL);
        self.put_span(0xA0, log);
        self.put_span(0xAC, root);
        self.put(0xC4, &end.to_le_bytes());
    }
}

/// A number that is counted in eights.
fn eighth<N: TryFrom<u64>>(number: u64) -> Option<N> {
    (number % 8 == 0)
        .then(|| N::try_from(number / 8).ok())
        .flatten()
}

fn node(id: u32, base: u32, reference: &[u8], (stp, cb): (u32, u32), payload: &[u8]) -> Vec<u8> {
    let size = (4 + reference.len() + payload.len()) as u32;
    let head = id | size << 10 | stp << 23 | cb << 25 | base << 27 | 1 << 31;
    [&head.to_le_bytes(), reference, payload].concat()
}
