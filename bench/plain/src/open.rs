//! Opening: a file is accepted, or the first broken rule is told.

use crate::crc::Crc;
use crate::format::*;
use std::collections::{BTreeMap, HashMap, VecDeque};

#[derive(Clone, Copy, PartialEq, Eq, Debug)]
pub struct Fault {
    pub number: u32,
    pub layer: u32,
    pub place: u64,
    pub list: u32,
}

/// Whether the places of all nodes are kept, eight bytes each, or only those of the fragments.
#[derive(Clone, Copy, PartialEq, Eq, Debug)]
pub enum Keep {
    Nodes,
    Fragments,
}

/// A fragment of a list, and how many nodes the list has before it.
#[derive(Clone, Copy, Debug)]
pub struct Piece {
    pub span: Span,
    pub from: u32,
}

#[derive(Debug)]
pub struct List {
    pub id: u32,
    pub pieces: Vec<Piece>,
    pub nodes: Vec<u64>,
    pub count: u32,
    pub free: u64,
}

/// The end of the log: its last fragment, and how many of that one's entries are used.
#[derive(Clone, Copy, Debug)]
pub struct LogEnd {
    pub fragment: Span,
    pub used: u64,
}

/// An opened file.
#[derive(Debug)]
pub struct Section {
    pub header: Header,
    pub keep: Keep,
    pub lists: Vec<List>,
    pub by_id: HashMap<u32, usize>,
    /// Of each list the counts that the log gives it, with the transactions that did.
    pub counts: HashMap<u32, Vec<(u32, u32)>>,
    pub fragments: usize,
    /// The whole percent of the file that is header and fragments.
    pub percent: u64,
    pub log: LogEnd,
    pub highest: u32,
}

/// A reference to a list, and where it stands.
struct Named {
    field: u64,
    span: Span,
}

/// A reference to data, where it stands, and in which list.
struct Piecewise {
    field: u64,
    list: u32,
    span: Span,
}

pub fn open(bytes: &[u8], keep: Keep) -> Result<Section, Fault> {
    let header = check_header(bytes)?;
    let mut opening = Opening {
        bytes,
        header,
        keep,
        placed: BTreeMap::new(),
        counts: HashMap::new(),
        by_id: HashMap::new(),
        queue: VecDeque::new(),
        data: Vec::new(),
    };
    let log = opening.read_log()?;
    let lists = opening.read_lists()?;
    opening.check_data()?;
    let used: u64 = opening.placed.iter().map(|(start, end)| end - start).sum();
    Ok(Section {
        header,
        keep,
        by_id: opening.by_id,
        lists,
        fragments: opening.placed.len(),
        percent: (HEADER_BYTES + used).saturating_mul(100) / header.end,
        highest: opening.counts.keys().copied().max().unwrap_or(0),
        counts: opening.counts,
        log,
    })
}

fn check_header(bytes: &[u8]) -> Result<Header, Fault> {
    let fault = |number, place| Fault {
        number,
        layer: 1,
        place,
        list: 0,
    };
    let len = bytes.len() as u64;
    if len < HEADER_BYTES {
        return Err(fault(1, 0));
    }
    let header = Header::read(bytes);
    if len < header.end || header.end < HEADER_BYTES || header.end > LONGEST {
        return Err(fault(1, 0xC4));
    }
    if bytes_at(bytes, 0x00) != FILE_TYPE {
        return Err(fault(2, 0x00));
    }
    if bytes_at(bytes, 0x30) != FILE_FORMAT {
        return Err(fault(2, 0x30));
    }
    if u32_at(bytes, 0x4C) > 0x2A {
        return Err(fault(3, 0x4C));
    }
    if header.count == 0 {
        return Err(fault(4, 0x60));
    }
    Ok(header)
}

struct Opening<'a> {
    bytes: &'a [u8],
    header: Header,
    keep: Keep,
    /// The fragments, by their starts; with each its end.
    placed: BTreeMap<u64, u64>,
    counts: HashMap<u32, Vec<(u32, u32)>>,
    by_id: HashMap<u32, usize>,
    queue: VecDeque<Named>,
    data: Vec<Piecewise>,
}

impl Opening<'_> {
    /// Takes a fragment in; refused, it tells the number of the broken rule.
    fn admit(&mut self, least: u64, span: Span) -> Result<(), u32> {
        if span.is_absent() || span.size < least || span.ends_past(self.header.end) {
            return Err(5);
        }
        if self.placed.len() >= MOST_FRAGMENTS {
            return Err(13);
        }
        if self.overlaps(span) {
            return Err(11);
        }
        self.placed.insert(span.start, span.start + span.size);
        Ok(())
    }

    /// Whether a range in the file shares a byte with the header or a fragment.
    fn overlaps(&self, span: Span) -> bool {
        if span.size == 0 {
            return false;
        }
        let before = self.placed.range(..span.start + span.size).next_back();
        span.is_in_header() || before.is_some_and(|(_, end)| *end > span.start)
    }

    fn read_log(&mut self) -> Result<LogEnd, Fault> {
        let fault = |number, place| Fault {
            number,
            layer: 2,
            place,
            list: 0,
        };
        let mut field = 0xA0;
        let mut fragment = self.header.log;
        let mut finished = 0;
        let mut crc = Crc::new();
        loop {
            self.admit(12, fragment)
                .map_err(|number| fault(number, field))?;
            for i in 0..fragment.entries() {
                let place = fragment.start + 8 * i;
                let entry: [u8; 8] = bytes_at(self.bytes, place);
                let source = u32::from_le_bytes(entry[..4].try_into().unwrap());
                let number = u32::from_le_bytes(entry[4..].try_into().unwrap());
                if source == SENTINEL {
                    if crc.finish() != number {
                        return Err(fault(6, place));
                    }
                    crc = Crc::new();
                    finished += 1;
                    if finished == self.header.count {
                        return Ok(LogEnd {
                            fragment,
                            used: i + 1,
                        });
                    }
                } else {
                    let counts = self.counts.entry(source).or_default();
                    if number <= counts.last().map_or(0, |(_, count)| *count) {
                        return Err(fault(7, place));
                    }
                    counts.push((finished + 1, number));
                    crc.update(&entry);
                }
            }
            field = fragment.log_next();
            fragment = Span::read(self.bytes, field);
        }
    }

    fn read_lists(&mut self) -> Result<Vec<List>, Fault> {
        let mut lists = Vec::new();
        self.queue.push_back(Named {
            field: 0xAC,
            span: self.header.root,
        });
        if !self.header.hashed.is_absent() {
            self.queue.push_back(Named {
                field: 0x94,
                span: self.header.hashed,
            });
        }
        while let Some(named) = self.queue.pop_front() {
            let list = self.read_list(named, lists.len())?;
            lists.push(list);
        }
        Ok(lists)
    }

    fn read_list(&mut self, named: Named, before: usize) -> Result<List, Fault> {
        let fault = |number, place, list| Fault {
            number,
            layer: 3,
            place,
            list,
        };
        let mut fragment = named.span;
        if before >= MOST_LISTS {
            let outside =
                fragment.is_absent() || fragment.size < 36 || fragment.ends_past(self.header.end);
            return Err(fault(if outside { 5 } else { 13 }, named.field, 0));
        }
        self.admit(36, fragment)
            .map_err(|number| fault(number, named.field, 0))?;
        let id = u32_at(self.bytes, fragment.start + 8);
        self.check_fragment(fragment, id, 0)
            .map_err(|place| fault(8, place, 0))?;
        if self.by_id.insert(id, before).is_some() {
            return Err(fault(12, fragment.start, id));
        }
        let Some(count) = self.counts.get(&id).and_then(|counts| counts.last()) else {
            return Err(fault(10, fragment.start, id));
        };
        let mut list = List {
            id,
            pieces: Vec::new(),
            nodes: Vec::new(),
            count: count.1,
            free: 0,
        };
        let mut nodes = 0;
        loop {
            list.pieces.push(Piece {
                span: fragment,
                from: nodes,
            });
            list.free = self.read_nodes(&mut list, &mut nodes, fragment)?;
            if nodes == list.count {
                return Ok(list);
            }
            let field = fragment.nodes_to();
            fragment = Span::read(self.bytes, field);
            self.admit(36, fragment)
                .map_err(|number| fault(number, field, id))?;
            self.check_fragment(fragment, id, list.pieces.len() as u32)
                .map_err(|place| fault(8, place, id))?;
        }
    }

    /// Refused, it tells the place of the fragment.
    fn check_fragment(&self, span: Span, list: u32, sequence: u32) -> Result<(), u64> {
        let Span { start, size } = span;
        let right = u64_at(self.bytes, start) == FIRST_MARK
            && u64_at(self.bytes, start + size - 8) == LAST_MARK
            && u32_at(self.bytes, start + 12) == sequence
            && u32_at(self.bytes, start + 8) == list
            && list >= LEAST_ID;
        if right {
            Ok(())
        } else {
            Err(start)
        }
    }

    /// Reads a fragment's nodes, up to the list's count, and answers the place behind the last.
    fn read_nodes(&mut self, list: &mut List, nodes: &mut u32, span: Span) -> Result<u64, Fault> {
        let stop = span.nodes_to();
        let mut place = span.nodes_from();
        while *nodes < list.count && place + 4 <= stop {
            let head = Head::read(self.bytes, place);
            if head.id() == TERMINATOR {
                break;
            }
            if head.is_bad(place, stop) {
                return Err(Fault {
                    number: 9,
                    layer: 3,
                    place,
                    list: list.id,
                });
            }
            if self.keep == Keep::Nodes {
                list.nodes.push(place);
            }
            self.note_reference(head, place, list.id);
            place += head.size();
            *nodes += 1;
        }
        Ok(place)
    }

    fn note_reference(&mut self, head: Head, place: u64, list: u32) {
        if head.base() == 0 {
            return;
        }
        let span = head.reference(self.bytes, place);
        let field = place + 4;
        if span.is_absent() {
            return;
        }
        match head.base() {
            DATA => self.data.push(Piecewise { field, list, span }),
            _ => self.queue.push_back(Named { field, span }),
        }
    }

    fn check_data(&self) -> Result<(), Fault> {
        for &Piecewise {
            field: place,
            list,
            span,
        } in &self.data
        {
            let fault = |number| Fault {
                number,
                layer: 3,
                place,
                list,
            };
            if span.ends_past(self.header.end) {
                return Err(fault(5));
            }
            if self.overlaps(span) {
                return Err(fault(11));
            }
        }
        Ok(())
    }
}
