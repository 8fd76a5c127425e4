//! Saving: a draft takes nodes, and is committed as one transaction. A refusal is its number.

use crate::crc::crc32;
use crate::format::*;
use crate::open::{open, Fault, Keep, List, LogEnd, Piece, Section};

const FRAGMENT_BYTES: u64 = 1024;
const NODE_ROOM: usize = 988;
const PLAIN_BYTES: usize = 4;
const REFERRING_BYTES: usize = 16;
const MOST_DATA: usize = 65_536;
const MOST_TOUCHED: usize = 16;
const TERMINATOR_NODE: u32 = 0x8000_10FF;

/// A file in memory: no write ends past its ceiling.
pub struct File {
    pub bytes: Vec<u8>,
    ceiling: u64,
    pub section: Section,
    begins: u64,
    draft: Option<Layout>,
}

/// A draft: its number among the begins since its file was opened.
pub struct Draft(u64);

/// What comes with a new node.
#[derive(Clone, Copy)]
pub enum With<'a> {
    Nothing,
    Data(&'a [u8]),
    List { id: u32, payload: &'a [u8] },
}

/// The end of a list: its row, its last fragment and that one's number, the place behind the last node, and the count.
#[derive(Clone, Copy)]
struct Tail {
    list: u32,
    row: usize,
    fragment: Span,
    number: u32,
    free: u64,
    count: u32,
}

/// The layout of an open draft.
#[derive(Clone)]
struct Layout {
    end: u64,
    fragments: usize,
    lists: usize,
    highest: u32,
    touched: Vec<Tail>,
    pieces: Vec<(usize, Piece)>,
    nodes: Vec<(usize, u64)>,
}

/// What one add does: the list's tail before and behind it, and the list made.
struct Step {
    before: Tail,
    tail: Tail,
    made: Option<Tail>,
    at: u64,
    end: u64,
}

fn padded(place: u64) -> u64 {
    place.next_multiple_of(8)
}

fn head_number(id: u32, base: u32, size: usize) -> u32 {
    id | (size as u32) << 10 | base << 27 | 1 << 31
}

/// A node's bytes.
fn put_node(into: &mut Vec<u8>, id: u32, refers: Option<(u32, Span)>, payload: &[u8]) {
    match refers {
        None => {
            let head = head_number(id, 0, PLAIN_BYTES + payload.len());
            into.extend_from_slice(&head.to_le_bytes());
        }
        Some((base, span)) => {
            let head = head_number(id, base, REFERRING_BYTES + payload.len());
            into.extend_from_slice(&head.to_le_bytes());
            span.put(into);
        }
    }
    into.extend_from_slice(payload);
}

/// A list's new fragment with one node.
fn fragment_with(list: u32, number: u32, node: &[u8]) -> Vec<u8> {
    let mut bytes = Vec::with_capacity(FRAGMENT_BYTES as usize);
    bytes.extend_from_slice(&FIRST_MARK.to_le_bytes());
    bytes.extend_from_slice(&list.to_le_bytes());
    bytes.extend_from_slice(&number.to_le_bytes());
    bytes.extend_from_slice(node);
    bytes.resize(16 + NODE_ROOM, 0);
    NIL.put(&mut bytes);
    bytes.extend_from_slice(&LAST_MARK.to_le_bytes());
    bytes
}

impl LogEnd {
    fn places(&self) -> u64 {
        self.fragment.entries() - self.used
    }
}

impl With<'_> {
    fn reference_bytes(self) -> usize {
        match self {
            With::Nothing => PLAIN_BYTES,
            _ => REFERRING_BYTES,
        }
    }

    fn is_too_large(self, payload: &[u8]) -> bool {
        let too_large = self.reference_bytes() + payload.len() > NODE_ROOM;
        too_large
            || match self {
                With::Nothing => false,
                With::Data(data) => data.is_empty() || data.len() > MOST_DATA,
                With::List { payload, .. } => PLAIN_BYTES + payload.len() > NODE_ROOM,
            }
    }
}

fn is_bad_id(id: u32) -> bool {
    id == 0 || id == TERMINATOR || id > 0x3FF
}

impl File {
    pub fn open(bytes: Vec<u8>, ceiling: u64, keep: Keep) -> Result<File, Fault> {
        let section = open(&bytes, keep)?;
        Ok(File {
            bytes,
            ceiling,
            section,
            begins: 0,
            draft: None,
        })
    }

    pub fn begin(&mut self) -> Result<Draft, u32> {
        if self.draft.is_some() {
            return Err(14);
        }
        self.begins = self.begins.checked_add(1).ok_or(23u32)?;
        self.draft = Some(Layout {
            end: self.section.header.end,
            fragments: self.section.fragments,
            lists: self.section.lists.len(),
            highest: self.section.highest,
            touched: Vec::new(),
            pieces: Vec::new(),
            nodes: Vec::new(),
        });
        Ok(Draft(self.begins))
    }

    /// Adds a node to a list. A branch answers the ID of the list that it made.
    pub fn add(
        &mut self,
        draft: &Draft,
        list: u32,
        id: u32,
        payload: &[u8],
        with: With,
    ) -> Result<Option<u32>, u32> {
        let layout = self
            .draft
            .as_ref()
            .filter(|_| draft.0 == self.begins)
            .ok_or(16u32)?;
        let step = self.plan(layout, list, id, payload, with)?;
        let made = step.made.map(|tail| tail.list);
        self.write_add(&step, id, payload, with);
        if let Some(layout) = &mut self.draft {
            layout.take(&step);
        }
        Ok(made)
    }

    /// Lets the draft go.
    pub fn abandon(&mut self, draft: Draft) -> Result<(), u32> {
        self.draft
            .take_if(|_| draft.0 == self.begins)
            .map(|_| ())
            .ok_or(16)
    }

    fn tail(&self, layout: &Layout, list: u32) -> Option<Tail> {
        let touched = layout.touched.iter().find(|tail| tail.list == list);
        touched.copied().or_else(|| {
            let row = *self.section.by_id.get(&list)?;
            let List {
                pieces,
                count,
                free,
                ..
            } = &self.section.lists[row];
            Some(Tail {
                list,
                row,
                fragment: pieces.last()?.span,
                number: pieces.len() as u32 - 1,
                free: *free,
                count: *count,
            })
        })
    }

    /// The checks of an add, and what it does.
    fn plan(
        &self,
        layout: &Layout,
        list: u32,
        id: u32,
        payload: &[u8],
        with: With,
    ) -> Result<Step, u32> {
        let before = self.tail(layout, list).ok_or(17u32)?;
        if with.is_too_large(payload) {
            return Err(18);
        }
        if is_bad_id(id) || matches!(with, With::List { id, .. } if is_bad_id(id)) {
            return Err(19);
        }
        let step = layout.step(before, payload, with);
        let known = layout.touched.iter().any(|tail| tail.list == list);
        let branches = usize::from(step.made.is_some());
        if layout.touched.len() + usize::from(!known) + branches > MOST_TOUCHED {
            return Err(20);
        }
        if layout.lists + branches > MOST_LISTS
            || layout.fragments + branches + usize::from(step.spills()) > MOST_FRAGMENTS
        {
            return Err(13);
        }
        if before.count == u32::MAX || branches == 1 && layout.highest == u32::MAX {
            return Err(23);
        }
        self.check_end(layout.end, step.end)?;
        Ok(step)
    }

    fn check_end(&self, old: u64, new: u64) -> Result<(), u32> {
        if new > old && (new > self.ceiling || new > LONGEST) {
            return Err(24);
        }
        Ok(())
    }

    fn write(&mut self, place: u64, new: &[u8]) {
        let place = place as usize;
        let end = place + new.len();
        if end > self.bytes.len() {
            self.bytes.resize(end, 0);
        }
        self.bytes[place..end].copy_from_slice(new);
    }

    /// Writes a piece with the zeros behind it.
    fn write_piece(&mut self, place: u64, mut piece: Vec<u8>) {
        piece.resize((padded(place + piece.len() as u64) - place) as usize, 0);
        self.write(place, &piece);
    }

    fn write_add(&mut self, step: &Step, id: u32, payload: &[u8], with: With) {
        let start = self.draft.as_ref().map_or(0, |layout| layout.end);
        let refers = match with {
            With::Nothing => None,
            With::Data(data) => {
                self.write_piece(start, data.to_vec());
                Some((
                    DATA,
                    Span {
                        start,
                        size: data.len() as u64,
                    },
                ))
            }
            With::List { id, payload } => {
                let mut node = Vec::new();
                put_node(&mut node, id, None, payload);
                let list = step.made.map_or(0, |made| made.list);
                self.write_piece(start, fragment_with(list, 0, &node));
                Some((
                    LIST,
                    Span {
                        start,
                        size: FRAGMENT_BYTES,
                    },
                ))
            }
        };
        let mut node = Vec::new();
        put_node(&mut node, id, refers, payload);
        let before = step.before;
        if !step.spills() {
            return self.write(before.free, &node);
        }
        self.write_piece(step.at, fragment_with(before.list, step.tail.number, &node));
        let stop = before.fragment.nodes_to();
        if before.free + 4 <= stop {
            self.write(before.free, &TERMINATOR_NODE.to_le_bytes());
        }
        let mut next = Vec::new();
        Span {
            start: step.at,
            size: FRAGMENT_BYTES,
        }
        .put(&mut next);
        self.write(stop, &next);
    }

    /// Finishes the draft as one transaction.
    pub fn commit(&mut self, draft: Draft, guid: &[u8; 16]) -> Result<(), (Draft, u32)> {
        let Some(layout) = self.draft.take_if(|_| draft.0 == self.begins) else {
            return Err((draft, 16));
        };
        match self.after_commit(&layout, guid) {
            Ok((header, log, fragments)) => {
                self.write_commit(&layout, &header, log);
                self.keep_committed(layout, header, log, fragments);
                Ok(())
            }
            Err(number) => {
                self.draft = Some(layout);
                Err((draft, number))
            }
        }
    }

    /// The checks of a commit, and the header, the log's end and the fragments behind it.
    fn after_commit(
        &self,
        layout: &Layout,
        guid: &[u8; 16],
    ) -> Result<(Header, LogEnd, usize), u32> {
        let Section { header, log, .. } = &self.section;
        if layout.touched.is_empty() {
            return Err(21);
        }
        if *guid == header.version {
            return Err(22);
        }
        let entries = layout.touched.len() as u64 + 1;
        let runs_out = log.places() < entries;
        let fragments = layout.fragments + usize::from(runs_out);
        if fragments > MOST_FRAGMENTS {
            return Err(13);
        }
        let count = header.count.checked_add(1).ok_or(23u32)?;
        let generation = header.generation.checked_add(1).ok_or(23u32)?;
        let (end, log) = if runs_out {
            let fragment = Span {
                start: layout.end,
                size: FRAGMENT_BYTES,
            };
            let used = entries - log.places();
            (
                padded(layout.end + FRAGMENT_BYTES),
                LogEnd { fragment, used },
            )
        } else {
            (
                layout.end,
                LogEnd {
                    used: log.used + entries,
                    ..*log
                },
            )
        };
        self.check_end(layout.end, end)?;
        let header = Header {
            count,
            generation,
            end,
            version: *guid,
            ..*header
        };
        Ok((header, log, fragments))
    }

    fn write_commit(&mut self, layout: &Layout, header: &Header, log: LogEnd) {
        let mut entries = Vec::with_capacity(8 * (layout.touched.len() + 1));
        for tail in &layout.touched {
            entries.extend_from_slice(&tail.list.to_le_bytes());
            entries.extend_from_slice(&tail.count.to_le_bytes());
        }
        let sum = crc32(&entries);
        entries.extend_from_slice(&SENTINEL.to_le_bytes());
        entries.extend_from_slice(&sum.to_le_bytes());
        let old = self.section.log;
        let (fit, rest) = entries.split_at(entries.len().min(8 * old.places() as usize));
        if !rest.is_empty() {
            let mut fragment = rest.to_vec();
            fragment.resize(8 * log.fragment.entries() as usize, 0);
            NIL.put(&mut fragment);
            fragment.resize(FRAGMENT_BYTES as usize, 0);
            self.write_piece(log.fragment.start, fragment);
            let mut next = Vec::new();
            log.fragment.put(&mut next);
            self.write(old.fragment.log_next(), &next);
        }
        self.write(old.fragment.start + 8 * old.used, fit);
        let mut head: [u8; 512] = bytes_at(&self.bytes, 0);
        head[0x60..0x64].copy_from_slice(&header.count.to_le_bytes());
        head[0xC4..0xCC].copy_from_slice(&header.end.to_le_bytes());
        head[0xD4..0xE4].copy_from_slice(&header.version);
        head[0xE4..0xEC].copy_from_slice(&header.generation.to_le_bytes());
        self.write(0, &head);
    }

    fn keep_committed(&mut self, layout: Layout, header: Header, log: LogEnd, fragments: usize) {
        let Section {
            lists,
            by_id,
            counts,
            keep,
            ..
        } = &mut self.section;
        for tail in &layout.touched {
            if tail.row >= lists.len() {
                by_id.insert(tail.list, lists.len());
                lists.push(List {
                    id: tail.list,
                    pieces: Vec::new(),
                    nodes: Vec::new(),
                    count: 0,
                    free: 0,
                });
            }
            let list = &mut lists[tail.row];
            list.count = tail.count;
            list.free = tail.free;
            counts
                .entry(tail.list)
                .or_default()
                .push((header.count, tail.count));
        }
        for (row, piece) in layout.pieces {
            lists[row].pieces.push(piece);
        }
        if *keep == Keep::Nodes {
            for (row, place) in layout.nodes {
                lists[row].nodes.push(place);
            }
        }
        self.section.header = header;
        self.section.log = log;
        self.section.fragments = fragments;
        self.section.highest = layout.highest;
    }
}

impl Step {
    fn spills(&self) -> bool {
        self.tail.number != self.before.number
    }
}

impl Layout {
    fn step(&self, before: Tail, payload: &[u8], with: With) -> Step {
        let len = (with.reference_bytes() + payload.len()) as u64;
        let (at, made) = match with {
            With::Nothing => (self.end, None),
            With::Data(data) => (padded(self.end + data.len() as u64), None),
            With::List { payload, .. } => {
                let made = Tail {
                    list: self.highest.wrapping_add(1),
                    row: self.lists,
                    fragment: Span {
                        start: self.end,
                        size: FRAGMENT_BYTES,
                    },
                    number: 0,
                    free: self.end + 16 + (PLAIN_BYTES + payload.len()) as u64,
                    count: 1,
                };
                (padded(self.end + FRAGMENT_BYTES), Some(made))
            }
        };
        let count = before.count.wrapping_add(1);
        if before.free + len <= before.fragment.nodes_to() {
            let tail = Tail {
                free: before.free + len,
                count,
                ..before
            };
            return Step {
                before,
                tail,
                made,
                at,
                end: at,
            };
        }
        let tail = Tail {
            fragment: Span {
                start: at,
                size: FRAGMENT_BYTES,
            },
            number: before.number + 1,
            free: at + 16 + len,
            count,
            ..before
        };
        Step {
            before,
            tail,
            made,
            at,
            end: padded(at + FRAGMENT_BYTES),
        }
    }

    fn take(&mut self, step: &Step) {
        let Step {
            before, tail, made, ..
        } = *step;
        match self.touched.iter_mut().find(|t| t.list == tail.list) {
            Some(touched) => *touched = tail,
            None => self.touched.push(tail),
        }
        if let Some(made) = made {
            let piece = Piece {
                span: made.fragment,
                from: 0,
            };
            self.touched.push(made);
            self.pieces.push((made.row, piece));
            self.nodes.push((made.row, made.fragment.nodes_from()));
            self.highest = made.list;
            self.lists += 1;
            self.fragments += 1;
        }
        let place = if step.spills() {
            self.fragments += 1;
            self.pieces.push((
                tail.row,
                Piece {
                    span: tail.fragment,
                    from: before.count,
                },
            ));
            tail.fragment.nodes_from()
        } else {
            before.free
        };
        self.nodes.push((tail.row, place));
        self.end = step.end;
    }
}
