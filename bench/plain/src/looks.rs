//! Looks at an opened file, now and back. A refusal is its number.

use crate::format::*;
use crate::open::{Keep, Section};

#[derive(Clone, Copy, PartialEq, Eq, Debug)]
pub struct Seen {
    pub id: u32,
    pub base: u32,
    pub reference: Option<Span>,
    pub payload: usize,
}

/// A node that was found: its head, its reference, and its payload.
struct Found<'a> {
    head: Head,
    reference: Option<Span>,
    payload: &'a [u8],
}

impl Section {
    /// How many nodes a list had when `k` transactions were finished.
    pub fn count_at(&self, k: u64, list: u32) -> Result<u32, u32> {
        if k == 0 || k > u64::from(self.header.count) {
            return Err(25);
        }
        let Some(counts) = self.counts.get(&list) else {
            return Ok(0);
        };
        let up_to = counts.partition_point(|(transaction, _)| u64::from(*transaction) <= k);
        Ok(up_to.checked_sub(1).map_or(0, |last| counts[last].1))
    }

    fn find<'a>(&self, bytes: &'a [u8], k: u64, list: u32, index: u64) -> Result<Found<'a>, u32> {
        if index >= u64::from(self.count_at(k, list)?) {
            return Err(26);
        }
        let list = &self.lists[*self.by_id.get(&list).ok_or(26u32)?];
        let place = match self.keep {
            Keep::Nodes => list.nodes[index as usize],
            Keep::Fragments => list.walk_to(bytes, index as u32),
        };
        let head = Head::read(bytes, place);
        let reference = match head.base() {
            DATA | LIST => Some(head.reference(bytes, place)).filter(|span| !span.is_absent()),
            _ => None,
        };
        let start = (place + 4 + head.reference_width()) as usize;
        let payload = &bytes[start..(place + head.size()) as usize];
        Ok(Found {
            head,
            reference,
            payload,
        })
    }

    /// The node of a list with an index; its payload goes to the buffer's front.
    pub fn node(
        &self,
        bytes: &[u8],
        k: u64,
        list: u32,
        index: u64,
        buffer: &mut [u8],
    ) -> Result<Seen, u32> {
        let Found {
            head,
            reference,
            payload,
        } = self.find(bytes, k, list, index)?;
        buffer
            .get_mut(..payload.len())
            .ok_or(27u32)?
            .copy_from_slice(payload);
        Ok(Seen {
            id: head.id(),
            base: head.base(),
            reference,
            payload: payload.len(),
        })
    }

    /// `size` bytes of a node's data from `place` in it on; they go to the buffer's front.
    pub fn data(
        &self,
        bytes: &[u8],
        k: u64,
        (list, index): (u32, u64),
        (place, size): (u64, u64),
        buffer: &mut [u8],
    ) -> Result<(), u32> {
        let found = self.find(bytes, k, list, index)?;
        let data = match found.reference {
            Some(span) if found.head.base() == DATA => span,
            _ => Span { start: 0, size: 0 },
        };
        if (Span { start: place, size }).ends_past(data.size) {
            return Err(27);
        }
        let start = (data.start + place) as usize;
        let piece = &bytes[start..start + size as usize];
        buffer
            .get_mut(..piece.len())
            .ok_or(27u32)?
            .copy_from_slice(piece);
        Ok(())
    }

    /// Whether two nodes had the same ID and payload.
    pub fn alike(
        &self,
        bytes: &[u8],
        k: u64,
        one: (u32, u64),
        other: (u32, u64),
    ) -> Result<bool, u32> {
        let one = self.find(bytes, k, one.0, one.1)?;
        let other = self.find(bytes, k, other.0, other.1)?;
        Ok(one.head.id() == other.head.id() && one.payload == other.payload)
    }
}

impl crate::open::List {
    /// The place of a node, by its fragment and the nodes before it there.
    fn walk_to(&self, bytes: &[u8], index: u32) -> u64 {
        let at = self.pieces.partition_point(|piece| piece.from <= index) - 1;
        let piece = self.pieces[at];
        (piece.from..index).fold(piece.span.nodes_from(), |place, _| {
            place + Head::read(bytes, place).size()
        })
    }
}
