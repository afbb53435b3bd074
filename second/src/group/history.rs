//! What a server remembers of each object, by tag.

use std::collections::BTreeMap;

use crate::message::Cells;
use crate::tag::Tag;

pub const MOST_ENTRIES: usize = 64;

/// Of entries with equal tags only the earliest is ever seen, and they all go
/// together; so the value of the first and the number of all is enough.
#[derive(Clone, Debug)]
struct Entries {
    first: Cells,
    times: usize,
}

#[derive(Clone, Debug)]
pub struct History {
    objects: Vec<BTreeMap<Tag, Entries>>,
    zero: Cells,
    len: usize,
}

impl History {
    pub fn new(objects: usize, cells: usize) -> History {
        History {
            objects: vec![BTreeMap::new(); objects],
            zero: Cells::from(vec![0; cells]),
            len: 0,
        }
    }

    pub fn len(&self) -> usize {
        self.len
    }

    pub fn is_empty(&self) -> bool {
        self.len == 0
    }

    pub fn is_full(&self) -> bool {
        self.len == MOST_ENTRIES
    }

    pub fn zero(&self) -> &Cells {
        &self.zero
    }

    /// The value under a tag, if it is held.
    pub fn value(&self, object: usize, tag: Tag) -> Option<&Cells> {
        if tag == Tag::ZERO {
            return Some(&self.zero);
        }
        self.objects[object].get(&tag).map(|entries| &entries.first)
    }

    pub fn holds(&self, object: usize, tag: Tag) -> bool {
        self.value(object, tag).is_some()
    }

    /// The highest held tag with its value.
    pub fn highest(&self, object: usize) -> (Tag, &Cells) {
        self.objects[object]
            .last_key_value()
            .map_or((Tag::ZERO, &self.zero), |(tag, entries)| (*tag, &entries.first))
    }

    /// The highest tag among the entries that is not above the limit.
    pub fn highest_up_to(&self, object: usize, limit: Tag) -> Option<Tag> {
        let (tag, _) = self.objects[object].range(..=limit).next_back()?;
        Some(*tag)
    }

    pub fn enter(&mut self, object: usize, tag: Tag, value: Cells) {
        let fresh = Entries { first: value, times: 0 };
        self.objects[object].entry(tag).or_insert(fresh).times += 1;
        self.len += 1;
    }

    /// Removes the entries below the floor that are not spared, and tells how many.
    pub fn remove_below(
        &mut self,
        object: usize,
        floor: Tag,
        spared: impl Fn(Tag) -> bool,
    ) -> usize {
        let going: Vec<Tag> = self.objects[object]
            .range(..floor)
            .map(|(tag, _)| *tag)
            .filter(|tag| !spared(*tag))
            .collect();
        going.iter().map(|tag| self.remove(object, *tag)).sum()
    }

    /// Removes all entries of the tag, and tells how many.
    pub fn remove(&mut self, object: usize, tag: Tag) -> usize {
        let gone = self.objects[object].remove(&tag).map_or(0, |e| e.times);
        self.len -= gone;
        gone
    }
}
