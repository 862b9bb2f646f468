//! A map that keeps its keys in the order in which they came.

use std::collections::hash_map::RandomState;
use std::hash::BuildHasher;

/// How many keys are looked for one after the other. More are found by their hashes.
const FEW: usize = 16;

/// Keys, each once, with their values, in the order in which they came.
#[derive(Clone)]
pub(crate) struct Entries<V> {
    list: Vec<(String, V)>,
    /// With more than a few keys, each place in the list plus 1, in the first free slot from that of the key's hash on; 0 is free. At
    /// least half of the slots are.
    slots: Vec<usize>,
    hashes: RandomState,
}

impl<V> Entries<V> {
    pub(crate) fn new() -> Entries<V> {
        Entries { list: Vec::new(), slots: Vec::new(), hashes: RandomState::new() }
    }

    pub(crate) fn list(&self) -> &[(String, V)] {
        &self.list
    }

    /// The values, to be changed.
    pub(crate) fn iter_mut(&mut self) -> std::slice::IterMut<'_, (String, V)> {
        self.list.iter_mut()
    }

    pub(crate) fn into_list(self) -> Vec<(String, V)> {
        self.list
    }

    /// The number of the slot where the key's place is, or would be.
    fn slot(&self, key: &str) -> usize {
        let last = self.slots.len() - 1;
        let mut slot = self.hashes.hash_one(key) as usize & last;
        while self.slots[slot] != 0 && self.list[self.slots[slot] - 1].0 != key {
            slot = (slot + 1) & last;
        }
        slot
    }

    /// The place of a key in the list.
    pub(crate) fn place(&self, key: &str) -> Option<usize> {
        if self.slots.is_empty() {
            self.list.iter().position(|(it, _)| it == key)
        } else {
            self.slots[self.slot(key)].checked_sub(1)
        }
    }

    pub(crate) fn get(&self, key: &str) -> Option<&V> {
        self.place(key).map(|place| &self.list[place].1)
    }

    pub(crate) fn at_mut(&mut self, place: usize) -> &mut V {
        &mut self.list[place].1
    }

    /// Puts a key that isn't there yet at the end, and returns its place.
    pub(crate) fn push(&mut self, key: String, value: V) -> usize {
        let place = self.list.len();
        self.list.push((key, value));
        if self.list.len() > FEW {
            if self.slots.len() < 2 * self.list.len() {
                self.find_slots();
            } else {
                let slot = self.slot(&self.list[place].0);
                self.slots[slot] = place + 1;
            }
        }
        place
    }

    /// Puts the value where its key is, and returns the old one; or puts it at the end.
    pub(crate) fn insert(&mut self, key: String, value: V) -> Option<V> {
        match self.place(&key) {
            Some(place) => Some(std::mem::replace(self.at_mut(place), value)),
            None => {
                self.push(key, value);
                None
            }
        }
    }

    /// Takes a key out. Those after it move up.
    pub(crate) fn remove(&mut self, key: &str) -> Option<V> {
        let (_, value) = self.list.remove(self.place(key)?);
        self.find_slots();
        Some(value)
    }

    /// Makes the slots of the keys that are there.
    fn find_slots(&mut self) {
        self.slots.clear();
        if self.list.len() > FEW {
            self.slots.resize((4 * self.list.len()).next_power_of_two(), 0);
            for place in 0..self.list.len() {
                let slot = self.slot(&self.list[place].0);
                self.slots[slot] = place + 1;
            }
        }
    }
}

/// That both have the same keys with the same values, in any order.
impl<V: PartialEq> PartialEq for Entries<V> {
    fn eq(&self, other: &Entries<V>) -> bool {
        self.list.len() == other.list.len() && self.list.iter().all(|(key, value)| other.get(key) == Some(value))
    }
}
