//! The queue of search and projection: an indexed heap.

/// An entry names its item and is ordered among entries by its key.
pub trait Entry: Copy {
    type Key: Ord;
    fn item(&self) -> usize;
    fn key(&self) -> Self::Key;
}

/// At most one entry an item; hands out the least.
pub struct Queue<E> {
    /// A heap in which the children of place i are the places from `ARITY` * i + 1 on.
    heap: Vec<E>,
    /// The place of an item's entry, or `ABSENT`.
    places: Vec<u32>,
}

const ARITY: usize = 4;
const ABSENT: u32 = u32::MAX;

impl<E: Entry> Queue<E> {
    /// An empty queue for the items below `items`.
    pub fn new(items: usize) -> Self {
        Queue { heap: Vec::with_capacity(items), places: vec![ABSENT; items] }
    }

    pub fn len(&self) -> usize {
        self.heap.len()
    }

    pub fn is_empty(&self) -> bool {
        self.heap.is_empty()
    }

    /// Adds an entry, or replaces the one of its item.
    pub fn put(&mut self, entry: E) {
        match self.places[entry.item()] {
            ABSENT => {
                self.heap.push(entry);
                self.rise(self.heap.len() - 1, entry);
            }
            place => self.settle(place as usize, entry),
        }
    }

    /// Removes an item's entry, if any.
    pub fn drop(&mut self, item: usize) {
        let place = self.places[item];
        if place != ABSENT {
            self.places[item] = ABSENT;
            self.fill(place as usize);
        }
    }

    /// Hands out the least entry.
    pub fn take(&mut self) -> Option<E> {
        let least = *self.heap.first()?;
        self.places[least.item()] = ABSENT;
        self.fill(0);
        Some(least)
    }

    /// Fills the place of an entry that left with the last one.
    fn fill(&mut self, place: usize) {
        let last = self.heap.pop().expect("an entry left");
        if place < self.heap.len() {
            self.settle(place, last);
        }
    }

    /// Stores an entry from a place on, upwards or downwards.
    fn settle(&mut self, place: usize, entry: E) {
        if place > 0 && entry.key() < self.heap[(place - 1) / ARITY].key() {
            self.rise(place, entry);
        } else {
            self.sink(place, entry);
        }
    }

    fn rise(&mut self, mut place: usize, entry: E) {
        while place > 0 {
            let parent = (place - 1) / ARITY;
            if self.heap[parent].key() <= entry.key() {
                break;
            }
            self.store(place, self.heap[parent]);
            place = parent;
        }
        self.store(place, entry);
    }

    fn sink(&mut self, mut place: usize, entry: E) {
        loop {
            let first = ARITY * place + 1;
            let end = (first + ARITY).min(self.heap.len());
            let Some(least) = (first..end).min_by_key(|&child| self.heap[child].key()) else {
                break;
            };
            if entry.key() <= self.heap[least].key() {
                break;
            }
            self.store(place, self.heap[least]);
            place = least;
        }
        self.store(place, entry);
    }

    fn store(&mut self, place: usize, entry: E) {
        self.heap[place] = entry;
        self.places[entry.item()] = place as u32;
    }
}
