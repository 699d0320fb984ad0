//! The values that a broadcast channel keeps.

/// The values, each in the slot that the low bits of its number select. Putting one in, reading one
/// and taking one out each access a single slot, and allocate nothing.
pub(super) struct Kept<T> {
    /// One for each value that the channel can keep; their number is a power of two.
    slots: Box<[Option<T>]>,
    /// How many values were sent: the number of the next one.
    sent: u64,
    /// The number of the oldest value that is kept, or of the next one if none is.
    oldest: u64,
}

impl<T> Kept<T> {
    pub(super) fn new(capacity: usize) -> Self {
        Self {
            slots: (0..capacity.next_power_of_two()).map(|_| None).collect(),
            sent: 0,
            oldest: 0,
        }
    }

    pub(super) fn sent(&self) -> u64 {
        self.sent
    }

    #[inline]
    fn slot(&mut self, number: u64) -> &mut Option<T> {
        let low_bits = self.slots.len() - 1;
        &mut self.slots[number as usize & low_bits]
    }

    /// Keeps the next value while the channel drops this many, and returns the one that it
    /// replaces.
    #[inline]
    pub(super) fn push(&mut self, value: T, let_go: u32) -> Option<T> {
        let number = self.sent;
        self.oldest += u64::from(let_go);
        self.sent += 1;
        self.slot(number).replace(value)
    }

    /// Returns the value with this number: a clone, or the value itself if the channel drops it.
    #[inline]
    pub(super) fn read(&mut self, number: u64, let_go: u32) -> Option<T>
    where
        T: Clone,
    {
        self.oldest += u64::from(let_go);
        let slot = self.slot(number);
        if let_go == 0 {
            slot.clone()
        } else {
            slot.take()
        }
    }

    /// Takes out this many of the oldest values, which the channel drops.
    pub(super) fn take_oldest(&mut self, let_go: u32) -> Vec<T> {
        let from = self.oldest;
        self.oldest += u64::from(let_go);
        (from..self.oldest)
            .filter_map(|number| self.slot(number).take())
            .collect()
    }
}
