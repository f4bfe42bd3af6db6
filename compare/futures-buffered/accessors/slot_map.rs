// Accessors, appended by the build.

impl<F> PinSlotMap<F> {
    /// The slot that the next insert takes; with no vacant slot, the capacity.
    pub(crate) fn free_head(&self) -> usize {
        self.free_head
    }

    /// Whether there is a slot of this number, and it is occupied.
    pub(crate) fn is_occupied(&self, key: usize) -> bool {
        matches!(self.slots.get(key), Some(Slot::Occupied(_)))
    }
}
