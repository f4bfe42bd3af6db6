// Accessors, appended by the build.

impl<T: Future> FuturesOrdered<T> {
    /// The number of live groups.
    #[doc(hidden)]
    pub fn group_count(&self) -> usize {
        self.in_progress_queue.group_count()
    }

    /// A live group of the futures in progress, by its place.
    #[doc(hidden)]
    pub fn group(&self, place: usize) -> Option<&dyn crate::Group> {
        self.in_progress_queue.group(place)
    }

    /// The number of outputs that wait for their turn.
    #[doc(hidden)]
    pub fn parked(&self) -> usize {
        self.queued_outputs.len()
    }
}
