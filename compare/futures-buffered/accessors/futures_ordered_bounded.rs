// Accessors, appended by the build.

impl<T: Future> FuturesOrderedBounded<T> {
    /// The set of the futures in progress.
    #[doc(hidden)]
    pub fn group(&self) -> &dyn crate::Group {
        &self.in_progress_queue
    }

    /// The number of outputs that wait for their turn.
    #[doc(hidden)]
    pub fn parked(&self) -> usize {
        self.queued_outputs.len()
    }
}
