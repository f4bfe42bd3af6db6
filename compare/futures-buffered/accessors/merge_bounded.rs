// Accessors, appended by the build.

impl<S> MergeBounded<S> {
    /// An empty merge of the given capacity. The crate makes a bounded merge from an iterator only;
    /// this one is made as the growing merge makes its groups.
    #[doc(hidden)]
    pub fn empty(capacity: usize) -> Self {
        Self {
            streams: FuturesUnorderedBounded::new(capacity),
        }
    }

    /// The set of the streams.
    #[doc(hidden)]
    pub fn group(&self) -> &dyn crate::Group {
        &self.streams
    }
}
