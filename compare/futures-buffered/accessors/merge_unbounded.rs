// Accessors, appended by the build.

impl<S> MergeUnbounded<S> {
    /// An empty merge whose first group is there already and has the given capacity.
    #[doc(hidden)]
    pub fn with_first_group(capacity: usize) -> Self {
        Self {
            groups: Vec::from_iter([MergeBounded::empty(capacity)]),
            poll_next: 0,
        }
    }

    /// The number of live groups.
    #[doc(hidden)]
    pub fn group_count(&self) -> usize {
        self.groups.len()
    }

    /// A live group, by its place.
    #[doc(hidden)]
    pub fn group(&self, place: usize) -> Option<&dyn crate::Group> {
        self.groups.get(place).map(MergeBounded::group)
    }
}
