// Accessors, appended by the build.

impl<F> FuturesUnordered<F> {
    /// The number of live groups.
    #[doc(hidden)]
    pub fn group_count(&self) -> usize {
        self.groups.len()
    }

    /// A live group, by its place.
    #[doc(hidden)]
    pub fn group(&self, place: usize) -> Option<&dyn crate::Group> {
        match self.groups.get(place) {
            Some(group) => Some(group),
            None => None,
        }
    }
}
