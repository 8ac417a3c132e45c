//! The list access of `list_kernel`: what moves use of it.

pub(crate) trait ListWindowAccess<S> {
    type Element: Clone;

    fn descriptor_index(&self) -> usize;
    fn list_len(&self, solution: &S, entity: usize) -> usize;
    fn sublist_remove(
        &self,
        solution: &mut S,
        entity: usize,
        start: usize,
        end: usize,
    ) -> Option<Vec<Self::Element>>;
    fn sublist_insert(
        &self,
        solution: &mut S,
        entity: usize,
        position: usize,
        elements: Vec<Self::Element>,
    ) -> Option<()>;
}

/// Only the tabu signature, which document 01 leaves out, uses this.
pub(crate) trait ListRangeAccess<S>: ListWindowAccess<S> {
    fn list_get(&self, solution: &S, entity: usize, position: usize) -> Option<Self::Element>;
    fn tabu_value_id(&self, solution: &S, value: Option<&Self::Element>) -> u64;
    fn variable_name(&self) -> &'static str;
}
