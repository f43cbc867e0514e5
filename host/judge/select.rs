//! Root of the crate `arrow_select`: the text's `coalesce`, unchanged, and what it names beside it.

pub mod coalesce;

/// Filters are left behind by 01. A predicate has no values, so nothing here can run.
/// Source: the text's calls, for the names and the types alone.
mod filter {
    use arrow_array::{Array, ArrayRef, BooleanArray, RecordBatch};
    use arrow_buffer::NullBuffer;
    use arrow_schema::{ArrowError, DataType};
    use std::convert::Infallible;
    use std::marker::PhantomData;

    pub enum FilterBuilder {}

    impl FilterBuilder {
        pub fn new_with_count(filter: &BooleanArray, _count: usize) -> Self {
            match *filter {}
        }
        pub fn is_optimize_beneficial(_data_type: &DataType) -> bool {
            unimplemented!("filters are left behind")
        }
        pub fn optimize(self) -> Self {
            match self {}
        }
        pub fn build(self) -> FilterPredicate {
            match self {}
        }
    }

    pub enum FilterPredicate {}

    impl FilterPredicate {
        pub fn filter(&self, _values: &dyn Array) -> Result<ArrayRef, ArrowError> {
            match *self {}
        }
        pub fn filter_record_batch(&self, _batch: &RecordBatch) -> Result<RecordBatch, ArrowError> {
            match *self {}
        }
        pub fn count(&self) -> usize {
            match *self {}
        }
        pub fn selection(&self) -> FilterSelection<'_> {
            match *self {}
        }
        pub fn filter_nulls(&self, _nulls: Option<&NullBuffer>) -> Option<NullBuffer> {
            match *self {}
        }
    }

    /// The four cases that the text tells apart.
    pub enum FilterSelection<'a> {
        None,
        All { len: usize },
        Slices(FilterSlices<'a>),
        Indices(FilterIndices<'a>),
    }

    pub type FilterSlices<'a> = FilterRows<'a, (usize, usize)>;
    pub type FilterIndices<'a> = FilterRows<'a, usize>;

    pub struct FilterRows<'a, R> {
        never: Infallible,
        _rows: PhantomData<&'a R>,
    }

    impl<R> FilterRows<'_, R> {
        pub fn for_each(self, _f: impl FnMut(R)) {
            match self.never {}
        }
        pub fn try_for_each<E>(self, _f: impl FnMut(R) -> Result<(), E>) -> Result<(), E> {
            match self.never {}
        }
    }
}

/// `push_batch_with_indices` is left behind by 01. Source: the text's call.
mod take {
    use arrow_array::{Array, RecordBatch};
    use arrow_schema::ArrowError;

    pub fn take_record_batch(
        _batch: &RecordBatch,
        _indices: &dyn Array,
    ) -> Result<RecordBatch, ArrowError> {
        unimplemented!("taking by indices is left behind")
    }
}

/// The generic column is left behind by 01. Source: the text's call.
mod concat {
    use arrow_array::{Array, ArrayRef};
    use arrow_schema::ArrowError;

    pub fn concat(_arrays: &[&dyn Array]) -> Result<ArrayRef, ArrowError> {
        unimplemented!("the generic column is left behind")
    }
}
