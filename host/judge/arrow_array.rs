//! Stand-in for `arrow_array`: the two column forms, the batch, and the choice by type.

use arrow_buffer::{ArrowNativeType, Buffer, NullBuffer, ScalarBuffer};
use arrow_data::MAX_INLINE_VIEW_LEN;
use arrow_schema::{ArrowError, SchemaRef};
use std::any::Any;
use std::fmt;
use std::marker::PhantomData;
use std::sync::Arc;

#[doc(hidden)]
pub use arrow_schema::DataType;

/// A primitive kind: the value that one row holds, and the type without parameters.
/// Source: the text's bounds, 01's table.
pub trait ArrowPrimitiveType: Send + Sync + 'static {
    type Native: ArrowNativeType;
    const DATA_TYPE: DataType;
}

/// The kinds as types: 17 primitive ones, 2 of views.
/// Source: 01's table of kinds and widths.
pub mod types {
    use super::{ArrowPrimitiveType, DataType};
    use arrow_buffer::i256;

    macro_rules! primitive_types {
        ($($name:ident, $native:ty, $data_type:expr;)*) => { $(
            #[derive(Debug)]
            pub struct $name;
            impl ArrowPrimitiveType for $name {
                type Native = $native;
                const DATA_TYPE: DataType = $data_type;
            }
        )* };
    }
    primitive_types! {
        Int8Type, i8, DataType::Int8;
        Int16Type, i16, DataType::Int16;
        Int32Type, i32, DataType::Int32;
        Int64Type, i64, DataType::Int64;
        UInt8Type, u8, DataType::UInt8;
        UInt16Type, u16, DataType::UInt16;
        UInt32Type, u32, DataType::UInt32;
        UInt64Type, u64, DataType::UInt64;
        Float16Type, u16, DataType::Float16;
        Float32Type, f32, DataType::Float32;
        Float64Type, f64, DataType::Float64;
        Date32Type, i32, DataType::Date32;
        Date64Type, i64, DataType::Date64;
        TimestampType, i64, DataType::Timestamp(None);
        DurationType, i64, DataType::Duration;
        Decimal128Type, i128, DataType::Decimal128(38, 10);
        Decimal256Type, i256, DataType::Decimal256(76, 10);
    }

    pub trait ByteViewType: Send + Sync + 'static {
        const DATA_TYPE: DataType;
    }

    pub struct StringViewType;
    impl ByteViewType for StringViewType {
        const DATA_TYPE: DataType = DataType::Utf8View;
    }

    pub struct BinaryViewType;
    impl ByteViewType for BinaryViewType {
        const DATA_TYPE: DataType = DataType::BinaryView;
    }
}

/// Chooses the type of `types` for a primitive `DataType`, else one of the arms given.
/// Source: the text's call (a type, a macro to run with it, further arms); 01's table.
#[macro_export]
macro_rules! downcast_primitive {
    ($data_type:expr => ($m:ident), $($p:pat => $other:expr $(,)?)*) => {
        match $data_type {
            $crate::DataType::Int8 => $m!($crate::types::Int8Type),
            $crate::DataType::Int16 => $m!($crate::types::Int16Type),
            $crate::DataType::Int32 => $m!($crate::types::Int32Type),
            $crate::DataType::Int64 => $m!($crate::types::Int64Type),
            $crate::DataType::UInt8 => $m!($crate::types::UInt8Type),
            $crate::DataType::UInt16 => $m!($crate::types::UInt16Type),
            $crate::DataType::UInt32 => $m!($crate::types::UInt32Type),
            $crate::DataType::UInt64 => $m!($crate::types::UInt64Type),
            $crate::DataType::Float16 => $m!($crate::types::Float16Type),
            $crate::DataType::Float32 => $m!($crate::types::Float32Type),
            $crate::DataType::Float64 => $m!($crate::types::Float64Type),
            $crate::DataType::Date32 => $m!($crate::types::Date32Type),
            $crate::DataType::Date64 => $m!($crate::types::Date64Type),
            $crate::DataType::Timestamp(_) => $m!($crate::types::TimestampType),
            $crate::DataType::Duration => $m!($crate::types::DurationType),
            $crate::DataType::Decimal128(..) => $m!($crate::types::Decimal128Type),
            $crate::DataType::Decimal256(..) => $m!($crate::types::Decimal256Type),
            $($p => $other,)*
        }
    };
}

/// A column of any kind. Source: the text's calls.
pub trait Array: Send + Sync {
    fn as_any(&self) -> &dyn Any;
    fn data_type(&self) -> &DataType;
    fn len(&self) -> usize;
    fn nulls(&self) -> Option<&NullBuffer>;

    /// Asked by the generic column only, which 01 leaves behind.
    fn slice(&self, _offset: usize, _rows: usize) -> ArrayRef {
        unimplemented!("the generic column is left behind")
    }

    /// Asked by the text's `size` only, which 01 leaves behind.
    fn get_array_memory_size(&self) -> usize {
        unimplemented!("`size` is left behind")
    }
}

/// A shared column: a clone shares it. Source: the text.
pub type ArrayRef = Arc<dyn Array>;

/// Only so that the text's derived `Debug` compiles; nothing is compared by it.
impl fmt::Debug for dyn Array {
    fn fmt(&self, f: &mut fmt::Formatter<'_>) -> fmt::Result {
        write!(f, "{:?}[{}]", self.data_type(), self.len())
    }
}

/// A column of fixed-width values. Source: the Format, Fixed-size Primitive Layout.
pub struct PrimitiveArray<T: ArrowPrimitiveType> {
    data_type: DataType,
    values: ScalarBuffer<T::Native>,
    nulls: Option<NullBuffer>,
}

/// Rule of both column forms: validity, where there is one, covers exactly the rows.
/// Source: the Format, Validity bitmaps.
fn covers(nulls: Option<&NullBuffer>, rows: usize) -> bool {
    nulls.is_none_or(|n| n.len() == rows)
}

impl<T: ArrowPrimitiveType> PrimitiveArray<T> {
    pub fn try_new(values: ScalarBuffer<T::Native>, nulls: Option<NullBuffer>) -> Result<Self, ArrowError> {
        if !covers(nulls.as_ref(), values.len()) {
            let what = "validity and values differ in rows".to_string();
            return Err(ArrowError::InvalidArgumentError(what));
        }
        Ok(Self { data_type: T::DATA_TYPE, values, nulls })
    }

    /// The same values under the column's own type. Source: the text's comment
    /// ("preserve timezone / precision+scale").
    pub fn with_data_type(self, data_type: DataType) -> Self {
        Self { data_type, ..self }
    }

    pub fn values(&self) -> &ScalarBuffer<T::Native> {
        &self.values
    }
}

impl<T: ArrowPrimitiveType> Array for PrimitiveArray<T> {
    fn as_any(&self) -> &dyn Any {
        self
    }
    fn data_type(&self) -> &DataType {
        &self.data_type
    }
    fn len(&self) -> usize {
        self.values.len()
    }
    fn nulls(&self) -> Option<&NullBuffer> {
        self.nulls.as_ref()
    }
}

/// A column of views and the list of buffers that long views point into.
/// Source: the Format, Variable-size Binary View Layout.
pub struct GenericByteViewArray<B: types::ByteViewType> {
    data_type: DataType,
    views: ScalarBuffer<u128>,
    buffers: Arc<[Buffer]>,
    nulls: Option<NullBuffer>,
    _kind: PhantomData<B>,
}

impl<B: types::ByteViewType> GenericByteViewArray<B> {
    /// # Safety
    /// Each long view lies in the buffer that it names, and validity covers the rows.
    pub unsafe fn new_unchecked(views: ScalarBuffer<u128>, buffers: Arc<[Buffer]>, nulls: Option<NullBuffer>) -> Self {
        debug_assert!(covers(nulls.as_ref(), views.len()));
        let data_type = B::DATA_TYPE;
        Self { data_type, views, buffers, nulls, _kind: PhantomData }
    }

    pub fn views(&self) -> &ScalarBuffer<u128> {
        &self.views
    }

    pub fn data_buffers(&self) -> &[Buffer] {
        &self.buffers
    }

    /// The sum of the lengths over 12 of all views, those of null rows too.
    /// Source: 01 ("Ideal is the sum of lengths over 12 .. null rows too").
    pub fn total_buffer_bytes_used(&self) -> usize {
        let lengths = self.views.iter().map(|view| *view as u32);
        lengths.map(|n| if n > MAX_INLINE_VIEW_LEN { n as usize } else { 0 }).sum()
    }
}

impl<B: types::ByteViewType> Array for GenericByteViewArray<B> {
    fn as_any(&self) -> &dyn Any {
        self
    }
    fn data_type(&self) -> &DataType {
        &self.data_type
    }
    fn len(&self) -> usize {
        self.views.len()
    }
    fn nulls(&self) -> Option<&NullBuffer> {
        self.nulls.as_ref()
    }
}

/// A column seen as the form that it has; a wrong form is a panic.
/// Source: the text's calls.
pub mod cast {
    use super::types::ByteViewType;
    use super::{ArrayRef, ArrowPrimitiveType, GenericByteViewArray, PrimitiveArray};

    pub trait AsArray {
        fn as_primitive<T: ArrowPrimitiveType>(&self) -> &PrimitiveArray<T>;
        fn as_byte_view<B: ByteViewType>(&self) -> &GenericByteViewArray<B>;
    }

    impl AsArray for ArrayRef {
        fn as_primitive<T: ArrowPrimitiveType>(&self) -> &PrimitiveArray<T> {
            self.as_any().downcast_ref().expect("a primitive column")
        }
        fn as_byte_view<B: ByteViewType>(&self) -> &GenericByteViewArray<B> {
            self.as_any().downcast_ref().expect("a view column")
        }
    }
}

/// A filter's rows. No value of this type exists, so no filter path can be entered.
/// Source: 01 leaves filters behind.
pub enum BooleanArray {}

impl BooleanArray {
    pub fn len(&self) -> usize {
        match *self {}
    }
    pub fn true_count(&self) -> usize {
        match *self {}
    }
}

/// Columns of one length and that length, which stands alone when there are no columns.
/// Source: the text (`new_unchecked`, `into_parts`); 01 allows 0 columns.
#[derive(Clone, Debug)]
pub struct RecordBatch {
    schema: SchemaRef,
    columns: Vec<ArrayRef>,
    rows: usize,
}

impl RecordBatch {
    /// # Safety
    /// Each column has the schema's type and `rows` rows.
    pub unsafe fn new_unchecked(schema: SchemaRef, columns: Vec<ArrayRef>, rows: usize) -> Self {
        Self { schema, columns, rows }
    }

    pub fn into_parts(self) -> (SchemaRef, Vec<ArrayRef>, usize) {
        (self.schema, self.columns, self.rows)
    }

    pub fn num_rows(&self) -> usize {
        self.rows
    }

    pub fn num_columns(&self) -> usize {
        self.columns.len()
    }

    pub fn schema_ref(&self) -> &SchemaRef {
        &self.schema
    }

    /// Asked by the text's `size` only, which 01 leaves behind.
    pub fn get_array_memory_size(&self) -> usize {
        unimplemented!("`size` is left behind")
    }
}
