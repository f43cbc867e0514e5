//! Stand-in for `arrow_schema`: the error, the types and the schema that the text names.

use std::sync::Arc;

/// The one error that the text makes.
/// Source: the text. Error texts are left out of every comparison (01).
#[derive(Debug)]
pub enum ArrowError {
    InvalidArgumentError(String),
}

/// The 19 kinds of 01's table, in its order.
/// A timestamp carries its zone and a decimal its precision and scale, because
/// the text keeps them (`with_data_type`). Units of time change no byte and are absent.
/// Source: 01 for the list, the text for what is kept.
#[derive(Clone, Debug, PartialEq)]
pub enum DataType {
    Int8,
    Int16,
    Int32,
    Int64,
    UInt8,
    UInt16,
    UInt32,
    UInt64,
    Float16,
    Float32,
    Float64,
    Date32,
    Date64,
    Timestamp(Option<Arc<str>>),
    Duration,
    Decimal128(u8, i8),
    Decimal256(u8, i8),
    Utf8View,
    BinaryView,
}

impl DataType {
    /// Every kind with a width of its own is primitive; the two view kinds are not.
    /// Source: 01's table, 1 to 17 and 18 to 19. Only the filter paths ask further.
    pub fn is_primitive(&self) -> bool {
        !matches!(self, DataType::Utf8View | DataType::BinaryView)
    }
}

/// A column's type. Names and nullability are not read by the text.
/// Source: the text.
#[derive(Debug)]
pub struct Field {
    data_type: DataType,
}

impl Field {
    pub fn new(data_type: DataType) -> Self {
        Self { data_type }
    }

    pub fn data_type(&self) -> &DataType {
        &self.data_type
    }
}

/// The columns in order. Source: the text.
#[derive(Debug)]
pub struct Schema {
    fields: Vec<Field>,
}

impl Schema {
    pub fn new(fields: Vec<Field>) -> Self {
        Self { fields }
    }

    pub fn fields(&self) -> &[Field] {
        &self.fields
    }

    pub fn field(&self, i: usize) -> &Field {
        &self.fields[i]
    }
}

/// A shared schema. Source: the text (`Arc::clone(&self.schema)`).
pub type SchemaRef = Arc<Schema>;
