//! The kinds of columns, as numbers and as types.

/// The kinds of columns, with their numbers.
#[derive(Clone, Copy, PartialEq, Eq, Hash, Debug)]
#[repr(u32)]
#[rustfmt::skip]
#[allow(missing_docs)] // the names are the whole of what there is to say
pub enum Kind {
    Int8 = 1, Int16, Int32, Int64, UInt8, UInt16, UInt32, UInt64, Float16, Float32,
    Float64, Date32, Date64, Timestamp, Duration, Decimal128, Decimal256, Utf8View, BinaryView,
}

/// Every kind, by its number less 1.
#[rustfmt::skip]
const KINDS: [Kind; 19] = [
    Kind::Int8, Kind::Int16, Kind::Int32, Kind::Int64, Kind::UInt8, Kind::UInt16, Kind::UInt32, Kind::UInt64, Kind::Float16, Kind::Float32,
    Kind::Float64, Kind::Date32, Kind::Date64, Kind::Timestamp, Kind::Duration, Kind::Decimal128, Kind::Decimal256, Kind::Utf8View, Kind::BinaryView,
];

impl Kind {
    /// The kind of a number, for 1 to 19.
    pub fn of(number: u32) -> Option<Kind> {
        KINDS.into_iter().find(|kind| kind.number() == number)
    }

    /// Its number.
    pub fn number(self) -> u32 {
        self as u32
    }

    /// Bytes of one row.
    pub fn width(self) -> usize {
        match self {
            Kind::Int8 | Kind::UInt8 => 1,
            Kind::Int16 | Kind::UInt16 | Kind::Float16 => 2,
            Kind::Int32 | Kind::UInt32 | Kind::Float32 | Kind::Date32 => 4,
            Kind::Int64 | Kind::UInt64 | Kind::Float64 | Kind::Date64 | Kind::Timestamp | Kind::Duration => 8,
            Kind::Decimal128 | Kind::Utf8View | Kind::BinaryView => 16,
            Kind::Decimal256 => 32,
        }
    }

    /// A column of views.
    pub fn is_view(self) -> bool {
        matches!(self, Kind::Utf8View | Kind::BinaryView)
    }
}

mod sealed {
    /// No other crate adds a kind.
    pub trait Sealed {}
}

/// A kind whose rows are plain values: [`kinds`] has one type for each.
pub trait Primitive: sealed::Sealed {
    /// The kind.
    const KIND: Kind;
    /// A row's value in Rust.
    type Value: Copy + PartialEq + std::fmt::Debug;
    /// The value's bytes, little-endian.
    type Bytes: AsRef<[u8]> + for<'a> TryFrom<&'a [u8]>;
    /// The bytes of a value.
    fn bytes(value: Self::Value) -> Self::Bytes;
    /// The value of bytes.
    fn value(bytes: Self::Bytes) -> Self::Value;
}

/// A kind whose rows are views of bytes.
pub trait View: sealed::Sealed {
    /// The kind.
    const KIND: Kind;
    /// What a row is in Rust: `str` or bytes.
    type Item: ?Sized;
    /// The bytes of a row.
    fn bytes(item: &Self::Item) -> &[u8];
}

/// One type for each kind.
pub mod kinds {
    use super::{Kind, Primitive, View, sealed::Sealed};

    macro_rules! number {
        ($($name:ident $value:ty, $width:literal, $doc:literal;)*) => {$(
            #[doc = $doc]
            #[derive(Clone, Copy, PartialEq, Eq, Debug)]
            pub enum $name {}
            impl Sealed for $name {}
            impl Primitive for $name {
                const KIND: Kind = Kind::$name;
                type Value = $value;
                type Bytes = [u8; $width];
                fn bytes(value: $value) -> [u8; $width] {
                    value.to_le_bytes()
                }
                fn value(bytes: [u8; $width]) -> $value {
                    <$value>::from_le_bytes(bytes)
                }
            }
        )*};
    }

    number! {
        Int8 i8, 1, "`i8` a row.";
        Int16 i16, 2, "`i16` a row.";
        Int32 i32, 4, "`i32` a row.";
        Int64 i64, 8, "`i64` a row.";
        UInt8 u8, 1, "`u8` a row.";
        UInt16 u16, 2, "`u16` a row.";
        UInt32 u32, 4, "`u32` a row.";
        UInt64 u64, 8, "`u64` a row.";
        Float16 u16, 2, "The 16 bits of a half-precision number a row, as `u16`.";
        Float32 f32, 4, "`f32` a row.";
        Float64 f64, 8, "`f64` a row.";
        Date32 i32, 4, "Days since 1970 a row, `i32`.";
        Date64 i64, 8, "Milliseconds since 1970 a row, `i64`.";
        Timestamp i64, 8, "A point in time a row, `i64` in the user's unit.";
        Duration i64, 8, "A length of time a row, `i64` in the user's unit.";
        Decimal128 i128, 16, "The unscaled `i128` of a decimal a row.";
    }

    /// The 32 bytes of a decimal's unscaled number a row, little-endian: Rust has no integer of 256 bits.
    #[derive(Clone, Copy, PartialEq, Eq, Debug)]
    pub enum Decimal256 {}
    impl Sealed for Decimal256 {}
    impl Primitive for Decimal256 {
        const KIND: Kind = Kind::Decimal256;
        type Value = [u8; 32];
        type Bytes = [u8; 32];
        fn bytes(value: [u8; 32]) -> [u8; 32] {
            value
        }
        fn value(bytes: [u8; 32]) -> [u8; 32] {
            bytes
        }
    }

    /// A string a row.
    #[derive(Clone, Copy, PartialEq, Eq, Debug)]
    pub enum Utf8View {}
    impl Sealed for Utf8View {}
    impl View for Utf8View {
        const KIND: Kind = Kind::Utf8View;
        type Item = str;
        fn bytes(item: &str) -> &[u8] {
            item.as_bytes()
        }
    }

    /// Bytes of any number a row.
    #[derive(Clone, Copy, PartialEq, Eq, Debug)]
    pub enum BinaryView {}
    impl Sealed for BinaryView {}
    impl View for BinaryView {
        const KIND: Kind = Kind::BinaryView;
        type Item = [u8];
        fn bytes(item: &[u8]) -> &[u8] {
            item
        }
    }
}
