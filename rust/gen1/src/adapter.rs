//! Items that the generated sources use and that Rust lacks, or has in another form (docs/PLAIN.md, "The adapter").
//!
//! The sources are written for the std and the crates of the kit that proves them. Nearly all of their items have the names and the
//! meaning of Rust's. Those that differ are here, each with the reason.

pub mod alloc {
    //! Memory: in the kit each list is passed its allocator, and each growth may return that memory is exhausted.
    use core::fmt;

    /// There was not enough memory. Rust's own `AllocError` is not stable.
    #[derive(Clone, Copy, Debug, PartialEq, Eq)]
    pub struct AllocError;

    impl fmt::Display for AllocError {
        fn fmt(&self, f: &mut fmt::Formatter<'_>) -> fmt::Result {
            f.write_str("there is not enough memory")
        }
    }

    impl core::error::Error for AllocError {}

    /// Where memory comes from. Rust's own trait is not stable; here it is always the program's allocator.
    pub trait Allocator: Copy + Default {}

    /// The program's allocator.
    #[derive(Clone, Copy, Debug, Default, PartialEq, Eq)]
    pub struct Global;

    impl Allocator for Global {}
}

pub mod bitflags {
    //! Sets of bits. The kit's crate has the form of bitflags 2 that adds to a struct. Debian 12 has bitflags 1, which lacks that
    //! form, so the calls that the sources make are defined here.
    use core::ops::{BitAnd, BitOr, Not};

    /// A flag with its name.
    #[derive(Clone, Copy, Debug)]
    pub struct Flag<B> {
        name: &'static str,
        value: B,
    }

    impl<B> Flag<B> {
        /// A flag with a name.
        pub const fn new(name: &'static str, value: B) -> Self {
            Flag { name, value }
        }

        /// Its name.
        pub const fn name(&self) -> &'static str {
            self.name
        }

        /// The set with this flag only.
        pub const fn value(&self) -> &B {
            &self.value
        }
    }

    /// A set of bits, which may include bits that have no name.
    pub trait Flags: Copy + 'static {
        /// The number that holds the bits.
        type Bits: Copy
            + Default
            + PartialEq
            + BitAnd<Output = Self::Bits>
            + BitOr<Output = Self::Bits>
            + Not<Output = Self::Bits>;

        /// All flags that have a name.
        fn flags<'a>() -> &'a [Flag<Self>];

        /// The bits.
        fn bits(&self) -> Self::Bits;

        /// The set of these bits, whether they have names or not.
        fn from_bits_retain(bits: Self::Bits) -> Self;

        /// Whether all bits of another set are in this one.
        fn contains(&self, other: Self) -> bool {
            self.bits() & other.bits() == other.bits()
        }

        /// Whether the two sets have a bit in common.
        fn intersects(&self, other: Self) -> bool {
            self.bits() & other.bits() != Self::Bits::default()
        }

        /// Adds the bits of another set.
        fn insert(&mut self, other: Self) {
            *self = self.union(other);
        }

        /// Removes the bits of another set.
        fn remove(&mut self, other: Self) {
            *self = Self::from_bits_retain(self.bits() & !other.bits());
        }

        /// The bits of both sets.
        #[must_use]
        fn union(self, other: Self) -> Self {
            Self::from_bits_retain(self.bits() | other.bits())
        }
    }

    /// Writes the constants of a set of bits, the list of them, and `|`.
    macro_rules! bitflag_items {
    (impl $set:ident: $bits:ty { $($(#[$meta:meta])* const $flag:ident = $value:expr;)* }) => {
        impl $set {
            $($(#[$meta])* pub const $flag: $set = $set($value);)*

            const FLAGS: &'static [$crate::adapter::bitflags::Flag<$set>] =
                &[$($crate::adapter::bitflags::Flag::new(stringify!($flag), $set::$flag)),*];
        }

        impl core::ops::BitOr for $set {
            type Output = $set;

            fn bitor(self, other: $set) -> $set {
                $crate::adapter::bitflags::Flags::union(self, other)
            }
        }
    };
}

    pub(crate) use bitflag_items;
}

pub mod io {
    //! Traits for reading and writing bytes, which Rust's std has and core lacks. With the feature `std` each of std's readers and
    //! writers implements them.
    use super::alloc::{AllocError, Allocator};
    use super::prelude::Vec;

    /// A read or a write that failed.
    #[derive(Clone, Copy, Debug, PartialEq, Eq)]
    pub struct Error;

    /// A source of bytes.
    pub trait Read {
        /// Reads into a prefix of `bytes`, and returns its length: 0 at the end.
        ///
        /// # Errors
        ///
        /// If the reader failed.
        fn read(&mut self, bytes: &mut [u8]) -> Result<usize, Error>;
    }

    /// A destination for bytes.
    pub trait Write {
        /// Writes a prefix of `bytes`, and returns its length.
        ///
        /// # Errors
        ///
        /// If the writer failed.
        fn write(&mut self, bytes: &[u8]) -> Result<usize, Error>;
    }

    impl<A: Allocator> Write for Vec<u8, A> {
        fn write(&mut self, bytes: &[u8]) -> Result<usize, Error> {
            match self.extend_from_slice(bytes) {
                Ok(()) => Ok(bytes.len()),
                Err(AllocError) => Err(Error),
            }
        }
    }

    #[cfg(feature = "std")]
    impl<T: std::io::Read> Read for T {
        fn read(&mut self, bytes: &mut [u8]) -> Result<usize, Error> {
            std::io::Read::read(self, bytes).map_err(|_| Error)
        }
    }

    #[cfg(feature = "std")]
    impl<T: std::io::Write> Write for T {
        fn write(&mut self, bytes: &[u8]) -> Result<usize, Error> {
            std::io::Write::write(self, bytes).map_err(|_| Error)
        }
    }
}

pub mod prelude {
    //! Lists and strings that are passed an allocator and return an error when memory runs out. Rust's own do neither without
    //! unstable features. Without the feature `alloc` each growth is refused, and no allocator is needed.
    use super::alloc::{AllocError, Allocator, Global};
    use core::fmt;
    use core::ops::Deref;

    /// A list that grows.
    #[derive(Clone, Debug, Default, PartialEq, Eq)]
    pub struct Vec<T, A = Global> {
        #[cfg(feature = "alloc")]
        items: ::alloc::vec::Vec<T>,
        #[cfg(not(feature = "alloc"))]
        items: [T; 0],
        allocator: A,
    }

    impl<T, A: Allocator> Vec<T, A> {
        /// An empty list.
        pub fn new(allocator: A) -> Self {
            #[cfg(feature = "alloc")]
            let items = ::alloc::vec::Vec::new();
            #[cfg(not(feature = "alloc"))]
            let items = [];
            Vec { items, allocator }
        }

        /// Reserves room for `more` items.
        #[cfg(feature = "alloc")]
        fn reserve(&mut self, more: usize) -> Result<(), AllocError> {
            self.items.try_reserve(more).map_err(|_| AllocError)
        }

        /// Appends an item.
        ///
        /// # Errors
        ///
        /// `AllocError` if memory runs out; the list is unchanged.
        #[cfg(feature = "alloc")]
        pub fn push(&mut self, item: T) -> Result<(), AllocError> {
            self.reserve(1)?;
            self.items.push(item);
            Ok(())
        }

        /// Appends items.
        ///
        /// # Errors
        ///
        /// `AllocError` if memory runs out; the list is unchanged.
        #[cfg(feature = "alloc")]
        pub fn extend_from_slice(&mut self, items: &[T]) -> Result<(), AllocError>
        where
            T: Clone,
        {
            self.reserve(items.len())?;
            self.items.extend_from_slice(items);
            Ok(())
        }

        /// Appends items. Without an allocator there is room for none.
        ///
        /// # Errors
        ///
        /// `AllocError` unless `items` is empty.
        #[cfg(not(feature = "alloc"))]
        pub fn extend_from_slice(&mut self, items: &[T]) -> Result<(), AllocError> {
            if items.is_empty() {
                Ok(())
            } else {
                Err(AllocError)
            }
        }

        /// All items.
        pub fn as_slice(&self) -> &[T] {
            &self.items
        }
    }

    impl<T, A: Allocator> Deref for Vec<T, A> {
        type Target = [T];

        fn deref(&self) -> &[T] {
            self.as_slice()
        }
    }

    /// A string that grows.
    #[derive(Clone, Debug, Default, PartialEq, Eq)]
    pub struct String<A = Global> {
        bytes: Vec<u8, A>,
    }

    impl<A: Allocator> String<A> {
        /// The string with these bytes.
        ///
        /// # Errors
        ///
        /// If they aren't UTF-8.
        pub fn from_utf8(bytes: Vec<u8, A>) -> Result<Self, core::str::Utf8Error> {
            match core::str::from_utf8(&bytes) {
                Ok(_) => Ok(String { bytes }),
                Err(fault) => Err(fault),
            }
        }

        /// The text.
        pub fn as_str(&self) -> &str {
            core::str::from_utf8(&self.bytes).unwrap_or_default()
        }
    }

    impl<A: Allocator> Deref for String<A> {
        type Target = str;

        fn deref(&self) -> &str {
            self.as_str()
        }
    }

    impl<A: Allocator> fmt::Display for String<A> {
        fn fmt(&self, f: &mut fmt::Formatter<'_>) -> fmt::Result {
            f.write_str(self)
        }
    }
}

#[cfg(feature = "serde")]
mod serde_text {
    //! Types that serde writes and reads as a text or a number.

    /// Implements `Serialize` through `Display`, and `Deserialize` through `FromStr`.
    macro_rules! serde_as_text {
    ($($name:ident),*) => {$(
        impl serde::Serialize for $name {
            fn serialize<S: serde::Serializer>(&self, serializer: S) -> Result<S::Ok, S::Error> {
                serializer.collect_str(self)
            }
        }

        impl<'de> serde::Deserialize<'de> for $name {
            fn deserialize<D: serde::Deserializer<'de>>(deserializer: D) -> Result<Self, D::Error> {
                struct Text;

                impl serde::de::Visitor<'_> for Text {
                    type Value = $name;

                    fn expecting(&self, f: &mut core::fmt::Formatter<'_>) -> core::fmt::Result {
                        f.write_str(concat!("the text of a ", stringify!($name)))
                    }

                    fn visit_str<E: serde::de::Error>(self, text: &str) -> Result<$name, E> {
                        text.parse().map_err(E::custom)
                    }
                }

                deserializer.deserialize_str(Text)
            }
        }
    )*};
}

    /// Implements `Serialize` and `Deserialize` through the number of a value.
    macro_rules! serde_as_number {
    ($([$($generics:tt)*] $name:ty, $number:ty;)*) => {$(
        impl<$($generics)*> serde::Serialize for $name {
            fn serialize<S: serde::Serializer>(&self, serializer: S) -> Result<S::Ok, S::Error> {
                serde::Serialize::serialize(&<$number>::from(*self), serializer)
            }
        }

        impl<'de, $($generics)*> serde::Deserialize<'de> for $name {
            fn deserialize<D: serde::Deserializer<'de>>(deserializer: D) -> Result<Self, D::Error> {
                let number = <$number as serde::Deserialize>::deserialize(deserializer)?;
                number.try_into().map_err(serde::de::Error::custom)
            }
        }
    )*};
}

    pub(crate) use {serde_as_number, serde_as_text};
}
#[cfg(feature = "serde")]
pub(crate) use serde_text::{serde_as_number, serde_as_text};

/// Names that only proofs need.
pub mod marker {
    /// The type argument at calls of functions that are generic in a name that only proofs use. It is never constructed.
    #[derive(Clone, Copy, Debug)]
    pub struct Brand;
}
