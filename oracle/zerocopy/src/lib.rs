//! What acpi_tables 0.2.1 uses of zerocopy: the bytes of a value, and little-endian numbers of alignment 1.
#![no_std]

pub use zerocopy_derive::{FromBytes, Immutable, IntoBytes};

/// A type without padding, so that each of its bytes may be read.
///
/// # Safety
/// The type has no byte that is not part of a field.
pub unsafe trait IntoBytes {
    fn as_bytes(&self) -> &[u8]
    where
        Self: Sized,
    {
        // The type has no padding, and the slice lives as long as the value is borrowed.
        unsafe { core::slice::from_raw_parts(self as *const Self as *const u8, core::mem::size_of::<Self>()) }
    }
}

pub trait Immutable {}

pub trait FromBytes {}

macro_rules! plain {
    ($($t:ty),*) => { $(
        unsafe impl IntoBytes for $t {}
        impl Immutable for $t {}
        impl FromBytes for $t {}
    )* };
}

plain!(u8, u16, u32, u64);

pub mod byteorder {
    use core::marker::PhantomData;

    /// Least significant byte first.
    #[derive(Clone, Copy, Debug, Default)]
    pub struct LE;

    macro_rules! number {
        ($name:ident, $t:ty, $n:expr) => {
            #[repr(transparent)]
            #[derive(Clone, Copy, Debug, Default)]
            pub struct $name<O>([u8; $n], PhantomData<O>);

            impl From<$t> for $name<LE> {
                fn from(v: $t) -> Self {
                    $name(v.to_le_bytes(), PhantomData)
                }
            }

            impl From<$name<LE>> for $t {
                fn from(v: $name<LE>) -> $t {
                    <$t>::from_le_bytes(v.0)
                }
            }

            unsafe impl<O> crate::IntoBytes for $name<O> {}
            impl<O> crate::Immutable for $name<O> {}
            impl<O> crate::FromBytes for $name<O> {}
        };
    }

    number!(U32, u32, 4);
    number!(U64, u64, 8);
}
