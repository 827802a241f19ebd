//! Stand-in for the part of zerocopy that the original names: zeroed vectors, and numbers seen as atomic numbers.
use std::sync::atomic::{AtomicU32, AtomicU64};

#[derive(Debug)]
pub struct Failed;

/// # Safety
/// All-zero bytes are a value of the type.
pub unsafe trait FromZeros: Sized {
    fn new_vec_zeroed(len: usize) -> Result<Vec<Self>, Failed> {
        let layout = std::alloc::Layout::array::<Self>(len).map_err(|_| Failed)?;
        if layout.size() == 0 {
            return Ok(Vec::new());
        }
        // SAFETY: the memory is as long as the vector, and zeros are values.
        unsafe {
            let memory = std::alloc::alloc_zeroed(layout);
            if memory.is_null() { Err(Failed) } else { Ok(Vec::from_raw_parts(memory.cast(), len, len)) }
        }
    }
}

/// # Safety
/// Any bytes are values.
pub unsafe trait FromBytes {
    fn mut_from_bytes(bytes: &mut [u8]) -> Result<&mut Self, Failed>;
}

/// # Safety
/// The type has no padding.
pub unsafe trait IntoBytes {
    fn as_mut_bytes(&mut self) -> &mut [u8];
}

macro_rules! zeros {
    ($($t:ty)*) => { $( unsafe impl FromZeros for $t {} )* };
}
zeros!(u8 u16 u32 u64 usize i8 i16 i32 i64 bool AtomicU32 AtomicU64);
unsafe impl<T: FromZeros, const N: usize> FromZeros for [T; N] {}

macro_rules! bytes {
    ($($t:ty)*) => { $(
        unsafe impl FromBytes for [$t] {
            fn mut_from_bytes(bytes: &mut [u8]) -> Result<&mut [$t], Failed> {
                // SAFETY: any bytes are numbers.
                match unsafe { bytes.align_to_mut::<$t>() } {
                    ([], numbers, []) => Ok(numbers),
                    _ => Err(Failed),
                }
            }
        }
        unsafe impl IntoBytes for [$t] {
            fn as_mut_bytes(&mut self) -> &mut [u8] {
                // SAFETY: numbers are bytes.
                unsafe { self.align_to_mut::<u8>().1 }
            }
        }
    )* };
}
bytes!(u32 u64 AtomicU32 AtomicU64);
