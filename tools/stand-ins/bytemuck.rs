//! The few casts of bytemuck that the crate uses, and its derives.
//! With `--cfg real_bytemuck` the casts are those of bytemuck itself.
pub use bytemuck_derive::{Pod, Zeroable};

#[cfg(real_bytemuck)]
pub use real_bytemuck::*;

#[cfg(not(real_bytemuck))]
mod casts {
    /// All bits zero is a value.
    pub unsafe trait Zeroable: Sized {}

    /// Every pattern of bits is a value, and there is no padding.
    pub unsafe trait Pod: Zeroable + Copy + 'static {}

    macro_rules! plain {
        ($($t:ty),*) => { $(unsafe impl Zeroable for $t {} unsafe impl Pod for $t {})* };
    }
    plain!(u8, u16, u32, u64, i8, i16, i32, i64, f32, f64);
    unsafe impl<T: Zeroable, const N: usize> Zeroable for [T; N] {}
    unsafe impl<T: Pod, const N: usize> Pod for [T; N] {}

    /// The same bits as another type of the same size.
    pub fn cast<A: Pod, B: Pod>(a: A) -> B {
        assert_eq!(size_of::<A>(), size_of::<B>());
        unsafe { core::mem::transmute_copy(&a) }
    }

    pub fn bytes_of<T: Pod>(t: &T) -> &[u8] {
        unsafe { core::slice::from_raw_parts((t as *const T).cast(), size_of::<T>()) }
    }

    /// The same bytes as a slice of another type.
    pub fn cast_slice<A: Pod, B: Pod>(a: &[A]) -> &[B] {
        let bytes = size_of_val(a);
        assert_eq!(bytes % size_of::<B>(), 0);
        assert_eq!(a.as_ptr() as usize % align_of::<B>(), 0);
        unsafe { core::slice::from_raw_parts(a.as_ptr().cast(), bytes / size_of::<B>()) }
    }
}

#[cfg(not(real_bytemuck))]
pub use casts::*;
