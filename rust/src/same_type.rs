//! Casts in generic calls to the types for which the library has functions.

#![allow(unsafe_code)]

use core::any::TypeId;
use core::marker::PhantomData;
use core::{mem, ptr};

/// Casts a slice, if `A` is the type `B`.
pub fn slice_as<A, B: 'static>(slice: &[A]) -> Option<&[B]> {
    // SAFETY: the cast is reached only if both element types are the same.
    is_same::<A, B>().then(|| unsafe { &*(ptr::from_ref(slice) as *const [B]) })
}

/// Casts a mutable slice, if `A` is the type `B`.
pub fn slice_as_mut<A, B: 'static>(slice: &mut [A]) -> Option<&mut [B]> {
    // SAFETY: the cast is reached only if both element types are the same.
    is_same::<A, B>().then(|| unsafe { &mut *(ptr::from_mut(slice) as *mut [B]) })
}

/// Casts a block, if `A` is the type `B`.
pub fn block_as<A, B: 'static>(block: &[A; 1024]) -> Option<&[B; 1024]> {
    slice_as(block)?.first_chunk()
}

/// Casts a mutable block, if `A` is the type `B`.
pub fn block_as_mut<A, B: 'static>(block: &mut [A; 1024]) -> Option<&mut [B; 1024]> {
    slice_as_mut(block)?.first_chunk_mut()
}

fn is_same<A, B: 'static>() -> bool {
    id_of::<A>() == TypeId::of::<B>()
}

/// Returns the id of a type that need not be `'static`. Types that differ in lifetimes only have the same id. No other type has the
/// id of a type without lifetimes.
fn id_of<A>() -> TypeId {
    trait Named {
        fn id(&self) -> TypeId
        where
            Self: 'static;
    }

    impl<A> Named for PhantomData<A> {
        fn id(&self) -> TypeId
        where
            Self: 'static,
        {
            TypeId::of::<A>()
        }
    }

    let named: &dyn Named = &PhantomData::<A>;
    // SAFETY: the two types differ in a lifetime only, and `id` reads no data.
    let named = unsafe { mem::transmute::<&dyn Named, &(dyn Named + 'static)>(named) };
    named.id()
}
