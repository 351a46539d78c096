//! What calls write.

use crate::word::Word;

/// What a call writes to so many elements: all of them, so that it makes no difference what they held before.
pub fn written<E: Word>(count: usize, call: impl Fn(&mut [E])) -> Vec<E> {
    let [over_zeros, over_ones] = [E::zero(), E::max_value()].map(|held| {
        let mut output = vec![held; count];
        call(&mut output);
        output
    });
    assert!(over_zeros == over_ones, "a call left an element as it was");
    over_zeros
}

/// What a call writes to an array.
pub fn written_array<E: Word, const N: usize>(call: impl Fn(&mut [E; N])) -> Vec<E> {
    written(N, |output| call(output.try_into().expect("N elements")))
}
