//! Stand-in for `p3-util`: the one call that the crate makes.

/// The base-two logarithm of a power of two.
///
/// # Panics
///
/// When `n` is not a power of two.
pub fn log2_strict_usize(n: usize) -> usize {
    assert!(n.is_power_of_two(), "not a power of two: {n}");
    n.trailing_zeros() as usize
}
