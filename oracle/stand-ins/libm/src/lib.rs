//! Stand-in for `libm`: the one call that the crate makes.

/// The smallest whole number that is not below `x`.
pub fn ceil(x: f64) -> f64 {
    x.ceil()
}
