//! Stand-in for `p3-matrix`: the shape of an opened matrix.
//!
//! Verifying reads nothing of a matrix but its shape; the rest is here so that the crate's
//! committing half has names to lean on.

/// Rows and columns of a committed matrix.
#[derive(Clone, Copy, Debug, PartialEq, Eq)]
pub struct Dimensions {
    pub width: usize,
    pub height: usize,
}

/// Anything that has rows of `T`.
pub trait Matrix<T> {}

pub mod dense {
    /// A matrix kept row by row.
    #[derive(Clone, Debug, PartialEq, Eq)]
    pub struct RowMajorMatrix<T> {
        pub values: Vec<T>,
        pub width: usize,
    }

    impl<T> super::Matrix<T> for RowMajorMatrix<T> {}
}
