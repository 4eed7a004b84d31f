//! Stand-in for `p3-dft`: the name of the subgroup domain's transform.

use p3_commit::Encoder;
use p3_field::TwoAdicField;
use p3_matrix::dense::RowMajorMatrix;

/// A transform over the power-of-two subgroups of `F`.
pub trait TwoAdicSubgroupDft<F: TwoAdicField>: Encoder<F> {
    /// The transform of each column. Verifying encodes nothing, so it is never called.
    fn dft_algebra_batch<V>(&self, matrix: RowMajorMatrix<V>) -> RowMajorMatrix<V>;
}
