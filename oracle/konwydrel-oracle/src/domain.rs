//! The two domains.

use p3_commit::Encoder;
use p3_dft::TwoAdicSubgroupDft;
use p3_field::{ExtensionField, Residue};
use p3_matrix::dense::RowMajorMatrix;
use p3_multilinear_util::point::Point;
use p3_whir::domain::{WhirDomain, WhirQueryPoint};

/// The crate's own domain of power-of-two subgroups.
#[derive(Clone, Copy, Debug)]
pub struct Subgroup;

impl<const P: u32> Encoder<Residue<P>> for Subgroup {}

impl<const P: u32> TwoAdicSubgroupDft<Residue<P>> for Subgroup {
    fn dft_algebra_batch<V>(&self, _matrix: RowMajorMatrix<V>) -> RowMajorMatrix<V> {
        unimplemented!("verifying encodes nothing")
    }
}

/// A list of 2^c distinct base elements, of which a log size uses the first. It answers
/// multilinear points, is stratified and rejects the capacity assumption.
#[derive(Clone, Debug)]
pub struct Listed<const P: u32>(pub Vec<Residue<P>>);

impl<const P: u32> Encoder<Residue<P>> for Listed<P> {}

impl<const P: u32, EF: ExtensionField<Residue<P>>> WhirDomain<Residue<P>, EF> for Listed<P> {
    fn protocol_id(&self) -> &'static [u8] {
        b"list"
    }

    fn stratified_queries(&self) -> bool {
        true
    }

    fn max_log_domain_size(&self) -> usize {
        self.0.len().trailing_zeros() as usize
    }

    fn encode_extension_batch_padded(
        &self,
        _message: RowMajorMatrix<EF>,
        _log_inv_rate: usize,
    ) -> RowMajorMatrix<EF> {
        unimplemented!("verifying encodes nothing")
    }

    fn query_point(
        &self,
        log_domain_size: usize,
        num_variables: usize,
        index: usize,
    ) -> WhirQueryPoint<Residue<P>> {
        assert!(num_variables <= log_domain_size && index < 1 << log_domain_size);
        let element = self.0[..1 << log_domain_size][index];
        WhirQueryPoint::Multilinear(Point::expand_from_univariate(element, num_variables))
    }
}
