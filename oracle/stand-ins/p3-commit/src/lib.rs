//! Stand-in for `p3-commit`: opening schemes, and the scheme that opens extension rows over one
//! that opens base rows.

use core::marker::PhantomData;

use p3_field::{ExtensionField, Field};
use p3_matrix::{Dimensions, Matrix};

/// Whatever encodes messages over `F`. Verifying encodes nothing.
pub trait Encoder<F> {}

/// A scheme that commits to matrices of `T` and opens their rows.
pub trait Mmcs<T: Send + Sync + Clone> {
    type ProverData<M>;
    type Commitment: Clone + core::fmt::Debug + PartialEq;
    type MultiProof: Clone + core::fmt::Debug;
    type Error: core::fmt::Debug;

    /// Opens rows. Only a writer opens, and ours is not built over this interface.
    #[allow(clippy::type_complexity)]
    fn open_multi_batch<M: Matrix<T>>(
        &self,
        _indices: &[usize],
        _prover_data: &Self::ProverData<M>,
    ) -> (Vec<Vec<Vec<T>>>, Self::MultiProof) {
        unimplemented!("verifying opens nothing")
    }

    /// Says yes exactly when each row is right at its index.
    ///
    /// # Errors
    ///
    /// When some row is not right, or a count or width is another than declared.
    fn verify_multi_batch(
        &self,
        commit: &Self::Commitment,
        dimensions: &[Dimensions],
        indices: &[usize],
        opened_values: &[Vec<&[T]>],
        proof: &Self::MultiProof,
    ) -> Result<(), Self::Error>;
}

impl<T: Send + Sync + Clone, S: Mmcs<T>> Mmcs<T> for &S {
    type ProverData<M> = S::ProverData<M>;
    type Commitment = S::Commitment;
    type MultiProof = S::MultiProof;
    type Error = S::Error;

    fn verify_multi_batch(
        &self,
        commit: &Self::Commitment,
        dimensions: &[Dimensions],
        indices: &[usize],
        opened_values: &[Vec<&[T]>],
        proof: &Self::MultiProof,
    ) -> Result<(), Self::Error> {
        (**self).verify_multi_batch(commit, dimensions, indices, opened_values, proof)
    }
}

/// Opens rows of coefficients, D times as wide, by the scheme below.
#[derive(Clone, Debug)]
pub struct ExtensionMmcs<F, EF, S> {
    below: S,
    _fields: PhantomData<(F, EF)>,
}

impl<F, EF, S> ExtensionMmcs<F, EF, S> {
    pub const fn new(below: S) -> Self {
        Self {
            below,
            _fields: PhantomData,
        }
    }
}

impl<F: Field, EF: ExtensionField<F>, S: Mmcs<F>> Mmcs<EF> for ExtensionMmcs<F, EF, S> {
    type ProverData<M> = S::ProverData<M>;
    type Commitment = S::Commitment;
    type MultiProof = S::MultiProof;
    type Error = S::Error;

    fn verify_multi_batch(
        &self,
        commit: &Self::Commitment,
        dimensions: &[Dimensions],
        indices: &[usize],
        opened_values: &[Vec<&[EF]>],
        proof: &Self::MultiProof,
    ) -> Result<(), Self::Error> {
        let wide: Vec<Dimensions> = dimensions
            .iter()
            .map(|d| Dimensions {
                width: d.width * EF::DEGREE,
                height: d.height,
            })
            .collect();
        let flat: Vec<Vec<Vec<F>>> = opened_values
            .iter()
            .map(|rows| rows.iter().map(|row| coefficients(row)).collect())
            .collect();
        let borrowed: Vec<Vec<&[F]>> = flat
            .iter()
            .map(|rows| rows.iter().map(Vec::as_slice).collect())
            .collect();
        self.below
            .verify_multi_batch(commit, &wide, indices, &borrowed, proof)
    }
}

/// A row's coefficients, element by element.
fn coefficients<F: Field, EF: ExtensionField<F>>(row: &[EF]) -> Vec<F> {
    row.iter()
        .flat_map(|element| element.coefficients())
        .collect()
}
