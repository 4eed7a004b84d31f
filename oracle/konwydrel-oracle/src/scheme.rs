//! The two opening schemes over base rows.

use p3_commit::Mmcs;
use p3_field::Residue;
use p3_matrix::Dimensions;

use crate::case::{Commitment, Digest, SchemeKind, Shelf};
use crate::hash::hash;

/// A scheme of either kind.
#[derive(Clone, Debug)]
pub struct Scheme(pub SchemeKind);

impl<const P: u32> Mmcs<Residue<P>> for Scheme {
    type ProverData<M> = M;
    type Commitment = Commitment;
    /// One path for each row.
    type MultiProof = Vec<Vec<Digest>>;
    type Error = &'static str;

    fn verify_multi_batch(
        &self,
        commit: &Commitment,
        dimensions: &[Dimensions],
        indices: &[usize],
        opened_values: &[Vec<&[Residue<P>]>],
        proof: &Self::MultiProof,
    ) -> Result<(), Self::Error> {
        let [Dimensions { width, height }] = *dimensions else {
            return Err("not one matrix");
        };
        if opened_values.len() != indices.len() || proof.len() != indices.len() {
            return Err("not one row and one path for each index");
        }
        for ((&index, rows), path) in indices.iter().zip(opened_values).zip(proof) {
            let [row] = rows[..] else {
                return Err("not one row");
            };
            let row: Vec<u32> = row.iter().map(|value| value.value()).collect();
            if row.len() != width || index >= height {
                return Err("a row of another width, or no such position");
            }
            let right = match (&self.0, commit) {
                (SchemeKind::Merkle, Commitment::Digest(root)) => {
                    merkle_right(root, height, index, &row, path)
                }
                (SchemeKind::Kept(shelves), Commitment::Shelf(number)) => {
                    kept_right(shelves, *number, index, &row, path)
                }
                _ => false,
            };
            if !right {
                return Err("a row is not right");
            }
        }
        Ok(())
    }
}

/// A leaf is H of the row's bytes, a node H(left ‖ right); a path has one sibling a level, leaf
/// upward, low index bit first.
fn merkle_right(root: &Digest, height: usize, index: usize, row: &[u32], path: &[Digest]) -> bool {
    let levels = height.trailing_zeros() as usize;
    if path.len() != levels {
        return false;
    }
    let bytes: Vec<u8> = row.iter().flat_map(|value| value.to_le_bytes()).collect();
    let mut node = hash(&bytes);
    for (level, sibling) in path.iter().enumerate() {
        node = if index >> level & 1 == 0 {
            hash(&[node, *sibling].concat())
        } else {
            hash(&[*sibling, node].concat())
        };
    }
    node == *root
}

/// The row of that shelf's matrix; the path is empty.
fn kept_right(shelves: &[Shelf], number: u32, index: usize, row: &[u32], path: &[Digest]) -> bool {
    let Some(shelf) = shelves.get(number as usize) else {
        return false;
    };
    path.is_empty()
        && index < shelf.height
        && row == &shelf.values[index * shelf.width..(index + 1) * shelf.width]
}
