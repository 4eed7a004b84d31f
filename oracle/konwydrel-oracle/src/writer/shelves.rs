//! Committing to rows and opening them, for the writer.

use crate::case::{Commitment, Digest, El, Opening, RowKind, Shelf};
use crate::hash::hash;
use crate::rng::Rng;

/// A committed matrix, with what is needed to open it.
pub struct Committed {
    pub commitment: Commitment,
    pub rows: Vec<Vec<El>>,
    kind: RowKind,
    /// The tree's levels, leaves first; none for kept tables.
    levels: Vec<Vec<Digest>>,
}

/// The numbers of a row, coefficient by coefficient.
fn numbers(row: &[El], kind: RowKind, degree: usize) -> Vec<u32> {
    let width = match kind {
        RowKind::Base => 1,
        RowKind::Extension => degree,
    };
    row.iter()
        .flat_map(|element| element.0[..width].to_vec())
        .collect()
}

/// Commits by a tree, or to a new shelf among others.
pub fn commit(
    rows: Vec<Vec<El>>,
    kind: RowKind,
    (modulus, degree): (u32, usize),
    shelves: Option<&mut Vec<Shelf>>,
    rng: &mut Rng,
) -> Committed {
    let flat: Vec<Vec<u32>> = rows.iter().map(|row| numbers(row, kind, degree)).collect();
    let Some(shelves) = shelves else {
        let levels = tree(&flat);
        let root = levels[levels.len() - 1][0];
        return Committed {
            commitment: Commitment::Digest(root),
            rows,
            kind,
            levels,
        };
    };
    while rng.one_in(4) {
        let (height, width) = (rng.place(3) + 1, rng.place(3) + 1);
        let values = (0..height * width)
            .map(|_| rng.below(u64::from(modulus)) as u32)
            .collect();
        shelves.push(Shelf {
            height,
            width,
            values,
        });
    }
    let number = shelves.len() as u32;
    let mut shelf = Shelf {
        height: flat.len(),
        width: flat[0].len(),
        values: flat.concat(),
    };
    if rng.one_in(8) {
        // A shelf may have more rows than are declared.
        shelf.height += 1;
        shelf.values.extend(vec![1; shelf.width]);
    }
    shelves.push(shelf);
    Committed {
        commitment: Commitment::Shelf(number),
        rows,
        kind,
        levels: Vec::new(),
    }
}

fn tree(rows: &[Vec<u32>]) -> Vec<Vec<Digest>> {
    let leaves = rows
        .iter()
        .map(|row| {
            let bytes: Vec<u8> = row.iter().flat_map(|v| v.to_le_bytes()).collect();
            hash(&bytes)
        })
        .collect();
    let mut levels: Vec<Vec<Digest>> = vec![leaves];
    while levels[levels.len() - 1].len() > 1 {
        let above = levels[levels.len() - 1]
            .chunks(2)
            .map(|pair| hash(&[pair[0], pair[1]].concat()))
            .collect();
        levels.push(above);
    }
    levels
}

impl Committed {
    /// The rows at the positions with their paths, flat.
    pub fn open(&self, positions: &[usize]) -> Opening {
        let elements = positions
            .iter()
            .flat_map(|&at| self.rows[at].clone())
            .collect();
        let mut paths = Vec::new();
        for &at in positions {
            let below_root = self.levels.len().saturating_sub(1);
            for (level, nodes) in self.levels.iter().take(below_root).enumerate() {
                paths.push(nodes[(at >> level) ^ 1]);
            }
        }
        Opening {
            kind: self.kind,
            count: positions.len() as u64,
            elements,
            paths,
        }
    }
}
