//! Which pairs a matrix stores, as bits: one side.

use crate::lend::ask;
use crate::{Csr32Matrix, Refusal, calls};

/// The columns of one word.
pub const ABTM_TOPOLOGY_WORD_BITS: usize = 64;

/// 64 columns of a row: bit k stands for column `base_col` + k.
#[derive(Clone, Copy, Debug, PartialEq, Eq)]
pub struct AbtmTopologyWord {
    word_index: u32,
    mask: u64,
}

impl AbtmTopologyWord {
    /// Any number and any bits are a word. The original has no constructor; document 01 asks for one.
    pub fn new(word_index: u32, mask: u64) -> Self {
        Self { word_index, mask }
    }

    pub fn word_index(self) -> u32 {
        calls::hybit_word_word_index(self.word_index, self.mask)
    }

    pub fn base_col(self) -> usize {
        calls::hybit_word_base_col(self.word_index, self.mask)
    }

    pub fn mask(self) -> u64 {
        calls::hybit_word_mask(self.word_index, self.mask)
    }

    pub fn popcount(self) -> usize {
        calls::hybit_word_popcount(self.word_index, self.mask)
    }

    pub fn contains_offset(self, offset: usize) -> bool {
        calls::hybit_word_contains_offset(self.word_index, self.mask, offset)
    }

    /// How many set bits are below `offset`, which is at most 64. Refused by 13.
    pub fn rank(self, offset: usize) -> Result<usize, Refusal> {
        let answer = ask!(hybit_word_rank(self.word_index, self.mask, offset))?;
        Ok(answer.value as usize)
    }

    /// The set bit with so many below it.
    pub fn select(self, ordinal: usize) -> Option<usize> {
        let answer = calls::hybit_word_select(self.word_index, self.mask, ordinal);
        answer.present.then_some(answer.value as usize)
    }
}

/// A row of one side, or a column as a row of the other.
///
/// The port's own calls on rows (`calls::hybit_row_contains` and so on) name a row by a whole topology and check it
/// whole at each question. Here the words of the row are walked, since the side was accepted when it was made, and
/// each word is asked of the port: a question costs at most one call for each word of the row.
#[derive(Clone, Copy, Debug)]
pub struct AbtmTopologyRow<'a> {
    ncols: usize,
    word_indices: &'a [u32],
    masks: &'a [u64],
}

impl<'a> AbtmTopologyRow<'a> {
    pub fn nonempty_words(self) -> usize {
        self.masks.len()
    }

    /// How many columns the row has.
    pub fn popcount(self) -> usize {
        self.words().map(AbtmTopologyWord::popcount).sum()
    }

    /// The words by rising number.
    pub fn words(self) -> impl Iterator<Item = AbtmTopologyWord> + 'a {
        let words = self.word_indices.iter().zip(self.masks);
        words.map(|(&word_index, &mask)| AbtmTopologyWord { word_index, mask })
    }

    /// No at and past the last column.
    pub fn contains(self, col: usize) -> bool {
        let (number, offset) = (col / ABTM_TOPOLOGY_WORD_BITS, col % ABTM_TOPOLOGY_WORD_BITS);
        let found = self
            .word_indices
            .binary_search_by_key(&number, |&word_index| word_index as usize);
        found.is_ok_and(|place| self.word(place).contains_offset(offset))
    }

    /// How many columns are below `col`, which is at most the number of columns. Refused by 13.
    pub fn rank(self, col: usize) -> Result<usize, Refusal> {
        if col > self.ncols {
            return Err(Refusal::out_of_range());
        }
        let (number, offset) = (col / ABTM_TOPOLOGY_WORD_BITS, col % ABTM_TOPOLOGY_WORD_BITS);
        let below = |&word_index: &u32| (word_index as usize) < number;
        let place = self.word_indices.partition_point(below);
        let mut rank = self.words().take(place).map(|word| word.popcount()).sum();
        if self.word_indices.get(place) == Some(&(number as u32)) {
            rank += self.word(place).rank(offset)?;
        }
        Ok(rank)
    }

    /// The column with so many below it.
    pub fn select(self, mut ordinal: usize) -> Option<usize> {
        for word in self.words() {
            match word.select(ordinal) {
                Some(offset) => return Some(word.base_col() + offset),
                None => ordinal -= word.popcount(),
            }
        }
        None
    }

    fn word(self, place: usize) -> AbtmTopologyWord {
        AbtmTopologyWord::new(self.word_indices[place], self.masks[place])
    }
}

/// Counts and bytes of one side.
#[derive(Clone, Copy, Debug, Default, PartialEq, Eq)]
pub struct AbtmTopologyStats {
    pub nrows: usize,
    pub ncols: usize,
    pub structural_nnz: usize,
    pub nonempty_words: usize,
    pub metadata_bytes: usize,
}

impl AbtmTopologyStats {
    pub fn average_word_nnz(self) -> f64 {
        ratio(self.structural_nnz as f64, self.nonempty_words as f64)
    }

    pub fn word_fill_ratio(self) -> f64 {
        self.average_word_nnz() / ABTM_TOPOLOGY_WORD_BITS as f64
    }

    pub fn metadata_bytes_per_nnz(self) -> f64 {
        ratio(self.metadata_bytes as f64, self.structural_nnz as f64)
    }
}

/// 0 of nothing.
pub(crate) fn ratio(part: f64, whole: f64) -> f64 {
    if whole == 0.0 { 0.0 } else { part / whole }
}

/// The stored pairs of a matrix by rows: of each row the words that have a bit, by rising number.
#[derive(Clone, Debug, PartialEq, Eq)]
pub struct AbtmTopology {
    nrows: usize,
    ncols: usize,
    row_word_ptr: Vec<u32>,
    word_indices: Vec<u32>,
    masks: Vec<u64>,
    structural_nnz: usize,
}

impl AbtmTopology {
    /// The pairs of a matrix; several entries of one pair are one. Nothing refuses this; the original's type is kept.
    pub fn from_csr32(csr: &Csr32Matrix) -> Result<Self, Refusal> {
        let mut side = Self::room(csr.nrows(), csr.ncols(), csr.nnz());
        let (ptr, indices, masks) = side.lists_mut();
        let built = ask!(hybit_topology_from_csr32(matrix csr, ptr, indices, masks))?;
        Ok(side.written(built.first as usize, built.second as usize))
    }

    /// A side that was stored by its lists. Refused by 1, 9.
    pub fn from_parts(
        nrows: usize,
        ncols: usize,
        row_word_ptr: Vec<u32>,
        word_indices: Vec<u32>,
        masks: Vec<u64>,
        structural_nnz: usize,
    ) -> Result<Self, Refusal> {
        let side = Self {
            nrows,
            ncols,
            row_word_ptr,
            word_indices,
            masks,
            structural_nnz,
        };
        side.validate()?;
        Ok(side)
    }

    /// Lists for so many words at most, before a call of the port writes them.
    pub(crate) fn room(nrows: usize, ncols: usize, words: usize) -> Self {
        Self {
            nrows,
            ncols,
            row_word_ptr: vec![0; nrows + 1],
            word_indices: vec![0; words],
            masks: vec![0; words],
            structural_nnz: 0,
        }
    }

    /// The same once it is written, with the counts that the call has answered.
    pub(crate) fn written(mut self, words: usize, pairs: usize) -> Self {
        self.word_indices.truncate(words);
        self.masks.truncate(words);
        self.structural_nnz = pairs;
        self
    }

    /// Pointers, numbers of words and masks, to be written.
    pub(crate) fn lists_mut(&mut self) -> (&mut [u32], &mut [u32], &mut [u64]) {
        (
            &mut self.row_word_ptr,
            &mut self.word_indices,
            &mut self.masks,
        )
    }

    pub fn nrows(&self) -> usize {
        self.nrows
    }

    pub fn ncols(&self) -> usize {
        self.ncols
    }

    /// How many pairs there are.
    pub fn structural_nnz(&self) -> usize {
        self.structural_nnz
    }

    pub fn nonempty_words(&self) -> usize {
        self.masks.len()
    }

    /// Where the words of each row begin, then the number of words.
    pub fn row_word_ptr(&self) -> &[u32] {
        &self.row_word_ptr
    }

    pub fn word_indices(&self) -> &[u32] {
        &self.word_indices
    }

    pub fn masks(&self) -> &[u64] {
        &self.masks
    }

    /// Refused by 13.
    pub fn row(&self, row: usize) -> Result<AbtmTopologyRow<'_>, Refusal> {
        if row >= self.nrows {
            return Err(Refusal::out_of_range());
        }
        let words = self.row_word_ptr[row] as usize..self.row_word_ptr[row + 1] as usize;
        Ok(AbtmTopologyRow {
            ncols: self.ncols,
            word_indices: &self.word_indices[words.clone()],
            masks: &self.masks[words],
        })
    }

    pub fn stats(&self) -> AbtmTopologyStats {
        let stats = ask!(hybit_topology_stats(side self))
            .expect("the lists of a side were accepted when it was made");
        AbtmTopologyStats {
            nrows: stats.nrows as usize,
            ncols: stats.ncols as usize,
            structural_nnz: stats.structural_nnz as usize,
            nonempty_words: stats.nonempty_words as usize,
            metadata_bytes: stats.metadata_bytes as usize,
        }
    }

    /// The port's check of all lists; every constructor has made it already.
    pub fn validate(&self) -> Result<(), Refusal> {
        ask!(hybit_topology_validate(side self))?;
        Ok(())
    }
}

/// A side from the pairs of two. Refused by 22 where rows or columns differ in number.
macro_rules! combined {
    ($($name:ident: $function:ident, $pairs:literal;)*) => {
        impl AbtmTopology {
            $(
                #[doc = concat!("The pairs of ", $pairs, ". Refused by 22.")]
                pub fn $name(&self, other: &Self) -> Result<Self, Refusal> {
                    let words = self.nonempty_words() + other.nonempty_words();
                    let mut side = Self::room(self.nrows, self.ncols, words);
                    let (ptr, indices, masks) = side.lists_mut();
                    let built = ask!($function(side self, side other, ptr, indices, masks))?;
                    Ok(side.written(built.first as usize, built.second as usize))
                }
            )*
        }
    };
}

combined! {
    intersection: hybit_topology_intersection, "both";
    union: hybit_topology_union, "either";
    and_not: hybit_topology_and_not, "this that the other has not";
    xor: hybit_topology_xor, "one but not of both";
}
