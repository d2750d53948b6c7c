//! A set of nodes as bits.

use crate::Refusal;
use crate::lend::{ask, mask_words};

/// Why a question about a mask is not refused.
const ACCEPTED: &str = "the words of a mask were accepted when it was made";

/// A set of nodes below `len`: node i is bit i mod 64 of word i / 64.
#[derive(Clone, Debug, PartialEq, Eq)]
pub struct DofMask {
    len: usize,
    words: Vec<u64>,
}

impl DofMask {
    /// The empty set. Refused by 1.
    pub fn new(len: usize) -> Result<Self, Refusal> {
        let mut words = mask_words(len);
        ask!(hybit_mask_new(len, &mut words))?;
        Ok(Self { len, words })
    }

    /// Refused by 1, 13.
    pub fn from_indices(len: usize, indices: &[usize]) -> Result<Self, Refusal> {
        let indices: Vec<u64> = indices.iter().map(|&index| index as u64).collect();
        let mut words = mask_words(len);
        ask!(hybit_mask_from_indices(len, &indices, &mut words))?;
        Ok(Self { len, words })
    }

    /// A mask that was stored by its words. Refused by 1, 11, 12.
    pub fn from_words(len: usize, words: Vec<u64>) -> Result<Self, Refusal> {
        let mask = Self { len, words };
        ask!(hybit_mask_check(mask mask))?;
        Ok(mask)
    }

    /// Words that a call of the port has written as a mask of this length.
    pub(crate) fn written(len: usize, words: Vec<u64>) -> Self {
        Self { len, words }
    }

    /// How many nodes there are to be in the set or not; `count_ones` says how many are.
    pub fn len(&self) -> usize {
        self.len
    }

    /// No node is in the set.
    pub fn is_empty(&self) -> bool {
        ask!(hybit_mask_is_empty(mask self)).expect(ACCEPTED).value == 1
    }

    pub fn words(&self) -> &[u64] {
        &self.words
    }

    /// Refused by 13.
    pub fn set(&mut self, index: usize, value: bool) -> Result<(), Refusal> {
        ask!(hybit_mask_set(
            self.len,
            &mut self.words,
            index as u64,
            value
        ))?;
        Ok(())
    }

    /// No at and past the length.
    pub fn contains(&self, index: usize) -> bool {
        let answer = ask!(hybit_mask_contains(mask self, index as u64));
        answer.expect(ACCEPTED).value == 1
    }

    pub fn count_ones(&self) -> usize {
        let answer = ask!(hybit_mask_count_ones(mask self));
        answer.expect(ACCEPTED).value as usize
    }

    /// Refused by 11.
    pub fn union_assign(&mut self, other: &Self) -> Result<(), Refusal> {
        ask!(hybit_mask_union_assign(self.len, &mut self.words, mask other))?;
        Ok(())
    }

    /// Refused by 11.
    pub fn intersect_assign(&mut self, other: &Self) -> Result<(), Refusal> {
        ask!(hybit_mask_intersect_assign(self.len, &mut self.words, mask other))?;
        Ok(())
    }

    /// Takes the nodes of `other` out. Refused by 11. The original keeps this to itself.
    pub fn and_not_assign(&mut self, other: &Self) -> Result<(), Refusal> {
        ask!(hybit_mask_and_not_assign(self.len, &mut self.words, mask other))?;
        Ok(())
    }

    /// Refused by 11.
    pub fn intersects(&self, other: &Self) -> Result<bool, Refusal> {
        let answer = ask!(hybit_mask_intersects(mask self, mask other))?;
        Ok(answer.value == 1)
    }

    /// The nodes of the set in rising order.
    pub fn indices(&self) -> Vec<usize> {
        let mut indices = vec![0; self.count_ones()];
        ask!(hybit_mask_indices(mask self, &mut indices)).expect(ACCEPTED);
        indices.into_iter().map(|index| index as usize).collect()
    }

    /// Adds bits to one word; those at or past the length, and a word that there is not, are left out. The original
    /// keeps this to itself.
    pub fn or_word(&mut self, word_index: usize, bits: u64) {
        ask!(hybit_mask_or_word(
            self.len,
            &mut self.words,
            word_index as u64,
            bits
        ))
        .expect(ACCEPTED);
    }
}
