//! Which pairs a matrix stores, by rows and by columns.

use crate::lend::ask;
use crate::topology::ratio;
use crate::{AbtmTopology, AbtmTopologyRow, Csr32Matrix, Refusal};

/// Counts and bytes of both sides.
#[derive(Clone, Copy, Debug, Default, PartialEq, Eq)]
pub struct AbtmDualTopologyStats {
    pub nrows: usize,
    pub ncols: usize,
    pub structural_nnz: usize,
    pub row_metadata_bytes: usize,
    pub column_metadata_bytes: usize,
}

impl AbtmDualTopologyStats {
    pub fn total_metadata_bytes(self) -> usize {
        self.row_metadata_bytes
            .saturating_add(self.column_metadata_bytes)
    }

    pub fn metadata_bytes_per_nnz(self) -> f64 {
        ratio(
            self.total_metadata_bytes() as f64,
            self.structural_nnz as f64,
        )
    }
}

/// The pairs of a matrix by rows, and its transpose: column j is row j of the second side.
#[derive(Clone, Debug, PartialEq, Eq)]
pub struct AbtmDualTopology {
    rows: AbtmTopology,
    columns: AbtmTopology,
}

impl AbtmDualTopology {
    /// Nothing refuses this; the original's type is kept.
    pub fn from_csr32(csr: &Csr32Matrix) -> Result<Self, Refusal> {
        let (nrows, ncols, entries) = (csr.nrows(), csr.ncols(), csr.nnz());
        let mut topology = Self::room(nrows, ncols, entries);
        let (rows, columns) = (topology.rows.lists_mut(), topology.columns.lists_mut());
        let built = ask!(hybit_dual_topology_from_csr32(
            matrix csr, rows.0, rows.1, rows.2, columns.0, columns.1, columns.2,
            &mut vec![0; ncols + 1],
            &mut vec![0; entries]
        ))?;
        Ok(topology.written(built.row_words, built.column_words, built.pairs))
    }

    /// A topology that was stored by its two sides. Refused by 9 where `columns` is not the transpose of `rows`.
    pub fn from_sides(rows: AbtmTopology, columns: AbtmTopology) -> Result<Self, Refusal> {
        let topology = Self { rows, columns };
        topology.validate()?;
        Ok(topology)
    }

    /// Lists for both sides, before a call of the port writes them.
    pub(crate) fn room(nrows: usize, ncols: usize, entries: usize) -> Self {
        Self {
            rows: AbtmTopology::room(nrows, ncols, entries),
            columns: AbtmTopology::room(ncols, nrows, entries),
        }
    }

    /// The same once it is written, with the counts that the call has answered.
    pub(crate) fn written(self, row_words: u64, column_words: u64, pairs: u64) -> Self {
        Self {
            rows: self.rows.written(row_words as usize, pairs as usize),
            columns: self.columns.written(column_words as usize, pairs as usize),
        }
    }

    pub(crate) fn sides_mut(&mut self) -> (&mut AbtmTopology, &mut AbtmTopology) {
        (&mut self.rows, &mut self.columns)
    }

    pub fn nrows(&self) -> usize {
        self.rows.nrows()
    }

    pub fn ncols(&self) -> usize {
        self.rows.ncols()
    }

    pub fn row_topology(&self) -> &AbtmTopology {
        &self.rows
    }

    pub fn column_topology(&self) -> &AbtmTopology {
        &self.columns
    }

    /// Refused by 13.
    pub fn row(&self, row: usize) -> Result<AbtmTopologyRow<'_>, Refusal> {
        self.rows.row(row)
    }

    /// Refused by 13.
    pub fn column(&self, col: usize) -> Result<AbtmTopologyRow<'_>, Refusal> {
        self.columns.row(col)
    }

    pub fn stats(&self) -> AbtmDualTopologyStats {
        let stats = ask!(hybit_dual_topology_stats(topology self))
            .expect("both sides were accepted when the topology was made");
        AbtmDualTopologyStats {
            nrows: stats.nrows as usize,
            ncols: stats.ncols as usize,
            structural_nnz: stats.structural_nnz as usize,
            row_metadata_bytes: stats.row_metadata_bytes as usize,
            column_metadata_bytes: stats.column_metadata_bytes as usize,
        }
    }

    /// The port's check of both sides and of the one against the other; every constructor has made it already.
    pub fn validate(&self) -> Result<(), Refusal> {
        ask!(hybit_dual_topology_validate(topology self))?;
        Ok(())
    }
}
