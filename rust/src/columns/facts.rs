// SPDX-License-Identifier: MIT OR Apache-2.0
//! What occurs in the rows of a column.
use super::{column::geometry, Column, Status};
use crate::check::{bounds, Bounds, WkbType};
use crate::rt::{AllocError, TryVec, Vec};

/// What occurs in the rows of a column. Of rows that are no geometries only the numbers are kept.
#[derive(Clone, Debug, Default, PartialEq, Eq, Hash)]
pub struct Facts {
    /// How many rows there are.
    pub rows: usize,
    /// How many of them are geometries.
    pub accepted: usize,
    /// How many are null.
    pub null_rows: usize,
    /// How many are rejected for their bytes. The rest has bad offsets, and isn't counted here.
    pub refused: usize,
    /// How many rows are of each type that occurs, by their ISO codes.
    pub types: Vec<(WkbType, usize)>,
    /// The bounds of all rows together.
    pub bounds: Bounds,
    /// The SRIDs that occur, in order. Those of members don't count.
    pub srids: Vec<u32>,
    /// How many geometries have no SRID.
    pub without_srid: usize,
}

impl Facts {
    /// Adds the facts of other rows, as of another part of a column that threads have shared. After an error the facts
    /// are to be thrown away.
    pub fn add(&mut self, other: &Facts) -> Result<(), AllocError> {
        self.rows += other.rows;
        self.accepted += other.accepted;
        self.null_rows += other.null_rows;
        self.refused += other.refused;
        self.without_srid += other.without_srid;
        self.bounds = self.bounds.union(other.bounds);
        other.types.iter().try_for_each(|(it, rows)| self.add_type(*it, *rows))?;
        other.srids.iter().try_for_each(|it| self.add_srid(*it))?;
        self.settle();
        Ok(())
    }

    fn add_type(&mut self, wkb_type: WkbType, rows: usize) -> Result<(), AllocError> {
        match self.types.iter_mut().find(|it| it.0 == wkb_type) {
            Some(it) => it.1 += rows,
            None => self.types.try_push((wkb_type, rows))?,
        }
        Ok(())
    }

    /// Adds an SRID behind the others. Where there is no room, they are put in order first, and room is made for as
    /// many as these are: so that the time for each doesn't grow with their number.
    fn add_srid(&mut self, srid: u32) -> Result<(), AllocError> {
        if self.srids.last() != Some(&srid) {
            if self.srids.len() == self.srids.capacity() {
                self.settle();
                self.srids.try_reserve(self.srids.len() + 1).map_err(|_| AllocError)?;
            }
            self.srids.push_reserved(srid);
        }
        Ok(())
    }

    /// Puts what occurs in order.
    fn settle(&mut self) {
        self.types.sort_unstable_by_key(|it| it.0.iso_code());
        self.srids.sort_unstable();
        self.srids.dedup();
    }
}

impl Column<'_> {
    /// Finds what occurs in the rows. It allocates only the lists of types and SRIDs.
    pub fn facts(&self) -> Result<Facts, AllocError> {
        let mut facts = Facts { rows: self.len(), ..Facts::default() };
        for row in self.rows() {
            match row.and_then(geometry) {
                Ok((bytes, found)) => {
                    facts.accepted += 1;
                    facts.bounds = facts.bounds.union(bounds(bytes).unwrap_or_default());
                    facts.add_type(found.wkb_type, 1)?;
                    match found.srid {
                        Some(srid) => facts.add_srid(srid)?,
                        None => facts.without_srid += 1,
                    }
                }
                Err(Status::NULL_ROW) => facts.null_rows += 1,
                Err(status) => facts.refused += usize::from(status.is_refusal()),
            }
        }
        facts.settle();
        Ok(facts)
    }
}
