// Made from crates/p3_merkle_verifier/src/pruned_extraction.rt by tools/erase.

//! Extraction from two pruned openings under one cap: the first pair of queries whose checks differ. The check of a
//! query goes from its leaf up its restored path; two checks share the leaf or a level if they reach one node there.

use crate::erased::p3_merkle_core::collision::Collision;
use crate::erased::p3_merkle_core::error::MerkleTreeError;
use crate::erased::p3_merkle_core::pruning::{AuthPath, DistinctQueries};
use crate::erased::p3_merkle_verifier::checker::Checker;
use crate::erased::p3_merkle_verifier::openings::{OpeningRef, PrunedOpeningRef};
use crate::erased::p3_merkle_verifier::pruned_check::paths_of;
use crate::erased::p3_support::compress::PseudoCompressionFunction;
use crate::erased::p3_support::hasher::CryptographicHasher;
use crate::erased::p3_support::packed::PackedValue;
use crate::erased::p3_support::row_parts::RowSets;
use crate::fallible::AllocError;
use alloc::vec::Vec;

/// The queries of a pruned opening, each of which can be read as an opening of its own.
struct RestoredQueries<'a, T, X> {
    /// The rows of each query.
    pub sets: RowSets<'a, T>,
    /// The restored path of each query, with its index.
    pub paths: Vec<AuthPath<X>>,
    /// The distinct indices of the queries, with the first query of each.
    pub leaves: DistinctQueries,
}

impl<'a, T, W, const D: usize> RestoredQueries<'a, T, [W; D]> {
    /// Query `k` as an opening of its own, with its restored path.
    fn opening(&self, k: usize) -> OpeningRef<'_, T, [W; D]> {
        let path = &self.paths[k];
        OpeningRef { index: path.leaf_index, rows: self.sets.rows(k), siblings: &path.siblings }
    }

    /// The positions of the queries with the nearest indices below and above `index`: for any query one of the two
    /// stands between it and `index`. Both are one query if `index` is queried itself, or if all queries are on one
    /// side of it. There must be a query.
    fn neighbours(&self, index: usize) -> (usize, usize) {
        let queries = &self.leaves.first_queries;
        match self.leaves.indices.binary_search(&index) {
            Ok(slot) => (queries[slot], queries[slot]),
            Err(slot) => {
                let below = slot.saturating_sub(1);
                let above = slot.min(queries.len() - 1);
                (queries[below], queries[above])
            }
        }
    }
}

impl<
    'a,
    P: PackedValue,
    PW: PackedValue,
    H: CryptographicHasher<P, PW, D>,
    C: PseudoCompressionFunction<PW, N, D>,
    const N: usize,
    const D: usize,
> Checker<'a, P, PW, H, C, [[PW::Value; D]; N], N, D>
{
    /// Checks a pruned opening against the roots of a cap, with the errors of
    /// [`check_pruned_opening`](Self::check_pruned_opening), and returns its queries, each with its restored path.
    fn checked_queries<'b>(
        &self,
        roots: &[[PW::Value; D]],
        opening: PrunedOpeningRef<'b, P::Value, [PW::Value; D]>,
    ) -> Result<RestoredQueries<'b, P::Value, [PW::Value; D]>, MerkleTreeError> {
        let sets = opening.sets;
        let (restorable, leaf_layer) = self.check_restorable(opening)?;
        let layers = self.restored_layers(&restorable, leaf_layer)?;
        self.check_roots(&restorable, &layers[restorable.cap_layer], roots)?;
        Ok(RestoredQueries { sets, paths: paths_of(&restorable, &layers)?, leaves: restorable.leaves })
    }

    /// True only if the check of the opening `first` agrees with that of each query, wherever both share a place. Where
    /// it is false, each query has to be compared. Only the queries of the nearest indices below and above are looked
    /// at: the opening's path shares with one of them each node that it shares with any query, and the checks of the
    /// queries agree among themselves.
    fn agrees_with_all(
        &self,
        first: OpeningRef<'_, P::Value, [PW::Value; D]>,
        queries: &RestoredQueries<'_, P::Value, [PW::Value; D]>,
    ) -> bool {
        if queries.paths.is_empty() {
            return true;
        }
        let (below, above) = queries.neighbours(first.index);
        if !self.agree(first, queries.opening(below)) {
            return false;
        }
        above == below || self.agree(first, queries.opening(above))
    }

    /// The first query whose check differs from that of the opening `first`: its position among the queries, from 0,
    /// and both inputs at the last place that both checks share and at which they differ. `None` if there is no such
    /// query. `AllocError` if memory runs out.
    fn differing_query(
        &self,
        first: OpeningRef<'_, P::Value, [PW::Value; D]>,
        queries: &RestoredQueries<'_, P::Value, [PW::Value; D]>,
    ) -> Result<Option<(usize, Collision<P::Value, PW::Value, D>)>, AllocError> {
        if self.agrees_with_all(first, queries) {
            return Ok(None);
        }
        for query in 0..queries.paths.len() {
            let found = self.last_difference(first, queries.opening(query))?;
            if let Some(collision) = found {
                return Ok(Some((query, collision)));
            }
        }
        Ok(None)
    }

    /// The first pair of queries whose checks differ, in the order of `first`, then of `second`: the position of each
    /// query in its list, from 0, and both inputs at the last place that both checks share and at which they differ.
    /// `None` if there is no such pair. `AllocError` if memory runs out.
    fn differing_pair(
        &self,
        first: &RestoredQueries<'_, P::Value, [PW::Value; D]>,
        second: &RestoredQueries<'_, P::Value, [PW::Value; D]>,
    ) -> Result<Option<(usize, usize, Collision<P::Value, PW::Value, D>)>, AllocError> {
        for query in 0..first.paths.len() {
            let found = self.differing_query(first.opening(query), second)?;
            if let Some((other, collision)) = found {
                return Ok(Some((query, other, collision)));
            }
        }
        Ok(None)
    }

    /// Extracts a collision from two pruned openings under the roots of a cap: the first pair of queries, in the order
    /// of the first list, then of the second, whose checks differ at a place that both share. Returns the position of
    /// each query in its list, from 0, and both inputs at the last such place; or `None` if there is no such pair.
    ///
    /// Beside both verifications it takes the time of at most four checks for each query of the first opening, and of
    /// two for each query of the second.
    ///
    /// # Errors
    ///
    /// The first of these that applies, where `OutOfMemory` may come once the first indices are known to be in range:
    ///
    /// - the error of [`check_pruned_opening`](Self::check_pruned_opening) for the first opening;
    /// - that for the second opening.
    pub(crate) fn pruned_extraction(
        &self,
        roots: &[[PW::Value; D]],
        first: PrunedOpeningRef<'_, P::Value, [PW::Value; D]>,
        second: PrunedOpeningRef<'_, P::Value, [PW::Value; D]>,
    ) -> Result<Option<(usize, usize, Collision<P::Value, PW::Value, D>)>, MerkleTreeError> {
        let first = self.checked_queries(roots, first)?;
        let second = self.checked_queries(roots, second)?;
        Ok(self.differing_pair(&first, &second)?)
    }
}
