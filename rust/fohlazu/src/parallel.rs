//! Threads: trees that the threads of `rayon` build, and a hasher and a compression whose calls for many messages split
//! their work among them.
//!
//! [`commit`] and [`tree`] split each layer, and the threads read the rows that they hash. They build what
//! [`MerkleTreeMmcs::commit`](crate::merkle_tree::MerkleTreeMmcs::commit) and
//! [`MerkleTree::new`](crate::merkle_tree::MerkleTree::new) build.
//!
//! All other builders of trees run on the thread that calls them. What they hash they give to
//! [`hash_many`](CryptographicHasher::hash_many) and [`compress_many`](PseudoCompressionFunction::compress_many), many
//! messages a call. [`Parallel`] splits those calls, and nothing else: a scheme of wrapped functions has the caps, the
//! trees and the openings of the scheme of the functions themselves, and its verifier hashes on one thread.
//!
//! ```
//! use fohlazu::hashes::{FoldCompress, FoldHash};
//! use fohlazu::merkle_tree::MerkleTreeMmcs;
//! use fohlazu::parallel::{self, Parallel};
//! use fohlazu::support::RowMajorMatrix;
//!
//! let words: Vec<u32> = (0..80_000).collect();
//! let matrix = RowMajorMatrix::new(words, 8);
//! let (hash, compress) = (FoldHash::<8>, FoldCompress::<2, 8>);
//! let serial = MerkleTreeMmcs::<u32, u32, _, _, 2, 1>::new(hash, compress, 0);
//! let parallel = MerkleTreeMmcs::<u32, u32, _, _, 2, 1>::new(Parallel(hash), Parallel(compress), 0);
//! let (cap, _) = parallel::commit(&serial, vec![&matrix])?;
//! assert_eq!(cap.roots(), serial.commit(vec![&matrix])?.0.roots());
//! let (cap, tree) = parallel.commit(vec![&matrix])?;
//! assert_eq!(cap.roots(), serial.commit(vec![&matrix])?.0.roots());
//! let opening = parallel.open_batch(17, &tree)?;
//! assert_eq!(opening.opened_values, [[136, 137, 138, 139, 140, 141, 142, 143]]);
//! # Ok::<(), fohlazu::merkle_tree::MerkleTreeError>(())
//! ```

use crate::fallible::{AllocError, TryClone};
use crate::support::{CryptographicHasher, PackedValue, PseudoCompressionFunction, pack_columns_fn, unpack_at};
use core::array::from_fn;
use core::convert::Infallible;

mod trees;

pub use trees::{commit, tree};

/// How many messages the builders give to one call, where a layer has as many.
// Enough that threads which wake for a call find work for far longer than they take to wake.
const BATCH: usize = 16384;

/// The shortest piece of a call that a thread gets, in bytes of messages.
// A join takes some hundred nanoseconds, and SHA-256 of so many bytes a hundred times that.
const LEAST_BYTES: usize = 8192;

/// How many pieces of a call there are for each thread, where they are not too short.
// More than one, so that a thread that gets less of its processor keeps the others waiting less.
const PIECES: usize = 4;

/// The function of `X`, a hasher or a compression, with calls for many messages that split their work among the threads
/// of `rayon`'s current pool. The digests are those of `X`, message by message.
///
/// `X` must be [`Sync`], and so must what its messages consist of, since several threads read them; what its digests
/// consist of must be [`Send`].
///
/// - A call is split into pieces of messages that follow one another, each of them long enough to be worth a thread. A
///   short call, or one in a pool of one thread, is a call of `X` on the caller's thread.
/// - A piece is given to the own many-message call of `X` if its `LANES` are above 1 or packed values have one lane.
///   Else each `WIDTH` messages of it are packed, a message a lane, for `hash_packed` or `compress_packed`. So a hasher
///   over packed values loses no speed here, though its `hash_many` takes one message at a time.
/// - `LANES` is 16384, rounded up to a multiple of the lanes of `X`: the builders give so many rows to one call. They
///   copy the rows of several matrices, or of salted ones, into one piece first, on one thread, and so does a matrix
///   that stores no rows in one piece. The buffer has as many rows as `LANES`.
/// - Every other call is that of `X`, on the caller's thread.
///
/// # Panics
///
/// A panic of `X` in a piece is a panic of the call. `rayon` panics where it cannot start its threads, and allocates
/// what it needs itself: want of memory there is not the error `OutOfMemory`, but ends the program.
#[derive(Clone, Copy, Debug)]
pub struct Parallel<X>(pub X);

impl<X: TryClone> TryClone for Parallel<X> {
    fn try_clone(&self) -> Result<Self, AllocError> {
        Ok(Parallel(self.0.try_clone()?))
    }
}

/// The least multiple of `lanes` that is at least [`BATCH`], or `lanes` where that is more. 0 lanes count as 1.
const fn batch_of(lanes: usize) -> usize {
    if lanes >= BATCH {
        return lanes;
    }
    BATCH.next_multiple_of(if lanes == 0 { 1 } else { lanes })
}

/// How many messages of `bytes` bytes a piece of a call of `count` messages has: a multiple of `lanes`, but for the
/// last piece.
fn piece_of(count: usize, bytes: usize, lanes: usize) -> usize {
    let threads = rayon::current_num_threads();
    if threads <= 1 {
        return count;
    }
    let least = LEAST_BYTES / bytes.max(1);
    let piece = count.div_ceil(threads.saturating_mul(PIECES)).max(least).max(1);
    // A piece that would be longer than any call is the whole call.
    piece.checked_next_multiple_of(lanes.max(1)).unwrap_or(count)
}

/// Runs `work` on pieces of `out` that follow one another, each with the place of its first item, by the threads of the
/// pool. The places begin with `first`, and a piece has `piece` items, but for the last one.
fn in_pieces<X: Send, E: Send>(
    out: &mut [X],
    first: usize,
    piece: usize,
    work: &(impl Fn(usize, &mut [X]) -> Result<(), E> + Sync),
) -> Result<(), E> {
    if out.len() <= piece {
        return work(first, out);
    }
    let half = out.len().div_ceil(piece) / 2 * piece;
    let (front, back) = out.split_at_mut(half);
    let (front, back) =
        rayon::join(|| in_pieces(front, first, piece, work), || in_pieces(back, first + half, piece, work));
    front.and(back)
}

/// Writes the digest of message `i` into `out[i]`, for messages of `width` words: by `hash_many`, or packed where the
/// hasher takes one message at a time and packed values have several lanes.
fn hash_piece<P: PackedValue, PW: PackedValue, H: CryptographicHasher<P, PW, D>, const D: usize>(
    hash: &H,
    messages: &[P::Value],
    width: usize,
    out: &mut [[PW::Value; D]],
) {
    let mut done = 0;
    if H::LANES <= 1 && P::WIDTH > 1 && P::WIDTH == PW::WIDTH {
        while P::WIDTH <= out.len() - done {
            let rows = &messages[done * width..(done + P::WIDTH) * width];
            let columns = (0..width).map(|column| P::from_fn(|k| rows[k * width + column]));
            unpack_at(&hash.hash_packed(columns), out, done);
            done += P::WIDTH;
        }
    }
    if done < out.len() {
        hash.hash_many(&messages[done * width..], &mut out[done..]);
    }
}

/// Writes the digest of `groups[i]` into `out[i]`: by `compress_many`, or packed where the compression takes one group
/// at a time and packed values have several lanes.
fn compress_piece<PW: PackedValue, C: PseudoCompressionFunction<PW, N, D>, const N: usize, const D: usize>(
    compress: &C,
    groups: &[[[PW::Value; D]; N]],
    out: &mut [[PW::Value; D]],
) {
    let mut done = 0;
    if C::LANES <= 1 && PW::WIDTH > 1 {
        while PW::WIDTH <= out.len() - done {
            let lanes = &groups[done..done + PW::WIDTH];
            let packed = from_fn(|place| pack_columns_fn(|k| lanes[k][place]));
            unpack_at(&compress.compress_packed(packed), out, done);
            done += PW::WIDTH;
        }
    }
    if done < out.len() {
        compress.compress_many(&groups[done..], &mut out[done..]);
    }
}

impl<P: PackedValue, PW: PackedValue, H: CryptographicHasher<P, PW, D> + Sync, const D: usize>
    CryptographicHasher<P, PW, D> for Parallel<H>
where
    P::Value: Sync,
    PW::Value: Send,
{
    const LANES: usize = batch_of(if H::LANES > 1 { H::LANES } else { P::WIDTH });

    const PREFER_CONTIGUOUS_INPUT: bool = H::PREFER_CONTIGUOUS_INPUT;

    fn hash_iter<I: Iterator<Item = P::Value>>(&self, input: I) -> [PW::Value; D] {
        self.0.hash_iter(input)
    }

    fn hash_slice(&self, input: &[P::Value]) -> [PW::Value; D] {
        self.0.hash_slice(input)
    }

    fn hash_iter_slices<S: AsRef<[P::Value]>, I: Iterator<Item = S>>(&self, input: I) -> [PW::Value; D] {
        self.0.hash_iter_slices(input)
    }

    fn hash_many(&self, messages: &[P::Value], out: &mut [[PW::Value; D]]) {
        assert!(messages.len().is_multiple_of(out.len()), "one_length");
        if out.is_empty() {
            return;
        }
        let width = messages.len() / out.len();
        let bytes = size_of_val(&messages[..width]);
        let lanes = if H::LANES > 1 { H::LANES } else { P::WIDTH };
        let piece = piece_of(out.len(), bytes, lanes);
        let Ok(()) = in_pieces(out, 0, piece, &|first, out: &mut [[PW::Value; D]]| {
            hash_piece(&self.0, &messages[first * width..][..out.len() * width], width, out);
            Ok::<_, Infallible>(())
        });
    }

    fn hash_packed<I: Iterator<Item = P>>(&self, input: I) -> [PW; D] {
        self.0.hash_packed(input)
    }
}

impl<PW: PackedValue, C: PseudoCompressionFunction<PW, N, D> + Sync, const N: usize, const D: usize>
    PseudoCompressionFunction<PW, N, D> for Parallel<C>
where
    PW::Value: Send + Sync,
{
    const LANES: usize = batch_of(if C::LANES > 1 { C::LANES } else { PW::WIDTH });

    fn compress(&self, input: [[PW::Value; D]; N]) -> [PW::Value; D] {
        self.0.compress(input)
    }

    fn compress_many(&self, groups: &[[[PW::Value; D]; N]], out: &mut [[PW::Value; D]]) {
        assert!(groups.len() == out.len(), "equal_lengths");
        let lanes = if C::LANES > 1 { C::LANES } else { PW::WIDTH };
        let piece = piece_of(out.len(), size_of::<[[PW::Value; D]; N]>(), lanes);
        let Ok(()) = in_pieces(out, 0, piece, &|first, out: &mut [[PW::Value; D]]| {
            compress_piece(&self.0, &groups[first..][..out.len()], out);
            Ok::<_, Infallible>(())
        });
    }

    fn compress_packed(&self, input: [[PW; D]; N]) -> [PW; D] {
        self.0.compress_packed(input)
    }
}
