//! A script by both libraries.

use crate::answers::{Answer, Call, Outcome, Run};
use crate::hashes::{Fold, Sha};
use crate::known::{Verdict, verdict};
use crate::random::Random;
use crate::script::{Hashing, Script};
use crate::subject::{Asked, Plain, Subject};
use crate::toy_field::{Field4, ToyCompression, ToyHash};
use crate::words::Word;
use p3_field::PackedValue;
use p3_symmetric::{CryptographicHasher, PseudoCompressionFunction};
use rand::distr::{Distribution, StandardUniform};
use serde::de::DeserializeOwned;
use serde::{Deserialize, Serialize};
use std::fmt::{self, Display};

/// How many words a salt has.
const SALT_ELEMS: usize = 3;

/// A difference that is not known: the answers to one call.
#[derive(Clone, Debug, PartialEq, Eq)]
pub struct Difference {
    pub here: Option<Answer>,
    pub original: Option<Answer>,
}

impl Display for Difference {
    fn fmt(&self, f: &mut fmt::Formatter<'_>) -> fmt::Result {
        let text = |answer: &Option<Answer>| match answer {
            Some(Answer { call, outcome, .. }) => format!("{call:?}: {outcome:?}"),
            None => "no more answers".into(),
        };
        write!(f, "  fohlazu-p3     {}\n  p3-merkle-tree {}", text(&self.here), text(&self.original))
    }
}

/// The answers of both libraries to one script.
pub struct Answers {
    pub here: Vec<Answer>,
    pub original: Vec<Answer>,
}

impl Answers {
    /// The answers to a script.
    pub fn of(script: &Script) -> Answers {
        macro_rules! at_arity {
            ($packed:ty, $hash:expr, $compress:expr, $digest:literal) => {
                match script.arity {
                    2 => by_scheme::<$packed, _, _, 2, $digest>(script, $hash, $compress),
                    4 => by_scheme::<$packed, _, _, 4, $digest>(script, $hash, $compress),
                    8 => by_scheme::<$packed, _, _, 8, $digest>(script, $hash, $compress),
                    arity => unreachable!("a script of arity {arity}"),
                }
            };
        }
        match script.hashing {
            Hashing::Fold => at_arity!(u32, Fold::<1>, Fold::<1>, 2),
            Hashing::FoldPackedBy8 => at_arity!([u32; 8], Fold::<1>, Fold::<1>, 2),
            Hashing::FoldInEights => at_arity!(u32, Fold::<8>, Fold::<8>, 2),
            Hashing::Sha256InEights => at_arity!(u8, Sha::<8>, Sha::<8>, 32),
            Hashing::FieldPackedBy4 => at_arity!(Field4, ToyHash, ToyCompression, 4),
        }
    }

    /// What each pair of answers is. Where p3-merkle-tree commits to nothing, since it would not end, all further
    /// answers of fohlazu-p3 belong to that difference.
    pub fn verdicts(&self) -> impl Iterator<Item = (Verdict, Option<&Answer>, Option<&Answer>)> {
        let is_endless = |answer: &&Answer| answer.call == Call::Commit && answer.outcome == Outcome::Endless;
        let endless = self.original.first().filter(is_endless);
        (0..self.here.len().max(self.original.len())).map(move |place| {
            let (here, original) = (self.here.get(place), self.original.get(place).or(endless));
            let verdict = match (here, original) {
                (Some(here), Some(original)) => verdict(here, original),
                _ => Verdict::Different,
            };
            (verdict, here, original)
        })
    }

    /// The first difference that is not known.
    pub fn difference(&self) -> Option<Difference> {
        let mut verdicts = self.verdicts();
        let (_, here, original) = verdicts.find(|(verdict, ..)| *verdict == Verdict::Different)?;
        Some(Difference { here: here.cloned(), original: original.cloned() })
    }
}

/// The answers of both libraries, by one packing, one hasher, one compression and one arity.
fn by_scheme<P, H, C, const N: usize, const D: usize>(script: &Script, hash: H, compress: C) -> Answers
where
    P: PackedValue<Value: Word + Serialize + DeserializeOwned>,
    H: CryptographicHasher<P::Value, [P::Value; D]> + CryptographicHasher<P, [P; D]> + Copy + Sync,
    C: PseudoCompressionFunction<[P::Value; D], N> + PseudoCompressionFunction<[P; D], N> + Copy + Sync,
    [P::Value; D]: Serialize + for<'de> Deserialize<'de>,
    StandardUniform: Distribution<P::Value>,
{
    macro_rules! answers {
        ($library:ident, $may_be_endless:literal) => {{
            let scheme = $library::MerkleTreeMmcs::<P, P, H, C, N, D>::new(hash, compress, script.cap_height);
            match script.salts {
                Some(seed) => {
                    let scheme = $library::MerkleTreeHidingMmcs::<P, P, H, C, Random, N, D, SALT_ELEMS>::new(
                        hash,
                        compress,
                        script.cap_height,
                        Random::new(seed),
                    );
                    answers(script, $may_be_endless, &Asked { scheme, plain_calls: None })
                }
                None => {
                    let plain = Plain { scheme, hash, compress };
                    answers(script, $may_be_endless, &Asked { scheme, plain_calls: Some(&plain) })
                }
            }
        }};
    }
    Answers { here: answers!(here, false), original: answers!(original, true) }
}

/// The answers of one scheme.
fn answers<T: Word, const D: usize>(script: &Script, may_be_endless: bool, subject: &dyn Subject<T, D>) -> Vec<Answer> {
    Run { subject, script, may_be_endless, answers: Vec::new() }.answers()
}
