"""The forms that tools/erase knows: sources, and the Rust that each becomes.

A source is a module `part` of the crate `own`, which exports `Seen` and what begins with that word; `other` is another
crate. Sources and results are compared token by token.
"""

from typing import NamedTuple


class Form(NamedTuple):
    """A form: its name, a source, and what it becomes."""

    name: str
    source: str
    becomes: str
    # The module's name: `lib` is the root of the crate.
    module: str = "part"


WORDS = """fn f() -> &str {
    // ghost alloc requires { where ;
    /// lemma_x(alloc) Drop
    " ghost  ; alloc where { requires"
}"""

KNOWN = [
    Form(
        "clauses",
        "fn f(x: u8) -> u8 requires small { x < 2 } ensures { result ≡ x -- } not the end\n } { x }",
        "fn f(x: u8) -> u8 { x }",
    ),
    Form(
        "a comment of a clause",
        "fn f() -> u8\n    // Goes.\n    ensures { result ≡ 1 }\n{\n    // Stays.\n    1\n}",
        "fn f() -> u8 {\n    // Stays.\n    1\n}",
    ),
    Form(
        "clauses of a closure",
        "fn f() { g(|k| -> [u8; 4] requires { k < 4 } ensures { result ≡ k } { h(k) }) }",
        "fn f() { g(|k| -> [u8; 4] { h(k) }) }",
    ),
    Form(
        "ghost items",
        """ghost use Rattle.std.specs.Prelude.{◌≡◌, ◌;◌};
        use crate::seen::Other;

        struct S {
            // Stays.
            a: Other,

            // Goes.
            ghost full: { length a ≡ (b, c) },
        }""".replace(", ◌;◌", ""),
        """use crate::erased::own::seen::Other;
        struct S {
            // Stays.
            a: Other, }""",
    ),
    Form(
        "ghost items of a trait and an impl",
        """trait T {
            // Goes.
            ghost hash: { Self → List ℕ };

            /// Stays.
            fn f(&self) -> u8 ensures { result ≡ 1 };
        }

        impl T for u8 {
            ghost hash = { λ s. [] };

            fn f(&self) -> u8 { 1 }
        }""",
        "trait T { /// Stays.\n fn f(&self) -> u8; } impl T for u8 { fn f(&self) -> u8 { 1 } }",
    ),
    Form("words inside strings and comments", WORDS, WORDS),
    Form(
        "statements for the proof",
        """fn f(m: &M) {
        // Only the proof in Rattle needs this line: the height fits,
        // and so does each row.
        let _height = m.height();
        // Only the proof in Rattle needs this loop: each row is long.
        for k in 0..P::WIDTH {
            lemma_a(&m[k]);
        }
        // Stays.
        g(m); }""",
        "fn f(m: &M) {\n// Stays.\ng(m); }",
    ),
    Form(
        "lemmas",
        """use crate::seen::{lemma_a, Other};
        use crate::seen::lemma_b;

        /// Goes.
        fn lemma_c(x: &[u8]) ensures { x ≡ x } { lemma_b(x); }

        fn f(x: &[Other]) { lemma_a(x, &x[1 + 2]); lemma_b::<u8>(x); g(x); }""",
        "use crate::erased::own::seen::{Other}; fn f(x: &[Other]) { g(x); }",
    ),
    Form("impl Model", "impl<T> Model for S<T> { ghost Value = { ℕ }; }\n\nfn f() {}", "fn f() {}"),
    Form(
        "impl From<AllocFailed>",
        """impl<T: Drop> From<AllocFailed<T>> for E { fn from(_: AllocFailed<T>) -> E { E::Out } }

        impl From<u8> for E { fn from(x: u8) -> E { E::In } }""",
        "impl From<u8> for E { fn from(x: u8) -> E { E::In } }",
    ),
    Form(
        "attributes",
        "#![tactic(auto)]\n\n#[tactic(auto, using(crate::proofs::X))]\n#[inline(always)]\nfn f() {}",
        "#[inline(always)]\nfn f() {}",
    ),
    Form(
        "derive Drop",
        "#[derive(Drop)]\nstruct A { a: u8 }\n\n#[derive(Debug, Drop)]\nstruct B { b: u8 }",
        "struct A { a: u8 } #[derive(Debug)] struct B { b: u8 }",
    ),
    Form(
        "derive Clone of an exported type",
        "#[derive(Clone, Drop)]\npub struct Seen<'a, T, const N: usize> { pub(crate) a: Vec<T>, b: &'a [u8; N] }",
        """use crate::fallible::{AllocError, TryClone};
        use alloc::vec::Vec;
        #[derive(Clone)]
        pub struct Seen<'a, T, const N: usize> { pub(crate) a: Vec<T>, b: &'a [u8; N] }

        impl<'a, T: TryClone, const N: usize> TryClone for Seen<'a, T, N> {
            fn try_clone(&self) -> Result<Self, AllocError> {
                Ok(Self { a: self.a.try_clone()?, b: self.b.try_clone()? })
            }
        }""",
    ),
    Form(
        "derive Clone of what is Copy, and of what is not exported",
        "#[derive(Clone, Copy)]\npub struct Seen<T> { a: T }\n\n#[derive(Clone)]\npub struct Hidden { a: u8 }",
        """use crate::fallible::{AllocError, TryClone};
        #[derive(Clone, Copy)]
        pub struct Seen<T> { a: T }
        impl<T: Copy> TryClone for Seen<T> { fn try_clone(&self) -> Result<Self, AllocError> { Ok(*self) } }
        #[derive(Clone)]
        pub(crate) struct Hidden { a: u8 }""",
    ),
    Form(
        "derive Error of an enum",
        """#[derive(Debug, Error)]
        enum E {
            #[error("plain")]
            A,
            /// Stays.
            #[error("{x} of {y}, {x}")]
            B { x: u8, y: u8, z: u8 },
            #[error("inner: {0}")]
            C(F),
        }""",
        """#[derive(Debug)]
        enum E { A, /// Stays.\n B { x: u8, y: u8, z: u8 }, C(F), }

        impl core::fmt::Display for E {
            fn fmt(&self, f: &mut core::fmt::Formatter<'_>) -> core::fmt::Result {
                match self {
                    Self::A => f.write_str("plain"),
                    Self::B { x, y, .. } => write!(f, "{x} of {y}, {x}"),
                    Self::C(inner) => write!(f, "inner: {inner}"),
                }
            }
        }

        impl core::error::Error for E {}""",
    ),
    Form(
        "derive Error of a struct",
        '#[derive(Error)]\n#[error("{a} only")]\nstruct S { a: u8, b: u8 }',
        """struct S { a: u8, b: u8 }
        impl core::fmt::Display for S {
            fn fmt(&self, f: &mut core::fmt::Formatter<'_>) -> core::fmt::Result {
                let Self { a, .. } = self; write!(f, "{a} only")
            }
        }
        impl core::error::Error for S {}""",
    ),
    Form(
        "derive_where",
        """#[derive_where(Clone, Copy)]
        #[derive_where(Debug, PartialEq, Eq; X)]
        struct R<'a, F, X> { value: &'a X, #[derive_where(skip)] of: PhantomData<F> }""",
        """struct R<'a, F, X> { value: &'a X, of: PhantomData<F> }
        impl<'a, F, X> Clone for R<'a, F, X> { fn clone(&self) -> Self { *self } }
        impl<'a, F, X> Copy for R<'a, F, X> { }
        impl<'a, F, X: core::fmt::Debug> core::fmt::Debug for R<'a, F, X> {
            fn fmt(&self, f: &mut core::fmt::Formatter<'_>) -> core::fmt::Result {
                f.debug_struct("R").field("value", &self.value).finish_non_exhaustive()
            }
        }
        impl<'a, F, X: PartialEq> PartialEq for R<'a, F, X> {
            fn eq(&self, other: &Self) -> bool { self.value == other.value }
        }
        impl<'a, F, X: Eq> Eq for R<'a, F, X> { }""",
    ),
    Form(
        "derive_where of an enum that is a copy",
        "#[derive_where(Clone, Copy)]\nenum R<'a, X> { One(&'a [X]), Two { value: &'a X } }",
        """enum R<'a, X> { One(&'a [X]), Two { value: &'a X } }
        impl<'a, X> Clone for R<'a, X> { fn clone(&self) -> Self { *self } }
        impl<'a, X> Copy for R<'a, X> { }""",
    ),
    Form(
        "derive_where of a clone that is no copy",
        "#[derive_where(Clone; X)]\nstruct R<F, X> { value: X, of: PhantomData<F> }",
        """struct R<F, X> { value: X, of: PhantomData<F> }
        impl<F, X: Clone> Clone for R<F, X> {
            fn clone(&self) -> Self { Self { value: self.value.clone(), of: self.of.clone(), } }
        }""",
    ),
    Form(
        "a clone by hand",
        """use std::alloc::AllocError;

        impl<T: Clone> Clone for S<T> {
            fn clone(&self) -> Result<S<T>, AllocError> { Ok(S { a: self.a.clone()?, n: self.n }) }
        }""",
        """use crate::fallible::{AllocError, TryClone};
        impl<T: TryClone> TryClone for S<T> {
            fn try_clone(&self) -> Result<S<T>, AllocError> { Ok(S { a: self.a.try_clone()?, n: self.n }) }
        }
        impl<T: Clone> Clone for S<T> { fn clone(&self) -> Self { S { a: self.a.clone(), n: self.n } } }""",
    ),
    Form(
        "calls and bounds of clones",
        "fn f<T: Copy + Clone>(t: &T) where T: Clone { t.clone()?; }",
        "use crate::fallible::TryClone; fn f<T: Copy + TryClone>(t: &T) where T: TryClone { t.try_clone()?; }",
    ),
    Form(
        "slices",
        "use std::convert::AsSlice;\n\nfn f<S: AsSlice<u8> + Drop>(s: &S) -> &[u8] { s.as_slice() }",
        "fn f<S: AsRef<[u8]>>(s: &S) -> &[u8] { s.as_ref() }",
    ),
    Form("a slice of a vector", "fn f(s: &Vec<u8>) -> &[u8] { s.as_slice() }",
         "use alloc::vec::Vec; fn f(s: &Vec<u8>) -> &[u8] { s.as_slice() }"),
    Form(
        "bounds by Drop",
        """fn f<A: Drop, B: Copy + Drop, C: Drop + Copy>() where D: Drop, E: Copy {}

        trait T { type X: Drop; }

        fn g() where D: Drop, {}

        fn h() where D: Drop;""",
        "fn f<A, B: Copy, C: Copy>() where E: Copy {} trait T { type X; } fn g() {} fn h();",
    ),
    Form(
        "bounds of ghost members",
        """pub struct SeenBound<F, M: Matrix<F>, B: Pair<F, M> + Copy, const N: usize> {
            m: Vec<M>,
            ghost full: { length m ≡ N },
        }

        impl<F, M: Matrix<F>, const N: usize> SeenBound<F, M, N> {}""",
        """use alloc::vec::Vec;
        pub struct SeenBound<F, M, B, const N: usize> { m: Vec<M>, }
        impl<F, M: Matrix<F>, const N: usize> SeenBound<F, M, N> {}""",
    ),
    Form(
        "allocators",
        """use std::alloc::Global;

        fn f(alloc: Global, x: u8) { g(alloc); g(alloc, x); g(x, alloc); g(alloc, alloc, x); }

        fn g(x: u8, alloc: Global) {}

        fn h(alloc: Global,) { let alloc = *self.a.b.allocator(); }""",
        "fn f(x: u8) { g(); g(x); g(x); g(x); } fn g(x: u8) {} fn h() { }",
    ),
    Form(
        "calls that may want memory",
        """fn f(alloc: Global) -> Vec<u8> {
            v.push(1)?; v.extend_from_slice(w)?; v.resize(1, 2)?; v.reserve(3)?; v.extend(w)?; v.split_off(alloc, 4)?;
            Vec::with_capacity(alloc, 5)?; Vec::from_slice(alloc, w)?; Vec::new(alloc); v.push_reserved(6);
        }""",
        """use crate::fallible::VecExt; use alloc::vec::Vec; fn f() -> Vec<u8> {
            v.try_push(1)?; v.try_extend_from_slice(w)?; v.try_resize(1, 2)?; v.try_room(3)?; v.try_extend(w)?;
            v.try_split_off(4)?; Vec::with_room(5)?; Vec::try_from_slice(w)?; Vec::new(); v.push_reserved(6); }""",
    ),
    Form(
        "vec!",
        "fn f(alloc: Global) { vec![in alloc; [0; 4]; n]?; vec![in alloc; [0; 4], 2]?; }",
        "use crate::fallible::{try_list, try_vec}; fn f() { try_vec([0; 4], n)?; try_list([[0; 4], 2])?; }",
    ),
    Form("a sign before brackets", "fn f(x: bool) { if !(x) { return !(x); } }",
         "fn f(x: bool) { if !(x) { return !(x); } }"),
    Form("final", "trait T { final fn f() {} }", "trait T { fn f() {} }"),
    Form(
        "labels",
        "fn f() { 'a: for x in y {} 'b: while x { break 'b; } 'c: loop { continue 'c; } }",
        "fn f() { for x in y {} 'b: while x { break 'b; } 'c: loop { continue 'c; } }",
    ),
    Form("numbers", "fn f() { for x in 0..other::p3 { y.0.1; 1.5; 0x1f_u8; } }",
         "fn f() { for x in 0..crate::erased::other::p3 { y.0.1; 1.5; 0x1f_u8; } }"),
    Form(
        "imports",
        """use other::seen::{A as B, C};
        use rand_core::Rng;
        use sha2::{Digest, Sha256};
        use std::marker::PhantomData;
        use std::mem;
        use std::ops::Index;
        use std::simd::prelude::*;
        use thiserror::Error;

        fn f<R: Rng>(x: PhantomData<R>, y: Sha256, z: (B, C)) { mem::replace(x, y); }""",
        """use core::marker::PhantomData;
        use core::mem;
        use crate::sha256::Sha256;
        use crate::simd::*;
        use rand_core::Rng;
        use crate::erased::other::seen::{A as B, C};
        fn f<R: Rng>(x: PhantomData<R>, y: Sha256, z: (B, C)) { mem::replace(x, y); }""",
    ),
    Form(
        "modules",
        """mod part;
        pub mod laws;
        mod sha;

        pub use laws::X;
        pub use part::Seen;
        pub use other::laws;""",
        """pub(crate) mod part;
        #[cfg(feature = "sha2")]
        pub(crate) mod sha;
        pub use part::Seen;""",
        "lib",
    ),
    Form(
        "paths",
        """fn f(x: crate::seen::A, y: other::B) {
            std::array::from_fn(x); std::mem::size_of_val(y); x.other::<u8>(); x.other(); }

        fn other() {}""",
        """fn f(x: crate::erased::own::seen::A, y: crate::erased::other::B) {
            core::array::from_fn(x); core::mem::size_of_val(y); x.other::<u8>(); x.other(); }
        fn other() {}""",
    ),
    Form(
        "links in docstrings",
        """/// [`a`](crate::a), [`b`](other::b), [`c`](std::c),
        /// [`d`](crate::laws::d), [`e`](Self::e).
        fn other() {}""",
        """/// [`a`](crate::erased::own::a), [`b`](crate::erased::other::b), [`c`](core::c),
        /// `d`, [`e`](Self::e).
        fn other() {}""",
    ),
    Form(
        "visibility",
        """pub struct Seen { pub a: u8 }

        pub struct Hidden { pub a: u8 }

        impl Seen { pub fn f() {} pub(crate) fn g() {} pub fn inside() {} }

        impl Hidden { pub fn f() {} }

        pub const fn hidden() {}""",
        """pub struct Seen { pub a: u8 }
        pub(crate) struct Hidden { pub a: u8 }
        impl Seen { pub fn f() {} pub(crate) fn g() {} pub(crate) fn inside() {} }
        impl Hidden { pub(crate) fn f() {} }
        pub(crate) const fn hidden() {}""",
    ),
    Form(
        "conditions",
        """/// Does it.
        pub fn seen_tested(n: usize, m: usize)
            requires few { n < 4 }
            requires { 1 ≤ m }
        { g(); }

        /// Does it, too.
        pub fn seen_const<const N: usize>() requires arity { N ≡ 2 } {}

        pub fn seen_untested<I>(i: I) requires ends { IsFinite i } {}

        fn hidden(n: usize) requires { n < 4 } {}""",
        """/// Does it.
        ///
        /// # Panics
        ///
        /// - By `few` unless `n < 4`.
        /// - By `some` unless `1 <= m`.
        pub fn seen_tested(n: usize, m: usize) { assert!(n < 4, "few"); assert!(1 <= m, "some"); g(); }
        /// Does it, too.
        ///
        /// The compiler refuses a call that breaks one of these:
        ///
        /// - `arity`: `N == 2`.
        pub fn seen_const<const N: usize>() { const { assert!(N == 2, "arity") }; }
        pub fn seen_untested<I>(i: I) {}
        fn hidden(n: usize) {}""",
    ),
    Form(
        "conditions of a trait's method",
        """impl SeenTrait for Seen { fn lane(&self, k: usize) requires { k < 1 } { g() } }

        impl SeenTrait for Hidden { fn lane(&self, k: usize) { g() } }

        pub trait SeenTrait { fn lane(&self, k: usize) requires { k < 1 }; fn next_lane() {} }

        impl Index<usize> for Seen { ghost can_index = { λ s i. i < 1 }; fn index(&self, i: usize) -> &u8 { g() } }""",
        """impl SeenTrait for Seen { fn lane(&self, k: usize) { assert!(k < 1, "lane_in"); g() } }
        impl SeenTrait for Hidden { fn lane(&self, k: usize) { g() } }
        pub trait SeenTrait { fn lane(&self, k: usize); fn next_lane() {} }
        impl Index<usize> for Seen { fn index(&self, i: usize) -> &u8 { assert!(i < 1, "can_index"); g() } }""",
    ),
    Form(
        "small functions",
        """/// The first.
        pub fn first() {}

        impl One for Two { #[inline(always)] fn next(self) {} fn last(self) requires { self } {} }

        trait One { fn next(self); }""",
        """/// The first.
        #[inline] pub(crate) fn first() {}
        impl One for Two { #[inline(always)] fn next(self) {} #[inline] fn last(self) {} }
        trait One { fn next(self); }""",
        "small",
    ),
    Form(
        "functions of words",
        "pub(crate) fn sum(x: u32x8, y: [u32x8; 2]) -> u32x8 { u32x8::splat(1) + x }\n\nfn other(x: u32x8) {}",
        """pub(crate) fn sum<W: Word>(x: W, y: [W; 2]) -> W { W::splat(1) + x }
        fn other(x: u32x8) {}""",
        "lanes",
    ),
    Form("a module of words", "fn any(x: u32x8) -> u32x8 { x }", "fn any<W: Word>(x: W) -> W { x }", "words"),
    Form(
        "loops over lanes",
        """fn one(w: &[u32x8; 16], v: [u32x8; 8], t: usize) -> [u32x8; 8] { sum(v, w[t]) }

        fn more(w: &mut [u32x8; 16], v: [u32x8; 8]) -> [u32x8; 8] { let v = sum(w, v); v }""",
        """fn one(w: &[u32x8; 16], v: [u32x8; 8], t: usize) -> [u32x8; 8] {
            in_each_lane(w, v, #[inline(always)] |w, v| { sum(v, w[t]) }) }
        fn more(w: &mut [u32x8; 16], v: [u32x8; 8]) -> [u32x8; 8] {
            in_each_lane_mut(w, v, #[inline(always)] |w, v| { let v = sum(w, v); v }) }""",
        "lanes",
    ),
    Form(
        "more derives",
        "#[derive(Debug, Drop)]\npub enum SeenMore { First, Second(First) }",
        "#[derive(Debug, Clone, Default)] pub enum SeenMore { #[default] First, Second(First) }",
    ),
    Form(
        "constants with a default",
        "pub trait SeenDefault { const LANES: usize; const OTHER: usize; }",
        "pub trait SeenDefault { const LANES: usize = 1; const OTHER: usize; }",
    ),
    Form(
        "references to what has no size",
        "impl<T, M: SeenTrait<T>> SeenTrait<T> for &M { fn f(&self) {} }\n\ntrait SeenTrait<T> { fn f(&self); }",
        "impl<T, M: ?Sized + SeenTrait<T>> SeenTrait<T> for &M { fn f(&self) {} } trait SeenTrait<T> { fn f(&self); }",
    ),
    Form(
        "names of contracts",
        """use crate::a::{kept, wrapping_add, Linked, SeenTrait};
        use crate::b::said_alone;

        /// Like [`Linked`], [`wrapping_add`](Self::wrapping_add) and [`kept`].
        fn f() requires { wrapping_add 1 ≡ said_alone } { kept().wrapping_add() }

        trait SeenTrait {}""",
        """use crate::erased::own::a::{kept, SeenTrait};
        /// Like `Linked`, [`wrapping_add`](Self::wrapping_add) and [`kept`].
        fn f() { kept().wrapping_add() }
        trait SeenTrait {}""",
    ),
    Form(
        "a clone of its own",
        "impl S { fn clone(&self, alloc: Global) -> Result<S, AllocError> { self.a.clone(alloc) } }",
        "impl S { fn try_clone(&self) -> Result<S, AllocError> { self.a.try_clone() } }",
    ),
    Form("known conditions", "fn known(n: usize) requires { n < 4 } { g(); }",
         "fn known(n: usize) { assert!(n < 4); g(); }"),
]
