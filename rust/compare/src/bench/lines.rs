//! The lines: what is timed, on which matrices, by which functions, and the most that the ratio may be.

use p3_matrix::Dimensions;

/// The rows of the tallest matrix.
const ROWS: usize = 1 << 16;

/// The rows of a matrix of width 1000.
const WIDE_ROWS: usize = 1 << 14;

/// The matrices of a line.
#[derive(Clone, Copy, Debug)]
pub enum Shape {
    /// So many matrices of a width.
    Equal { count: usize, width: usize },
    /// Matrices of width 8 at eight heights, each half of the one before.
    Heights,
    /// A matrix of width 8, and beside it 256 of one row and one word.
    Short,
    /// A matrix of two to this power rows, of a width.
    Tall { power: u32, width: usize },
}

impl Shape {
    /// Their dimensions.
    pub fn dimensions(self) -> Vec<Dimensions> {
        match self {
            Shape::Equal { count, width } => {
                let height = if width == 1000 { WIDE_ROWS } else { ROWS };
                vec![Dimensions { width, height }; count]
            }
            Shape::Heights => (0..8).map(|halved| Dimensions { width: 8, height: ROWS >> halved }).collect(),
            Shape::Short => {
                let mut dimensions = vec![Dimensions { width: 1, height: 1 }; 257];
                dimensions[0] = Dimensions { width: 8, height: ROWS };
                dimensions
            }
            Shape::Tall { power, width } => vec![Dimensions { width, height: 1 << power }],
        }
    }

    /// Its name in a line.
    pub fn name(self) -> String {
        match self {
            Shape::Equal { count: 1, width } => format!("width {width}"),
            Shape::Equal { count, width } => format!("{count} of width {width}"),
            Shape::Heights => "eight heights".into(),
            Shape::Short => "256 short".into(),
            Shape::Tall { power, width } => format!("2^{power} of {width}"),
        }
    }
}

/// What hashes.
#[derive(Clone, Copy, Debug)]
pub enum Hash {
    /// The fold functions, by a digest of one word.
    OneWord,
    /// The fold functions, by a digest of eight words.
    EightWords,
    /// SHA-256.
    Sha256,
}

/// How it is called.
#[derive(Clone, Copy, Debug)]
pub enum Form {
    /// Row by row and node by node.
    Scalar,
    /// In eight lanes.
    Packed,
    /// Eight messages a call.
    Batched,
    /// Row by row, each with four salts.
    Salted,
}

/// What is timed.
#[derive(Clone, Copy, Debug)]
pub enum Work {
    /// A commit.
    Commit,
    /// Openings, each by its own proof.
    Open,
    /// Their verification.
    Verify,
    /// Openings by one proof.
    OpenTogether,
    /// Their verification.
    VerifyTogether,
    /// Their paths, restored.
    Restore,
}

/// Lines that have the same limits: one for each hash, form, shape, work and arity.
pub struct Lines {
    /// The part of the lines: the name by which it is asked for.
    pub part: &'static str,
    pub hashes: &'static [Hash],
    pub forms: &'static [Form],
    pub shapes: &'static [Shape],
    pub works: &'static [Work],
    /// How many leaves are opened, if any.
    pub queries: &'static [usize],
    /// The most that the ratio may be at the arities 2 and 4.
    pub limits: [f64; 2],
}

const WIDTH_1: Shape = Shape::Equal { count: 1, width: 1 };
const WIDTH_8: Shape = Shape::Equal { count: 1, width: 8 };
const WIDTH_64: Shape = Shape::Equal { count: 1, width: 64 };
const WIDTH_1000: Shape = Shape::Equal { count: 1, width: 1000 };
const FOUR_OF_1: Shape = Shape::Equal { count: 4, width: 1 };
const FOUR_OF_8: Shape = Shape::Equal { count: 4, width: 8 };
const FOUR_OF_64: Shape = Shape::Equal { count: 4, width: 64 };
const SIXTEEN_OF_1: Shape = Shape::Equal { count: 16, width: 1 };

/// The limit of most lines.
const LEVEL: [f64; 2] = [1.05, 1.05];

/// The limit of openings of one matrix of width 8, and of the verification of openings by the fold functions.
const HALF: [f64; 2] = [0.55, 0.55];

/// The limit of the verification of openings of one matrix of width 8 by one proof.
const PRUNED: [f64; 2] = [0.7, 0.7];

/// All lines on one thread.
pub const LINES: &[Lines] = &[
    Lines {
        part: "sizes",
        hashes: &[Hash::OneWord, Hash::EightWords],
        forms: &[Form::Scalar, Form::Packed, Form::Batched],
        shapes: &[WIDTH_1, WIDTH_8, WIDTH_64, WIDTH_1000],
        works: &[Work::Commit],
        queries: &[0],
        limits: LEVEL,
    },
    Lines {
        part: "sizes",
        hashes: &[Hash::Sha256],
        forms: &[Form::Batched],
        shapes: &[WIDTH_8, WIDTH_1000],
        works: &[Work::Commit],
        queries: &[0],
        limits: LEVEL,
    },
    Lines {
        part: "sizes",
        hashes: &[Hash::OneWord, Hash::Sha256],
        forms: &[Form::Salted],
        shapes: &[WIDTH_8],
        works: &[Work::Commit],
        queries: &[0],
        limits: LEVEL,
    },
    Lines {
        part: "batches",
        hashes: &[Hash::OneWord],
        forms: &[Form::Scalar, Form::Packed, Form::Batched],
        shapes: &[Shape::Heights, Shape::Short, FOUR_OF_1, SIXTEEN_OF_1],
        works: &[Work::Commit],
        queries: &[0],
        limits: LEVEL,
    },
    Lines {
        part: "batches",
        hashes: &[Hash::OneWord],
        forms: &[Form::Scalar],
        shapes: &[FOUR_OF_8],
        works: &[Work::Commit],
        queries: &[0],
        limits: [1.05, 1.09],
    },
    Lines {
        part: "batches",
        hashes: &[Hash::OneWord],
        forms: &[Form::Packed, Form::Batched],
        shapes: &[FOUR_OF_8],
        works: &[Work::Commit],
        queries: &[0],
        limits: LEVEL,
    },
    Lines {
        part: "batches",
        hashes: &[Hash::OneWord],
        forms: &[Form::Scalar, Form::Batched],
        shapes: &[FOUR_OF_64],
        works: &[Work::Commit],
        queries: &[0],
        limits: LEVEL,
    },
    Lines {
        part: "batches",
        hashes: &[Hash::OneWord],
        forms: &[Form::Packed],
        shapes: &[FOUR_OF_64],
        works: &[Work::Commit],
        queries: &[0],
        limits: [1.18, 1.21],
    },
    Lines {
        part: "openings",
        hashes: &[Hash::OneWord, Hash::EightWords],
        forms: &[Form::Scalar],
        shapes: &[WIDTH_8],
        works: &[Work::Open, Work::Verify],
        queries: &[64],
        limits: HALF,
    },
    Lines {
        part: "openings",
        hashes: &[Hash::OneWord, Hash::EightWords],
        forms: &[Form::Scalar],
        shapes: &[WIDTH_8],
        works: &[Work::OpenTogether],
        queries: &[64, 1024],
        limits: HALF,
    },
    Lines {
        part: "openings",
        hashes: &[Hash::OneWord, Hash::EightWords],
        forms: &[Form::Scalar],
        shapes: &[WIDTH_8],
        works: &[Work::VerifyTogether],
        queries: &[64, 1024],
        limits: PRUNED,
    },
    Lines {
        part: "openings",
        hashes: &[Hash::OneWord, Hash::EightWords],
        forms: &[Form::Scalar],
        shapes: &[WIDTH_8],
        works: &[Work::Restore],
        queries: &[64, 1024],
        limits: LEVEL,
    },
    Lines {
        part: "openings",
        hashes: &[Hash::Sha256],
        forms: &[Form::Batched],
        shapes: &[WIDTH_8],
        works: &[Work::Open],
        queries: &[64],
        limits: HALF,
    },
    Lines {
        part: "openings",
        hashes: &[Hash::Sha256],
        forms: &[Form::Batched],
        shapes: &[WIDTH_8],
        works: &[Work::Verify],
        queries: &[64],
        limits: LEVEL,
    },
    Lines {
        part: "openings",
        hashes: &[Hash::Sha256],
        forms: &[Form::Batched],
        shapes: &[WIDTH_8],
        works: &[Work::OpenTogether],
        queries: &[64, 1024],
        limits: HALF,
    },
    Lines {
        part: "openings",
        hashes: &[Hash::Sha256],
        forms: &[Form::Batched],
        shapes: &[WIDTH_8],
        works: &[Work::VerifyTogether],
        queries: &[64, 1024],
        limits: PRUNED,
    },
    Lines {
        part: "openings",
        hashes: &[Hash::Sha256],
        forms: &[Form::Batched],
        shapes: &[WIDTH_8],
        works: &[Work::Restore],
        queries: &[64, 1024],
        limits: LEVEL,
    },
    Lines {
        part: "openings",
        hashes: &[Hash::OneWord],
        forms: &[Form::Salted],
        shapes: &[WIDTH_8],
        works: &[Work::Open, Work::Verify],
        queries: &[64],
        limits: HALF,
    },
    Lines {
        part: "openings",
        hashes: &[Hash::OneWord],
        forms: &[Form::Scalar],
        shapes: &[WIDTH_1000, Shape::Heights, Shape::Short],
        works: &[Work::Open, Work::Verify],
        queries: &[64],
        limits: LEVEL,
    },
    Lines {
        part: "openings",
        hashes: &[Hash::OneWord],
        forms: &[Form::Scalar],
        shapes: &[WIDTH_1000, Shape::Heights, Shape::Short],
        works: &[Work::OpenTogether, Work::VerifyTogether, Work::Restore],
        queries: &[64, 1024],
        limits: LEVEL,
    },
];

/// The limit of a commit on threads.
const ON_THREADS: [f64; 2] = [1.15, 1.15];

/// What is committed to on threads.
const TALL: &[Shape] = &[
    Shape::Tall { power: 16, width: 8 },
    Shape::Tall { power: 18, width: 8 },
    Shape::Tall { power: 16, width: 64 },
    Shape::Tall { power: 18, width: 64 },
];

/// All lines with the feature `parallel`.
pub const THREADS: &[Lines] = &[
    Lines {
        part: "fold",
        hashes: &[Hash::OneWord, Hash::EightWords],
        forms: &[Form::Scalar, Form::Packed, Form::Batched],
        shapes: TALL,
        works: &[Work::Commit],
        queries: &[0],
        limits: ON_THREADS,
    },
    Lines {
        part: "sha256",
        hashes: &[Hash::Sha256],
        forms: &[Form::Scalar, Form::Batched, Form::Salted],
        shapes: TALL,
        works: &[Work::Commit],
        queries: &[0],
        limits: ON_THREADS,
    },
];
