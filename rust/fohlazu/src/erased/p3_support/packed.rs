// Made from crates/p3_support/src/packed.rt by tools/erase.

//! Packed values: several values of one type that are worked on together.

/// `WIDTH` values that are worked on together, each in a lane. A packed value is the list of its lanes.
pub trait PackedValue: Copy {
    /// What a lane holds. Its `==` is equality of values, and each call of its `default` gives the same value.
    type Value: Copy + Default + Eq;

    /// The number of lanes.
    const WIDTH: usize;

    /// The packed value that has `value` in every lane.
    fn broadcast(value: Self::Value) -> Self;

    /// Lane `k`, where `k < WIDTH`.
    ///
    /// # Panics
    ///
    /// - By `lane_in` unless `k < Self::WIDTH`.
    fn lane(&self, k: usize) -> Self::Value;

    /// The same lanes with `value` in place of lane `k`, where `k < WIDTH`.
    ///
    /// # Panics
    ///
    /// - By `lane_in` unless `k < Self::WIDTH`.
    fn with_lane(self, k: usize, value: Self::Value) -> Self;

    /// The packed value whose lane `k` is `f(k)`, for each `k` below `WIDTH`. `f` must accept each of these `k`.
    #[inline]
    fn from_fn<F: Fn(usize) -> Self::Value>(f: F) -> Self
    where
        Self: Sized,
    {
        let mut packed = Self::broadcast(Self::Value::default());
        for k in 0..Self::WIDTH {
            packed = packed.with_lane(k, f(k));
        }
        packed
    }
}

/// A single value is packed alone, in one lane.
impl PackedValue for u32 {
    type Value = u32;

    const WIDTH: usize = 1;

    #[inline]
    fn broadcast(value: u32) -> u32 {
        value
    }

    #[inline]
    fn lane(&self, k: usize) -> u32 {
        assert!(k < Self::WIDTH, "lane_in");
        *self
    }

    #[inline]
    fn with_lane(self, k: usize, value: u32) -> u32 {
        assert!(k < Self::WIDTH, "lane_in");
        value
    }
}

/// A single byte is packed alone, too.
impl PackedValue for u8 {
    type Value = u8;

    const WIDTH: usize = 1;

    #[inline]
    fn broadcast(value: u8) -> u8 {
        value
    }

    #[inline]
    fn lane(&self, k: usize) -> u8 {
        assert!(k < Self::WIDTH, "lane_in");
        *self
    }

    #[inline]
    fn with_lane(self, k: usize, value: u8) -> u8 {
        assert!(k < Self::WIDTH, "lane_in");
        value
    }
}

/// Unpacks one packed value: lane `k` becomes element `e` of row `k`, where `e < D`. `rows` must have `PW::WIDTH` rows.
#[inline]
fn unpack_value<PW: PackedValue, const D: usize>(value: PW, e: usize, rows: &mut [[PW::Value; D]]) {
    for k in 0..PW::WIDTH {
        rows[k][e] = value.lane(k);
    }
}

/// Unpacks an array of packed values: `rows[k][e]` becomes lane `k` of `packed[e]`. `rows` must have `PW::WIDTH` rows.
///
/// # Panics
///
/// - By `a_row_for_each_lane` unless `rows.len() == PW::WIDTH`.
#[inline]
pub fn unpack_into<PW: PackedValue, const D: usize>(packed: &[PW; D], rows: &mut [[PW::Value; D]]) {
    assert!(rows.len() == PW::WIDTH, "a_row_for_each_lane");
    // The inner loop goes over the lanes: their number is a constant, so no lane is read at a computed position.
    for (e, value) in packed.iter().enumerate() {
        unpack_value(*value, e, rows);
    }
}

/// Unpacks an array of packed values into the rows from `first` on, a row for each lane: `rows[first + k][e]` becomes
/// lane `k` of `packed[e]`. The rows before `first` stay as they are. `first + PW::WIDTH` must be at most the number of
/// rows.
///
/// # Panics
///
/// - By `rows_in` unless `first <= rows.len() && PW::WIDTH <= rows.len() - first`.
#[inline]
pub fn unpack_at<PW: PackedValue, const D: usize>(packed: &[PW; D], rows: &mut [[PW::Value; D]], first: usize) {
    assert!(first <= rows.len() && PW::WIDTH <= rows.len() - first, "rows_in");
    unpack_into(packed, &mut rows[first..first + PW::WIDTH]);
}

/// Writes a column into lane `k`, where `k < PW::WIDTH`: lane `k` of `packed[e]` becomes `column[e]`, and other lanes
/// stay. `column` must have `D` values.
#[inline]
fn set_lane<PW: PackedValue, const D: usize>(packed: &mut [PW; D], k: usize, column: &[PW::Value]) {
    assert!(column.len() == D, "long");
    for (e, element) in packed.iter_mut().enumerate() {
        *element = element.with_lane(k, column[e]);
    }
}

/// Packs columns, which are arrays or slices of `D` values: lane `k` of element `e` is `f(k)[e]`, for each `k` below
/// `PW::WIDTH`. `f` must accept each of these `k`, and return `D` values.
#[inline]
pub fn pack_columns_fn<PW: PackedValue, X: AsRef<[PW::Value]>, F: Fn(usize) -> X, const D: usize>(f: F) -> [PW; D] {
    let mut packed = [PW::broadcast(PW::Value::default()); D];
    for k in 0..PW::WIDTH {
        let column = f(k);
        set_lane(&mut packed, k, column.as_ref());
    }
    packed
}
