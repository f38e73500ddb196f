// Made from crates/p3_merkle_core/src/layer_shape.rt by tools/erase.

//! What is known of a layer before it is built: how many nodes and slots it has, and which rows belong to it.

/// A level of a tree whose upper layer is not built yet: the step from the layer `below`, and the shape of the layer
/// above it, to which the other fields belong.
#[derive(Debug, Clone, Copy)]
pub(crate) struct LayerShape {
    /// The number of the layer below; the leaves are layer 0.
    pub below: usize,
    /// How many children each node of the layer above has.
    pub step: usize,
    /// The exponent of the layer, and of the matrices that belong to it.
    pub exponent: usize,
    /// How many of its slots are nodes; they come first.
    pub raw_len: usize,
    /// How many slots it has, padding included.
    pub layer_len: usize,
    /// The height, in rows, of the matrices that belong to it, if there are any.
    pub height: usize,
    /// Whether matrices belong to it.
    pub has_rows: bool,
}
