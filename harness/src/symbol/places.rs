//! "Data places": the modules that hold the bits of the block, in the order of the bits.

use super::core::Offset;
use super::shape::{Family, Shape};

/// A row and a column, counted from the top left.
pub type Place = (usize, usize);

/// All Cb of them.
pub fn data(shape: Shape) -> Vec<Place> {
    let left = kept(shape);
    let layers = (0..shape.layers).flat_map(|t| layer(shape, left.len(), t));
    layers
        .map(|(row, column)| (left[row], left[column]))
        .collect()
}

/// The same from the centre module.
pub fn offsets(shape: Shape) -> Vec<Offset> {
    let centre = shape.side() as i32 / 2;
    let places = data(shape).into_iter();
    places
        .map(|(row, column)| (column as i32 - centre, row as i32 - centre))
        .collect()
}

/// The rows, and the columns, that are not of the reference grid: "take away the reference
/// rows and columns (full)".
pub fn kept(shape: Shape) -> Vec<usize> {
    let centre = shape.side() / 2;
    let reference =
        |i: usize| shape.family == Family::Full && centre.abs_diff(i).is_multiple_of(16);
    (0..shape.side()).filter(|&i| !reference(i)).collect()
}

/// The places of layer `t` in what is left, whose side is `side`: four sides of q dominoes,
/// "higher bit first".
fn layer(shape: Shape, side: usize, t: usize) -> Vec<Place> {
    let q = 4 * (shape.layers - t) + shape.either(9, 12);
    // The layer's first and last row or column, and those one further in.
    let (low, next) = (2 * t, 2 * t + 1);
    let (high, before) = (side - 1 - 2 * t, side - 2 - 2 * t);
    let left = (0..q).flat_map(|j| [(low + j, low), (low + j, next)]);
    let bottom = (0..q).flat_map(|j| [(high, low + j), (before, low + j)]);
    let right = (0..q).flat_map(|j| [(high - j, high), (high - j, before)]);
    let top = (0..q).flat_map(|j| [(low, high - j), (next, high - j)]);
    left.chain(bottom).chain(right).chain(top).collect()
}
