//! The core ring: the orientation modules and the mode message, in the order of their bits.

use super::position::turned;
use super::shape::Family;

/// From the centre module, x right, y down.
pub type Offset = (i32, i32);

/// "Clockwise from the one below the top left corner: 111 011 100 000."
pub const ORIENTATION: [u8; 12] = [1, 1, 1, 0, 1, 1, 1, 0, 0, 0, 0, 0];

/// "Core ring, distance 5 or 7"
fn ring(family: Family) -> i32 {
    family.either(5, 7)
}

/// "twelve orientation modules, three at each corner", clockwise.
pub fn orientation(family: Family) -> Vec<Offset> {
    let d = ring(family);
    let corner = [(-d, 1 - d), (-d, -d), (1 - d, -d)];
    let corners = (0..4).flat_map(|turns| corner.map(|module| turned(module, turns)));
    corners.collect()
}

/// "clockwise from the upper left: compact 7 bits a side at offsets −3 to 3; full 10 a side
/// at −5 to −1 and 1 to 5"
pub fn mode(family: Family) -> Vec<Offset> {
    let d = ring(family);
    let offsets = match family {
        Family::Compact => (-3..=3).collect::<Vec<i32>>(),
        Family::Full => (-5..=-1).chain(1..=5).collect(),
    };
    let sides = (0..4).flat_map(|turns| offsets.iter().map(move |&x| turned((x, -d), turns)));
    sides.collect()
}

/// max(|x|,|y|).
pub fn distance(x: i32, y: i32) -> i32 {
    x.abs().max(y.abs())
}

/// Every offset at a distance, such as "the 40 modules at distance 5".
pub fn at_distance(d: i32) -> impl Iterator<Item = Offset> {
    square(d).filter(move |&(x, y)| distance(x, y) == d)
}

/// The place of an offset among the modules of a grid, "row by row from the top".
pub fn index((x, y): Offset, side: usize) -> usize {
    let (side, centre) = (side as i32, side as i32 / 2);
    ((centre + y) * side + centre + x) as usize
}

/// Every offset with a distance of at most `most`.
pub fn square(most: i32) -> impl Iterator<Item = Offset> {
    (-most..=most).flat_map(move |y| (-most..=most).map(move |x| (x, y)))
}
