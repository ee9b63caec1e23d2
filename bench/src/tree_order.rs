//! Van Emde Boas order in constant tables, one for each height of a sheet.

use reference::layout::{COUNTS, MAX_HEIGHT};

/// The place of each range; count 0 stays.
pub type Places = [u8; COUNTS];

static PLACES: [Places; MAX_HEIGHT + 1] = {
    let mut tables = [[0; COUNTS]; MAX_HEIGHT + 1];
    let mut height = 0;
    while height <= MAX_HEIGHT {
        put(&mut tables[height], 1, 1, height + 1);
        height += 1;
    }
    tables
};

pub fn places(height: usize) -> &'static Places {
    &PLACES[height]
}

/// Puts the tree of `levels` levels under range `root` at `place` and the places
/// behind it: its upper half, then its lower subtrees from left to right.
const fn put(places: &mut Places, root: usize, place: usize, levels: usize) {
    if levels == 1 {
        places[root] = place as u8;
        return;
    }
    let top = levels / 2;
    put(places, root, place, top);
    let (mut i, upper, lower) = (0, (1 << top) - 1, (1 << (levels - top)) - 1);
    while i <= upper {
        put(places, (root << top) + i, place + upper + i * lower, levels - top);
        i += 1;
    }
}
