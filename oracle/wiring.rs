//! Which inputs carry a pack's cells, written a second time: by the rule of the blocks, where the port has the datasheet's rows. And the figures of
//! those cells.

/// The fitted inputs of X inputs with so many cells, from 1, the bottom of the pack first. The blocks of five share the cells as evenly as can be,
/// the lower ones first; in a block of so many cells the last sits on its fifth input, the others on its first ones.
pub fn fitted(x: usize, cells: usize) -> Vec<usize> {
    let blocks = x / 5;
    let in_block = |block: usize| cells / blocks + (block < cells % blocks) as usize;
    (0..blocks).flat_map(|block| (1..in_block(block)).chain([5]).map(move |input| 5 * block + input)).collect()
}

/// Sum, lowest and highest of a pack's cells.
pub fn figures(cells: &[i32]) -> [i32; 3] {
    [cells.iter().sum(), *cells.iter().min().expect("a cell"), *cells.iter().max().expect("a cell")]
}

/// The cell on an input of a pack, from 1: 9, 10, 21.
pub fn cell_on(x: u8, cells: u8, input: u8) -> Result<u8, u8> {
    if ![5, 10, 15].contains(&x) {
        return Err(9);
    }
    if !(3 * (x / 5)..=x).contains(&cells) {
        return Err(10);
    }
    let place = fitted(x as usize, cells as usize).iter().position(|fitted| *fitted == input as usize);
    place.map_or(Err(21), |place| Ok(place as u8 + 1))
}
