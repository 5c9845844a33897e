//! Made tables of which the map is chosen and every other bit is any, and made buffers for the grids.

use crate::grid::{cell_of, cells_length, header, Block, LEVELS, MAP, ZONES};
use crate::made::{self, Chance};
use crate::room_made::shuffle;
use crate::table::{MARK, TABLE_BYTES, ZONE_BYTES, ZONE_SHORT};

/// Lengths of buffers that are no table: none, all zones' records alone, those of document 02's No. 10, one off.
pub const NO_TABLES: [usize; 9] =
    [0, 1, 1812, 2048, 2120, TABLE_BYTES - 1, TABLE_BYTES + 1, 2 * TABLE_BYTES, 65_536 + TABLE_BYTES];
/// So much room is long, and none where a length has 16 bits.
pub const LONG: usize = 65_536;

/// Whether a zone is heard, and bit 0 of its short flags.
pub type Zone = (bool, bool);

/// Where the mark and the short byte of a zone stand.
pub fn places(zone: usize) -> [usize; 2] {
    [MARK, ZONE_SHORT].map(|place| ZONE_BYTES * zone + place)
}

/// A byte with this bit 0; of the others any are set, often none or all.
pub fn with_bit(chance: &mut Chance, bit: bool) -> u8 {
    let others = chance.of(&[0x00, 0x02, 0x0E, 0xFE]);
    let others = if chance.one_in(2) { chance.byte() & 0xFE } else { others };
    others | u8::from(bit)
}

pub fn table(chance: &mut Chance, mut zone: impl FnMut(&mut Chance, usize) -> Zone) -> Vec<u8> {
    let mut table: Vec<u8> = (0..TABLE_BYTES).map(|_| chance.byte()).collect();
    for number in 0..ZONES {
        let (heard, short) = zone(chance, number);
        let [mark, flags] = places(number);
        table[mark] = with_bit(chance, heard);
        table[flags] = with_bit(chance, short);
    }
    table
}

/// A table with these blocks at a level: any of their zones are heard, any of those faulted.
pub fn with_blocks(chance: &mut Chance, level: usize, blocks: &[Block]) -> Vec<u8> {
    let mut zones = [(false, false); ZONES];
    for (cell, block) in blocks.iter().enumerate() {
        let mut of_block: Vec<usize> = (0..ZONES).filter(|&zone| cell_of(zone, level) == cell).collect();
        shuffle(chance, &mut of_block);
        for (k, zone) in of_block.into_iter().enumerate() {
            let is_heard = k < usize::from(block.heard);
            let short = if is_heard { k < usize::from(block.faulted) } else { chance.one_in(2) };
            zones[zone] = (is_heard, short);
        }
    }
    table(chance, |_, zone| zones[zone])
}

/// Every block that a cell of a level can have.
pub fn all_blocks(level: usize) -> Vec<Block> {
    let most = (ZONES / level / level) as u16;
    (0..=most).flat_map(|heard| (0..=heard).map(move |faulted| Block { heard, faulted })).collect()
}

/// The place of a block among them.
pub fn place_of(block: Block) -> usize {
    let heard = usize::from(block.heard);
    heard * (heard + 1) / 2 + usize::from(block.faulted)
}

/// The zones of each block of each level, of each row and of each column.
pub fn shapes() -> Vec<Vec<usize>> {
    let zones_where = |is: &dyn Fn(usize) -> bool| (0..ZONES).filter(|&zone| is(zone)).collect();
    let mut shapes = Vec::new();
    for level in LEVELS {
        shapes.extend((0..level * level).map(|cell| zones_where(&|zone| cell_of(zone, level) == cell)));
    }
    shapes.extend((0..MAP).map(|row| zones_where(&|zone| zone / MAP == row)));
    shapes.extend((0..MAP).map(|column| zones_where(&|zone| zone % MAP == column)));
    shapes
}

/// What a level needs of the two buffers.
pub fn needs(level: usize) -> [usize; 2] {
    [header(level).len(), cells_length(level)]
}

/// Lengths of a buffer, one for each room that is told apart: see grid_counts.
pub fn rooms(need: usize) -> [usize; 7] {
    [0, need / 2, need - 1, need, need + 1, need + 7, LONG]
}

/// A buffer of so many bytes, of which no two neighbours are alike.
pub fn buffer(chance: &mut Chance, length: usize) -> Vec<u8> {
    let (first, step) = (chance.byte(), chance.byte() | 1);
    (0..length).map(|k| first.wrapping_add(step.wrapping_mul(k as u8))).collect()
}

/// A length around what is needed, or any.
pub fn some_room(chance: &mut Chance, need: usize) -> usize {
    match chance.below(8) {
        0 => chance.of(&rooms(need)[..6]),
        1 => chance.below(need + 8),
        _ => need + chance.of(&[0, 0, 1, 4]),
    }
}

/// Some width, mostly a level's.
pub fn width(chance: &mut Chance) -> u8 {
    match chance.below(8) {
        0 => made::byte(chance),
        _ => chance.of(&[16, 8, 4, 2, 1]),
    }
}
