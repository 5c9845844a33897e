//! Zone maps as float grids (document 02, No. 8): where each zone falls, its block's counts, and the shares made
//! from those in whole numbers.

use crate::table::{MARK, TABLE_BYTES, ZONE_BYTES, ZONE_SHORT};

/// "Lay the 256 zones as 16 rows of 16".
pub const ZONES: usize = 256;
pub const MAP: usize = 16;
/// The levels by their widths, in cells.
pub const LEVELS: [usize; 5] = [16, 8, 4, 2, 1];
/// "minus 9999 only on output, bytes 00 3C 1C C6".
pub const NO_DATA: [u8; 4] = [0x00, 0x3C, 0x1C, 0xC6];
const CELL_BYTES: usize = 4;

/// How many zones of a block are heard, and how many of those are faulted.
#[derive(Clone, Copy, Debug, Default, PartialEq)]
pub struct Block {
    pub heard: u16,
    pub faulted: u16,
}

/// The fields of nx584_gridded, and both buffers afterwards.
#[derive(Clone, Debug, PartialEq)]
pub struct Gridded {
    pub number: u8,
    pub header_length: u64,
    pub cells_length: u64,
    pub header: Vec<u8>,
    pub cells: Vec<u8>,
}

pub fn level_of(width: u8) -> Option<usize> {
    LEVELS.into_iter().find(|&level| level == usize::from(width))
}

/// The cell that a zone, 0 for zone 1, falls into. "zone 1 at top left".
pub fn cell_of(zone: usize, level: usize) -> usize {
    let (row, column) = (zone / MAP, zone % MAP);
    let side = MAP / level;
    row / side * level + column / side
}

/// A level's blocks, row by row from the top.
pub fn blocks(table: &[u8], level: usize) -> Vec<Block> {
    let mut blocks = vec![Block::default(); level * level];
    for (zone, record) in table.chunks_exact(ZONE_BYTES).take(ZONES).enumerate() {
        if record[MARK] & 1 == 1 {
            let block = &mut blocks[cell_of(zone, level)];
            block.heard += 1;
            block.faulted += u16::from(record[ZONE_SHORT] & 1);
        }
    }
    blocks
}

/// The bits of a block's share as f32, none where nothing is heard: faulted divided by heard to 24 bits, "rounded
/// once", to the nearest and from the middle to the even one.
pub fn share(block: Block) -> Option<u32> {
    let (faulted, heard) = (u64::from(block.faulted), u64::from(block.heard));
    if heard == 0 || faulted == 0 {
        return if heard == 0 { None } else { Some(0) };
    }
    let (mut dividend, mut exponent) = (faulted, 127 + 23);
    while dividend / heard < 1 << 23 {
        dividend *= 2;
        exponent -= 1;
    }
    let (quotient, rest) = (dividend / heard, dividend % heard);
    let is_up = 2 * rest > heard || (2 * rest == heard && quotient % 2 == 1);
    // where rounding up makes 25 bits of it, the sum carries into the exponent
    Some((exponent << 23) + (quotient + u64::from(is_up)) as u32 - (1 << 23))
}

/// "rows of little-endian f32".
pub fn cell(share: Option<u32>) -> [u8; CELL_BYTES] {
    share.map_or(NO_DATA, |bits| [0, 8, 16, 24].map(|shift| (bits >> shift) as u8))
}

/// "a level w wide has w for both counts and 16 divided by w for cellsize."
pub fn header(level: usize) -> String {
    let lines = [
        format!("ncols {level}"),
        format!("nrows {level}"),
        "xllcorner 0".to_string(),
        "yllcorner 0".to_string(),
        format!("cellsize {}", MAP / level),
        "NODATA_value -9999".to_string(),
        "byteorder LSBFIRST".to_string(),
    ];
    lines.map(|line| line + "\n").concat()
}

pub fn cells_length(level: usize) -> usize {
    CELL_BYTES * level * level
}

/// "its header and cells go to the beginnings of two lent buffers, both lengths are said, bytes beyond stay. ..
/// Refusals: 11, then 9 if either buffer is short." Between them nx584.h has 8 for a width that is no level's.
pub fn grid(table: &[u8], width: u8, header: &[u8], cells: &[u8]) -> Gridded {
    let refused = |number| {
        let (header, cells) = (header.to_vec(), cells.to_vec());
        Gridded { number, header_length: 0, cells_length: 0, header, cells }
    };
    if table.len() != TABLE_BYTES {
        return refused(11);
    }
    let level = match level_of(width) {
        Some(level) => level,
        None => return refused(8),
    };
    let text = self::header(level);
    if text.len() > header.len() || cells_length(level) > cells.len() {
        return refused(9);
    }
    let laid: Vec<u8> = blocks(table, level).into_iter().flat_map(|block| cell(share(block))).collect();
    Gridded {
        number: 0,
        header_length: text.len() as u64,
        cells_length: laid.len() as u64,
        header: [text.as_bytes(), &header[text.len()..]].concat(),
        cells: [&laid, &cells[laid.len()..]].concat(),
    }
}
