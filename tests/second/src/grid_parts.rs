//! The call of the zone maps (document 02, No. 8) in parts, so that a fault can be planted in each.

use crate::calls::{Answer, Call, Library, Second};
use crate::grid::{self, cells_length, Block, Gridded, MAP, ZONES};
use crate::table::{MARK, TABLE_BYTES, ZONE_BYTES, ZONE_SHORT};

/// A row and a column.
type Place = (usize, usize);

/// What a fault may exchange.
#[derive(Clone)]
pub struct Parts {
    pub is_table: fn(usize) -> bool,
    pub level: fn(u8) -> Option<usize>,
    /// Whether a length is short of what is needed.
    pub header_short: fn(usize, usize) -> bool,
    pub cells_short: fn(usize, usize) -> bool,
    /// 9, by which of the two is short.
    pub nine: fn(bool, bool) -> bool,
    pub order: [u8; 3],
    /// Where a zone lies, and by the side of a block which cell it falls into.
    pub lies: fn(usize) -> Place,
    pub falls: fn(Place, usize) -> Place,
    /// Whether a zone counts, by its place in its block and the side.
    pub counts: fn(Place, usize) -> bool,
    /// By a zone's record.
    pub heard: fn(&[u8]) -> bool,
    pub faulted: fn(&[u8]) -> bool,
    /// What a zone adds to heard and to faulted.
    pub adds: fn(bool, bool) -> (u16, u16),
    pub share: fn(Block) -> [u8; 4],
    /// All cells of a level.
    pub cells: fn(&Parts, &[u8], usize) -> Vec<u8>,
    pub header: fn(usize) -> String,
    /// What is said of the lengths of the header and of the cells, and of the level.
    pub said: fn(usize, usize, usize) -> (usize, usize),
    /// Puts header and cells into their buffers, as far as they fit.
    pub put: fn(&mut [u8], &mut [u8], &[u8], &[u8]),
    /// What is done all the same, with the header and the cells, at a refusal.
    pub refused: (u8, fn(&mut Gridded, &[u8], &[u8])),
}

pub fn put_from(buffer: &mut [u8], begin: usize, bytes: &[u8]) {
    buffer.iter_mut().skip(begin).zip(bytes).for_each(|(place, &byte)| *place = byte);
}

pub const RIGHT: Parts = Parts {
    is_table: |length| length == TABLE_BYTES,
    level: grid::level_of,
    header_short: |length, need| length < need,
    cells_short: |length, need| length < need,
    nine: |header, cells| header || cells,
    order: [11, 8, 9],
    lies: |zone| (zone / MAP, zone % MAP),
    falls: |(row, column), side| (row / side, column / side),
    counts: |_, _| true,
    heard: |zone| zone[MARK] & 1 != 0,
    faulted: |zone| zone[ZONE_SHORT] & 1 != 0,
    adds: |heard, faulted| (heard.into(), (heard && faulted).into()),
    share: |block| grid::cell(grid::share(block)),
    cells: |parts, table, level| parts.blocks(table, level).into_iter().flat_map(parts.share).collect(),
    header: grid::header,
    said: |header, cells, _| (header, cells),
    put: |header, cells, text, laid| {
        put_from(header, 0, text);
        put_from(cells, 0, laid);
    },
    refused: (0, |_, _, _| {}),
};

impl Parts {
    fn blocks(&self, table: &[u8], level: usize) -> Vec<Block> {
        let (mut blocks, side) = (vec![Block::default(); level * level], MAP / level);
        for (zone, record) in table.chunks_exact(ZONE_BYTES).take(ZONES).enumerate() {
            let (row, column) = (self.lies)(zone);
            if (self.counts)((row % side, column % side), side) {
                let cell = (self.falls)((row, column), side);
                let (heard, faulted) = (self.adds)((self.heard)(record), (self.faulted)(record));
                let block = &mut blocks[cell.0 * level + cell.1];
                block.heard += heard;
                block.faulted += faulted;
            }
        }
        blocks
    }

    fn refusal(&self, table: &[u8], level: Option<usize>, lengths: [usize; 2]) -> u8 {
        // where 9 comes before 8, what the narrowest level needs
        let level_or_1 = level.unwrap_or(1);
        let header_short = (self.header_short)(lengths[0], grid::header(level_or_1).len());
        let cells_short = (self.cells_short)(lengths[1], cells_length(level_or_1));
        let holds = |number: &u8| match number {
            11 => !(self.is_table)(table.len()),
            8 => level.is_none(),
            _ => (self.nine)(header_short, cells_short),
        };
        self.order.into_iter().find(holds).unwrap_or(0)
    }

    fn grid(&self, table: &[u8], width: u8, header: &[u8], cells: &[u8]) -> Gridded {
        let level = (self.level)(width);
        let number = self.refusal(table, level, [header.len(), cells.len()]);
        let level = level.unwrap_or(MAP);
        let (mut header, mut cells) = (header.to_vec(), cells.to_vec());
        if number != 0 && number != self.refused.0 {
            return Gridded { number, header_length: 0, cells_length: 0, header, cells };
        }
        let (text, laid) = ((self.header)(level).into_bytes(), (self.cells)(self, table, level));
        if number != 0 {
            let mut refused = Gridded { number, header_length: 0, cells_length: 0, header, cells };
            (self.refused.1)(&mut refused, &text, &laid);
            return refused;
        }
        let said = (self.said)(text.len(), laid.len(), level);
        (self.put)(&mut header, &mut cells, &text, &laid);
        Gridded { number, header_length: said.0 as u64, cells_length: said.1 as u64, header, cells }
    }
}

/// The second program with other parts.
pub struct Faulty {
    parts: Parts,
    right: Second,
}

impl Faulty {
    pub fn new(parts: &Parts) -> Faulty {
        Faulty { parts: parts.clone(), right: Second::new() }
    }
}

impl Library for Faulty {
    fn call(&mut self, call: &Call) -> Answer {
        match call {
            Call::Grid { table, width, header, cells } => {
                Answer::Gridded(self.parts.grid(self.right.own(table), *width, header, cells))
            }
            _ => self.right.call(call),
        }
    }
}
