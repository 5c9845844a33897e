//! Cards for the zone maps, their bytes typed from document 02, No. 8, and worked out by hand.

use crate::calls::{Answer, Call, Library};
use crate::reader::NONE;
use crate::table::TABLE_BYTES;

const HEADER_16: &str =
    "ncols 16\nnrows 16\nxllcorner 0\nyllcorner 0\ncellsize 1\nNODATA_value -9999\nbyteorder LSBFIRST\n";
const HEADER_8: &str =
    "ncols 8\nnrows 8\nxllcorner 0\nyllcorner 0\ncellsize 2\nNODATA_value -9999\nbyteorder LSBFIRST\n";
const HEADER_4: &str =
    "ncols 4\nnrows 4\nxllcorner 0\nyllcorner 0\ncellsize 4\nNODATA_value -9999\nbyteorder LSBFIRST\n";
const HEADER_2: &str =
    "ncols 2\nnrows 2\nxllcorner 0\nyllcorner 0\ncellsize 8\nNODATA_value -9999\nbyteorder LSBFIRST\n";
const HEADER_1: &str =
    "ncols 1\nnrows 1\nxllcorner 0\nyllcorner 0\ncellsize 16\nNODATA_value -9999\nbyteorder LSBFIRST\n";
/// Each width with its header, and how many cells it has.
const HEADERS: [(u8, &str, usize); 5] =
    [(16, HEADER_16, 256), (8, HEADER_8, 64), (4, HEADER_4, 16), (2, HEADER_2, 4), (1, HEADER_1, 1)];

type Cell = [u8; 4];
const NOTHING: Cell = [0x00, 0x3C, 0x1C, 0xC6];
const ZERO: Cell = [0x00, 0x00, 0x00, 0x00];
const ONE: Cell = [0x00, 0x00, 0x80, 0x3F];
const HALF: Cell = [0x00, 0x00, 0x00, 0x3F];
const QUARTER: Cell = [0x00, 0x00, 0x80, 0x3E];
const EIGHTH: Cell = [0x00, 0x00, 0x00, 0x3E];
const SIXTEENTH: Cell = [0x00, 0x00, 0x80, 0x3D];
/// 1/3 is 2^-2 and 2796202.6.. of its 2^23 parts, 2/3 the same of 2^-1, both rounded up; 5/6 is 2^-1 and 5592405.3..,
/// rounded down; 1/255 is 2^-8 and 32896.501.., 254/255 is 2^-1 and 8322814.9.., both rounded up.
const THIRD: Cell = [0xAB, 0xAA, 0xAA, 0x3E];
const TWO_THIRDS: Cell = [0xAB, 0xAA, 0x2A, 0x3F];
const FIVE_SIXTHS: Cell = [0x55, 0x55, 0x55, 0x3F];
const ONE_OF_255: Cell = [0x81, 0x80, 0x80, 0x3B];
const ALL_BUT_ONE_OF_255: Cell = [0xFF, 0xFE, 0x7E, 0x3F];
const ALL_BUT_ONE_OF_256: Cell = [0x00, 0x00, 0x7F, 0x3F];

/// The number, both lengths, and both buffers afterwards, which held EEh.
type Said = (u8, u64, u64, Vec<u8>, Vec<u8>);

fn gridded(library: &mut impl Library, table: &[u8], width: u8, header: usize, cells: usize) -> Said {
    let (header, cells) = (vec![0xEE; header], vec![0xEE; cells]);
    match library.call(&Call::Grid { table: Some(table.to_vec()), width, header, cells }) {
        Answer::Gridded(g) => (g.number, g.header_length, g.cells_length, g.header, g.cells),
        _ => (NONE, 0, 0, Vec::new(), Vec::new()),
    }
}

fn refused(number: u8, header: usize, cells: usize) -> Said {
    (number, 0, 0, vec![0xEE; header], vec![0xEE; cells])
}

/// A table with these zones heard, and these of them faulted; of the others zones 17 and 256 have bit 0 of their
/// short flags set and mark bit 1, which say nothing.
fn table(heard: impl Iterator<Item = usize>, faulted: &[usize]) -> Vec<u8> {
    let mut table = vec![0; TABLE_BYTES];
    for zone in [17, 256] {
        table[8 * (zone - 1)] = 0b10;
        table[8 * (zone - 1) + 7] = 1;
    }
    for zone in heard {
        table[8 * (zone - 1)] |= 1;
        table[8 * (zone - 1) + 7] = u8::from(faulted.contains(&zone));
    }
    table
}

/// Whether the cells of a level are these, and the same ones for the rest.
fn has(library: &mut impl Library, table: &[u8], width: u8, first: &[Cell], rest: Cell) -> bool {
    let (_, header, count) = HEADERS.into_iter().find(|row| row.0 == width).expect("a level");
    let mut cells = vec![rest; count];
    cells[..first.len()].copy_from_slice(first);
    let (header, cells) = (header.as_bytes(), cells.concat());
    let mut has_with = |more: usize| {
        let (header_more, cells_more) = (vec![0xEE; more], vec![0xEE; 2 * more]);
        let (header, cells) = ([header, &header_more].concat(), [&cells[..], &cells_more].concat());
        let lengths = (header.len() - more, cells.len() - 2 * more);
        gridded(library, table, width, header.len(), cells.len())
            == (0, lengths.0 as u64, lengths.1 as u64, header, cells)
    };
    has_with(0) && has_with(9)
}

/// A fresh table that took card 5's message: zones 1-16 heard, zone 1 faulted.
fn table_5(library: &mut impl Library) -> Vec<u8> {
    let message = vec![0x05, 0x00, 0x01, 0x00, 0x00, 0x00, 0x00, 0x00, 0x00, 0x00];
    match library.call(&Call::Apply { table: Some(vec![0; TABLE_BYTES]), message }) {
        Answer::Applied { table, .. } => table,
        _ => Vec::new(),
    }
}

fn card_5(library: &mut impl Library) -> bool {
    let table = table_5(library);
    let row = |first: Cell, cells: usize| [&[first][..], &vec![ZERO; cells - 1]].concat();
    has(library, &table, 16, &row(ONE, 16), NOTHING)
        && has(library, &table, 8, &row(HALF, 8), NOTHING)
        && has(library, &table, 4, &row(QUARTER, 4), NOTHING)
        && has(library, &table, 2, &row(EIGHTH, 2), NOTHING)
        && has(library, &table, 1, &[SIXTEENTH], NOTHING)
}

fn nothing_heard(library: &mut impl Library) -> bool {
    let unheard = table(0..0, &[]);
    [16, 8, 4, 2, 1].into_iter().all(|width| {
        has(library, &[0; TABLE_BYTES], width, &[], NOTHING) && has(library, &unheard, width, &[], NOTHING)
    })
}

/// Zones 16 and 256 faulted, zone 241 not: top right, bottom right, bottom left.
fn corners(library: &mut impl Library) -> bool {
    let table = table([16, 241, 256].into_iter(), &[16, 256]);
    let mut zones = vec![NOTHING; 256];
    (zones[15], zones[240], zones[255]) = (ONE, ZERO, ONE);
    has(library, &table, 16, &zones, NOTHING)
        && has(library, &table, 2, &[NOTHING, ONE, ZERO, ONE], NOTHING)
        && has(library, &table, 1, &[TWO_THIRDS], NOTHING)
}

/// Blocks of three and six heard zones, and whole maps but for a zone.
fn rounded_shares(library: &mut impl Library) -> bool {
    let all_but = |zone: usize| (1..=256).filter(|&z| z != zone).collect::<Vec<_>>();
    has(library, &table([1, 2, 18].into_iter(), &[2]), 8, &[THIRD], NOTHING)
        && has(library, &table([1, 2, 18].into_iter(), &[1, 18]), 8, &[TWO_THIRDS], NOTHING)
        && has(
            library,
            &table([1, 4, 18, 35, 49, 52].into_iter(), &[1, 4, 18, 35, 52]),
            4,
            &[FIVE_SIXTHS],
            NOTHING,
        )
        && has(library, &table(1..=255, &[7]), 1, &[ONE_OF_255], NOTHING)
        && has(library, &table(1..=255, &all_but(7)), 1, &[ALL_BUT_ONE_OF_255], NOTHING)
        && has(library, &table(1..=256, &all_but(7)), 1, &[ALL_BUT_ONE_OF_256], NOTHING)
        && has(library, &table(1..=256, &all_but(0)), 1, &[ONE], NOTHING)
        && has(library, &table(1..=256, &[]), 1, &[ZERO], NOTHING)
}

/// 11, then 8, then 9.
fn refusals(library: &mut impl Library) -> bool {
    let table = table(1..=16, &[1]);
    let mut asks = |length: usize, width, header, cells, number| {
        gridded(library, &[&table[..], &[0]].concat()[..length], width, header, cells)
            == refused(number, header, cells)
    };
    asks(0, 16, 91, 1024, 11)
        && asks(2131, 16, 91, 1024, 11)
        && asks(2133, 16, 91, 1024, 11)
        && asks(2131, 3, 0, 0, 11)
        && asks(2131, 16, 90, 1023, 11)
        && [0, 3, 5, 15, 17, 32, 255].into_iter().all(|width| asks(2132, width, 91, 1024, 8))
        && asks(2132, 3, 0, 0, 8)
        && asks(2132, 16, 90, 1024, 9)
        && asks(2132, 16, 91, 1023, 9)
        && asks(2132, 16, 0, 0, 9)
        && asks(2132, 8, 88, 256, 9)
        && asks(2132, 1, 89, 4, 9)
        && asks(2132, 1, 90, 3, 9)
}

pub fn cards(library: &mut impl Library) -> [(&'static str, bool); 5] {
    [
        ("grid: card 5's table at each level, with its header", card_5(library)),
        ("grid: nothing heard at any level", nothing_heard(library)),
        ("grid: three corners", corners(library)),
        ("grid: shares that are rounded, 0 and 1", rounded_shares(library)),
        ("grid: 11, then 8, then 9", refusals(library)),
    ]
}
