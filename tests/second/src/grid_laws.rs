//! What must hold of the second program's own maps (document 02, No. 8).

use crate::grid::{blocks, cell, cell_of, grid, header, share, Block, LEVELS, MAP, NO_DATA, ZONES};
use crate::grid_made::{all_blocks, needs, places, with_bit};
use crate::made::{self, Chance};
use crate::table::{view, TABLE_BYTES};
use crate::Tally;

/// A table's cells at a level, as they are handed out.
fn cells(table: &[u8], level: usize) -> Vec<u8> {
    let [header, cells] = needs(level).map(|need| vec![0; need]);
    grid(table, level as u8, &header, &cells).cells
}

/// The division in whole numbers is the machine's in f32, and, as it happens, its one in f64 rounded again.
fn shares_are_rounded_once() -> bool {
    let all = all_blocks(1);
    all.len() == 33_153
        && all.into_iter().filter(|block| block.heard > 0).all(|block| {
            let (faulted, heard) = (f32::from(block.faulted), f32::from(block.heard));
            let twice = (f64::from(faulted) / f64::from(heard)) as f32;
            share(block) == Some((faulted / heard).to_bits()) && share(block) == Some(twice.to_bits())
        })
}

/// "A share is 0 exactly when none is faulted and 1 exactly when all heard are." One more faulted is more, and no
/// share has the bytes of minus 9999.
fn shares_are_told() -> bool {
    let bytes = |block: Block| cell(share(block));
    (-9999_f32).to_le_bytes() == NO_DATA
        && all_blocks(1).into_iter().all(|block| {
            let Block { heard, faulted } = block;
            let value = f32::from_le_bytes(bytes(block));
            let one_more = f32::from_le_bytes(bytes(Block { heard, faulted: faulted + 1 }));
            if heard == 0 {
                return bytes(block) == NO_DATA;
            }
            (bytes(block) == [0; 4]) == (faulted == 0)
                && (bytes(block) == [0x00, 0x00, 0x80, 0x3F]) == (faulted == heard)
                && (0.0..=1.0).contains(&value)
                && value < one_more
                && bytes(block) != NO_DATA
        })
}

/// Four cells of a level make one of the next, by their counts; the one of the last is the overview's site, a row of
/// the first a group.
fn counts_add_up(chance: &mut Chance) -> bool {
    let sum = |blocks: &[Block]| {
        let total = |count: fn(&Block) -> u16| blocks.iter().map(count).sum();
        Block { heard: total(|block| block.heard), faulted: total(|block| block.faulted) }
    };
    (0..2_000).all(|_| {
        let table = made::table(chance);
        let overview = view(&table);
        let groups = overview.groups.map(|group| Block { heard: group.heard, faulted: group.faulted });
        let four = |fine: &[Block], level: usize, place: usize| {
            let corner = place / level * 4 * level + place % level * 2;
            sum(&[corner, corner + 1, corner + 2 * level, corner + 2 * level + 1].map(|k| fine[k]))
        };
        let site = share(groups[MAP]).map(f32::from_bits);
        [8, 4, 2, 1].into_iter().all(|level| {
            let (fine, coarse) = (blocks(&table, 2 * level), blocks(&table, level));
            (0..level * level).all(|place| four(&fine, level, place) == coarse[place])
        }) && blocks(&table, 16).chunks(MAP).map(sum).eq(groups[..MAP].iter().copied())
            && blocks(&table, 1) == [groups[MAP]]
            && site.map_or(overview.groups[MAP].known == 0, |site| site == overview.groups[MAP].share as f32)
    })
}

/// The table with every bit changed that no map tells.
fn otherwise_alike(chance: &mut Chance, table: &[u8]) -> Vec<u8> {
    let mut other: Vec<u8> = (0..TABLE_BYTES).map(|_| chance.byte()).collect();
    for [mark, short] in (0..ZONES).map(places) {
        let heard = table[mark] & 1 == 1;
        other[mark] = with_bit(chance, heard);
        if heard {
            other[short] = with_bit(chance, table[short] & 1 == 1);
        }
    }
    other
}

fn only_heard_zones_matter(chance: &mut Chance) -> bool {
    (0..2_000).all(|_| {
        let table = made::table(chance);
        let other = otherwise_alike(chance, &table);
        LEVELS.into_iter().all(|level| cells(&table, level) == cells(&other, level))
    })
}

/// A zone changes at most the one cell of a level that is in its row and column; at the widest level that one always.
fn a_zone_is_in_one_cell(chance: &mut Chance) -> bool {
    (0..ZONES).all(|zone| {
        let (before, [mark, _]) = (made::table(chance), places(zone));
        let mut after = before.clone();
        after[mark] ^= 1;
        LEVELS.into_iter().all(|level| {
            let (before, after) = (cells(&before, level), cells(&after, level));
            let pairs = before.chunks(4).zip(after.chunks(4)).enumerate();
            let changed: Vec<usize> = pairs.filter(|(_, (b, a))| b != a).map(|(cell, _)| cell).collect();
            let own = (zone / MAP * level / MAP) * level + zone % MAP * level / MAP;
            (changed == [own] || (changed.is_empty() && level < MAP)) && cell_of(zone, level) == own
        })
    })
}

/// Seven lines of a name, a space and a value; as many zones as columns and rows of cells have.
fn headers_are_read(level: usize) -> bool {
    let text = header(level);
    let lines: Vec<(&str, &str)> = text.lines().filter_map(|line| line.split_once(' ')).collect();
    let number = |name: &str| {
        let line = lines.iter().find(|line| line.0 == name);
        line.and_then(|line| line.1.parse::<i32>().ok()).unwrap_or(-1)
    };
    let names: Vec<&str> = lines.iter().map(|line| line.0).collect();
    names == ["ncols", "nrows", "xllcorner", "yllcorner", "cellsize", "NODATA_value", "byteorder"]
        && text.bytes().filter(|&byte| byte == 0x0A).count() == 7
        && text.ends_with("LSBFIRST\n")
        && number("ncols") == level as i32
        && number("nrows") * number("cellsize") == 16
        && (number("xllcorner"), number("yllcorner"), number("NODATA_value")) == (0, 0, -9999)
        && text.len() <= header(16).len()
        && header(16).len() == 91
}

pub fn run(chance: &mut Chance, tally: &mut Tally) {
    tally.note("grid: every share is the machine's own", shares_are_rounded_once());
    tally.note("grid: 0 where none is faulted, 1 where all are, between else", shares_are_told());
    tally.note("grid: counts add up from level to level, to the overview's", counts_add_up(chance));
    tally.note("grid: tables alike in heard zones have the same cells", only_heard_zones_matter(chance));
    tally.note("grid: a zone is in one cell of each level", a_zone_is_in_one_cell(chance));
    tally.note("grid: headers read back", LEVELS.into_iter().all(headers_are_read));
}
