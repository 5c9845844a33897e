//! The trials of the zone maps (document 02, No. 8), written for anything that is asked, so that the self tests
//! can ask a faulty library.

use crate::calls::{Answer, Call};
use crate::driver::Calls;
use crate::grid::{level_of, Block, LEVELS, MAP, ZONES};
use crate::grid_made::{
    all_blocks, buffer, needs, places, rooms, shapes, some_room, table, width, with_bit, with_blocks, Zone,
    NO_TABLES,
};
use crate::log_trials::{as_trials, Ask};
use crate::made::{self, Chance};
use crate::table::TABLE_BYTES;
use crate::trials::{fresh_table, show_table};

/// The trials with a fixed number of calls, those first that find most faults soonest.
pub const ASKED: [fn(&mut Chance, &mut Ask); 7] =
    [ask_bits, ask_rooms, ask_widths, ask_tables, ask_zones, ask_shapes, ask_pairs];

fn lend(ask: &mut Ask, table: Vec<u8>) {
    ask(Call::LendTable { table });
}

/// The kept table is as it was lent and changed.
fn show(ask: &mut Ask) {
    ask(Call::Show { length: TABLE_BYTES });
}

fn ask_grid(chance: &mut Chance, ask: &mut Ask, width: u8, [header, cells]: [usize; 2]) -> Answer {
    let (header, cells) = (buffer(chance, header), buffer(chance, cells));
    ask(Call::Grid { table: None, width, header, cells })
}

/// A level of the kept table, in buffers that are just long enough or a little longer.
fn ask_level(chance: &mut Chance, ask: &mut Ask, level: usize) {
    let lengths = needs(level).map(|need| need + chance.of(&[0, 0, 1, 4]));
    ask_grid(chance, ask, level as u8, lengths);
}

fn ask_levels(chance: &mut Chance, ask: &mut Ask) {
    LEVELS.into_iter().for_each(|level| ask_level(chance, ask, level));
}

// ---- the zones

/// What all zones but one are, and what that one is.
const ALONE: [(Zone, Zone); 6] = [
    ((false, true), (true, true)),
    ((false, true), (true, false)),
    ((true, false), (false, true)),
    ((true, true), (false, false)),
    ((true, false), (true, true)),
    ((true, true), (true, false)),
];

fn change_zone(chance: &mut Chance, ask: &mut Ask, zone: usize, (heard, short): Zone) {
    for (place, bit) in places(zone).into_iter().zip([heard, short]) {
        let byte = with_bit(chance, bit);
        ask(Call::ChangeTable { place, byte });
    }
}

/// Every zone alone heard, not heard, faulted and not faulted; a bit 0 of one that is not heard says nothing.
fn ask_zones(chance: &mut Chance, ask: &mut Ask) {
    for (others, alone) in ALONE {
        let others = |chance: &mut Chance| if others.0 { others } else { (false, chance.one_in(2)) };
        lend(ask, table(chance, |chance, _| others(chance)));
        for zone in 0..ZONES {
            change_zone(chance, ask, zone, alone);
            ask_levels(chance, ask);
            let other = others(chance);
            change_zone(chance, ask, zone, other);
        }
        show(ask);
    }
}

/// Each block of each level, each row and each column: faulted where no other zone is heard, not heard, and not
/// faulted where all others are.
fn ask_shapes(chance: &mut Chance, ask: &mut Ask) {
    let ways: [(Zone, Zone); 3] =
        [((true, true), (false, true)), ((false, true), (true, false)), ((true, false), (true, true))];
    for shape in shapes() {
        for (within, around) in ways {
            lend(ask, table(chance, |_, zone| if shape.contains(&zone) { within } else { around }));
            ask_levels(chance, ask);
        }
        show(ask);
    }
}

/// A fresh table, those with the same value in every byte, and any.
fn ask_tables(chance: &mut Chance, ask: &mut Ask) {
    let mut tables: Vec<Vec<u8>> = (0..=255).map(|value| vec![value; TABLE_BYTES]).collect();
    tables.extend((0..400).map(|_| made::table(chance)));
    for table in tables {
        lend(ask, table);
        ask_levels(chance, ask);
        show(ask);
    }
}

/// Every mark with every short byte, all short bytes in each table.
fn ask_bits(chance: &mut Chance, ask: &mut Ask) {
    for turn in 0..=255_u8 {
        let mut table = made::table(chance);
        for zone in 0..ZONES {
            let [mark, short] = places(zone);
            table[short] = (zone as u8).wrapping_mul(89);
            table[mark] = table[short].wrapping_add(turn);
        }
        lend(ask, table);
        ask_levels(chance, ask);
    }
}

// ---- the counts

/// Every pair of counts in the one cell of the narrowest level: with so many heard, one more is faulted each time.
fn ask_all_pairs(chance: &mut Chance, ask: &mut Ask) {
    for heard in 0..=ZONES as u16 {
        let table = with_blocks(chance, 1, &[Block { heard, faulted: 0 }]);
        let zones: Vec<usize> = (0..ZONES).filter(|&zone| table[places(zone)[0]] & 1 == 1).collect();
        let first = chance.below(ZONES);
        lend(ask, table);
        ask_level(chance, ask, 1);
        for k in 0..zones.len() {
            let [_, place] = places(zones[(first + k) % zones.len()]);
            ask(Call::ChangeTable { place, byte: with_bit(chance, true) });
            ask_level(chance, ask, 1);
        }
    }
    show(ask);
}

/// Every pair of counts that a cell of a level can have, in each of its cells and with other pairs around.
fn ask_pairs(chance: &mut Chance, ask: &mut Ask) {
    for level in [16, 8, 4, 2] {
        let all = all_blocks(level);
        for first in 0..all.len() {
            let blocks: Vec<Block> =
                (0..level * level).map(|cell| all[(first + 7 * cell) % all.len()]).collect();
            lend(ask, with_blocks(chance, level, &blocks));
            ask_levels(chance, ask);
        }
    }
    ask_all_pairs(chance, ask);
}

// ---- widths and buffers

/// Every width, with a table and without, and with room for every level, for none, and for one of header and cells.
fn ask_widths(chance: &mut Chance, ask: &mut Ask) {
    for length in [TABLE_BYTES].into_iter().chain(NO_TABLES) {
        let table = if length == TABLE_BYTES { made::table(chance) } else { made::bytes(chance, length) };
        lend(ask, table);
        for width in 0..=255 {
            for (header, cells) in [(0, 0), (0, 1024), (91, 0), (88, 3), (88, 1024), (91, 3), (91, 1024)] {
                ask_grid(chance, ask, width, [header, cells]);
            }
        }
        ask(Call::Show { length });
    }
}

/// Every room for the one with every room for the other; twice, so that an empty one is NULL and is not.
fn ask_each_room(chance: &mut Chance, ask: &mut Ask, level: usize) {
    let [header, cells] = needs(level).map(rooms);
    for (header, cells) in header.iter().flat_map(|&h| cells.iter().map(move |&c| (h, c))) {
        for _ in 0..2 {
            ask_grid(chance, ask, level as u8, [header, cells]);
        }
    }
}

/// Every length of the one buffer from none to a little more than is needed, and 256 and 512, with the other just
/// long enough and one byte short.
fn ask_each_length(chance: &mut Chance, ask: &mut Ask, level: usize) {
    let [header, cells] = needs(level);
    for other in [0, 1] {
        for length in (0..=header + 2).chain([256, 512]) {
            ask_grid(chance, ask, level as u8, [length, cells - other]);
        }
        for length in (0..=cells + 2).chain([256, 512, 2048]) {
            ask_grid(chance, ask, level as u8, [header - other, length]);
        }
    }
}

fn ask_rooms(chance: &mut Chance, ask: &mut Ask) {
    for level in LEVELS {
        lend(ask, made::table(chance));
        ask_each_length(chance, ask, level);
        ask_each_room(chance, ask, level);
        show(ask);
    }
}

// ---- as trials of the library

as_trials! {
    all_zones: ask_zones,
    all_shapes: ask_shapes,
    all_tables: ask_tables,
    all_bits: ask_bits,
    all_pairs: ask_pairs,
    all_widths: ask_widths,
    all_rooms: ask_rooms,
}

/// Any table, width and buffers.
pub fn any_grids(chance: &mut Chance, calls: &mut Calls, budget: u64) {
    while calls.made < budget {
        let table = if chance.one_in(12) { made::no_table(chance) } else { made::table(chance) };
        let width = width(chance);
        let needs = needs(level_of(width).unwrap_or(MAP));
        let [header, cells] = needs.map(|need| some_room(chance, need));
        let (header, cells) = (buffer(chance, header), buffer(chance, cells));
        calls.call(Call::Grid { table: Some(table), width, header, cells });
    }
}

/// A fresh table that hears, and a level of it after each message.
pub fn runs_from_fresh(chance: &mut Chance, calls: &mut Calls, budget: u64) {
    while calls.made < budget {
        fresh_table(calls);
        for _ in 0..100 {
            calls.call(Call::Apply { table: None, message: made::table_message(chance) });
            let level = chance.of(&LEVELS);
            ask_level(chance, &mut |call| calls.call(call), level);
        }
        show_table(calls);
    }
}
