//! How often each answer of the zone maps was met, for which maps and at which edges; and which must have been.

use crate::calls::{Answer, Call};
use crate::grid::{blocks, level_of, LEVELS, ZONES};
use crate::grid_made::{all_blocks, needs, place_of, places, LONG, NO_TABLES};
use crate::rows::{decimal, print_least, Row, Rows};
use crate::table::apply;

const SHORT: [&str; 4] = ["neither", "the header", "the cells", "both"];
const BEFORE_11: [&str; 4] = ["nothing", "8", "9", "8 with no room"];
/// The room that a buffer has: empty, short by more than one byte, one short, exact, one more, more, long.
const ROOMS: usize = 7;
/// The ways in which a zone is alone: the only one heard, faulted or not; the only one that is not heard, its
/// bit 0 set or not; of all heard the only one faulted, the only one that is not.
const WAYS: usize = 6;
/// What the levels with the shortest header need, and the level with the fewest cells.
const LEAST: [usize; 2] = [89, 4];

const ROWS: [Row; 14] = [
    Row { name: "grid, 16 wide: number", wanted: &[0, 9, 11], show: decimal },
    Row { name: "grid, 8 wide: number", wanted: &[0, 9, 11], show: decimal },
    Row { name: "grid, 4 wide: number", wanted: &[0, 9, 11], show: decimal },
    Row { name: "grid, 2 wide: number", wanted: &[0, 9, 11], show: decimal },
    Row { name: "grid, 1 wide: number", wanted: &[0, 9, 11], show: decimal },
    Row { name: "grid, any other width: number", wanted: &[8, 11], show: decimal },
    Row { name: "grid, 16 wide, 9: short", wanted: &[1, 2, 3], show: short },
    Row { name: "grid, 8 wide, 9: short", wanted: &[1, 2, 3], show: short },
    Row { name: "grid, 4 wide, 9: short", wanted: &[1, 2, 3], show: short },
    Row { name: "grid, 2 wide, 9: short", wanted: &[1, 2, 3], show: short },
    Row { name: "grid, 1 wide, 9: short", wanted: &[1, 2, 3], show: short },
    Row { name: "grid, 8: short for every level", wanted: &[0, 1, 2, 3], show: short },
    Row { name: "grid, 11 before", wanted: &[0, 1, 2, 3], show: before_11 },
    Row { name: "grid, 11: bytes of the buffer", wanted: &[0, 1, 2, 3, 4, 5, 6, 7, 8], show: no_table },
];
const NUMBER: usize = 0;
const SHORT_AT_9: usize = 6;
const SHORT_AT_8: usize = 11;
const BEFORE: usize = 12;
const NO_TABLE: usize = 13;

fn short(number: u8) -> String {
    SHORT[usize::from(number)].to_string()
}

fn before_11(number: u8) -> String {
    BEFORE_11[usize::from(number)].to_string()
}

fn no_table(number: u8) -> String {
    NO_TABLES.get(usize::from(number)).map_or("other".to_string(), |length| length.to_string())
}

/// Which of the two buffers are shorter than is needed, as a number of SHORT.
fn which_short(lengths: [usize; 2], needs: [usize; 2]) -> u8 {
    u8::from(lengths[0] < needs[0]) + 2 * u8::from(lengths[1] < needs[1])
}

fn room(length: usize, need: usize) -> usize {
    match length {
        0 => 0,
        _ if length + 1 < need => 1,
        _ if length < need => 2,
        _ if length == need => 3,
        _ if length == need + 1 => 4,
        _ if length < LONG => 5,
        _ => 6,
    }
}

/// What was met at a level.
struct Level {
    /// By cell and pair of counts.
    pairs: Vec<Vec<u64>>,
    /// By way and zone.
    alone: Vec<u64>,
    /// By the room of the header's buffer and that of the cells'.
    rooms: [u64; ROOMS * ROOMS],
}

pub struct GridCounts {
    rows: Rows,
    levels: Vec<Level>,
    /// By width: 8, and 11.
    widths: [[u64; 256]; 2],
    /// By mark and short byte of a zone, at the widest level.
    bits: Vec<u64>,
    /// The driver's kept table.
    kept: Vec<u8>,
}

/// The way in which one zone is alone, and which.
fn alone(table: &[u8]) -> Option<(usize, usize)> {
    let bit = |zone: usize, place: usize| table[places(zone)[place]] & 1 == 1;
    let (heard, unheard): (Vec<usize>, Vec<usize>) = (0..ZONES).partition(|&zone| bit(zone, 0));
    match (&heard[..], &unheard[..]) {
        ([zone], _) => return Some((usize::from(!bit(*zone, 1)), *zone)),
        (_, [zone]) => return Some((2 + usize::from(!bit(*zone, 1)), *zone)),
        (_, []) => {}
        _ => return None,
    }
    let (faulted, others): (Vec<usize>, Vec<usize>) = (0..ZONES).partition(|&zone| bit(zone, 1));
    match (&faulted[..], &others[..]) {
        ([zone], _) => Some((4, *zone)),
        (_, [zone]) => Some((5, *zone)),
        _ => None,
    }
}

fn add_all<'a>(mine: impl Iterator<Item = &'a mut u64>, theirs: impl Iterator<Item = &'a u64>) {
    mine.zip(theirs).for_each(|(mine, theirs)| *mine += theirs);
}

impl Level {
    fn new(level: usize) -> Level {
        Level {
            pairs: vec![vec![0; all_blocks(level).len()]; level * level],
            alone: vec![0; WAYS * ZONES],
            rooms: [0; ROOMS * ROOMS],
        }
    }

    fn add(&mut self, other: &Level) {
        add_all(self.pairs.iter_mut().flatten(), other.pairs.iter().flatten());
        add_all(self.alone.iter_mut(), other.alone.iter());
        add_all(self.rooms.iter_mut(), other.rooms.iter());
    }

    fn count_map(&mut self, level: usize, table: &[u8]) {
        for (pairs, block) in self.pairs.iter_mut().zip(blocks(table, level)) {
            pairs[place_of(block)] += 1;
        }
        if let Some((way, zone)) = alone(table) {
            self.alone[way * ZONES + zone] += 1;
        }
    }

    fn print(&self, level: usize, missing: &mut Vec<String>) {
        let pairs = self.pairs[0].len();
        let what = format!("grid, {level} wide, each cell with each of {pairs} pairs of counts");
        print_least(&what, self.pairs.iter().flatten().copied(), missing);
        let what = format!("grid, {level} wide, each zone alone in each of six ways");
        print_least(&what, self.alone.iter().copied(), missing);
        let what = format!("grid, {level} wide, each of seven rooms for the header and for the cells");
        print_least(&what, self.rooms.iter().copied(), missing);
    }
}

impl GridCounts {
    pub fn new() -> GridCounts {
        GridCounts {
            rows: Rows::new(&ROWS),
            levels: LEVELS.map(Level::new).into_iter().collect(),
            widths: [[0; 256]; 2],
            bits: vec![0; 256 * 256],
            kept: Vec::new(),
        }
    }

    pub fn add(&mut self, other: &GridCounts) {
        self.rows.add(&other.rows);
        self.levels.iter_mut().zip(&other.levels).for_each(|(mine, theirs)| mine.add(theirs));
        add_all(self.widths.iter_mut().flatten(), other.widths.iter().flatten());
        add_all(self.bits.iter_mut(), other.bits.iter());
    }

    fn count_11(&mut self, width: u8, length: usize, lengths: [usize; 2]) {
        let level = level_of(width);
        let has_room = which_short(lengths, level.map_or(LEAST, needs)) == 0;
        self.rows.met(BEFORE, u8::from(level.is_none()) + 2 * u8::from(!has_room));
        let place = NO_TABLES.iter().position(|&other| other == length);
        self.rows.met(NO_TABLE, place.unwrap_or(NO_TABLES.len()) as u8);
        self.widths[1][usize::from(width)] += 1;
    }

    fn count_grid(&mut self, own: &Option<Vec<u8>>, width: u8, lengths: [usize; 2], number: u8) {
        let table = own.as_ref().unwrap_or(&self.kept);
        let place = LEVELS.iter().position(|&level| level == usize::from(width));
        self.rows.met(NUMBER + place.unwrap_or(LEVELS.len()), number);
        if number == 11 {
            let length = table.len();
            return self.count_11(width, length, lengths);
        }
        let place = match place {
            Some(place) => place,
            None => {
                self.rows.met(SHORT_AT_8, which_short(lengths, LEAST));
                self.widths[0][usize::from(width)] += 1;
                return;
            }
        };
        let (level, needs) = (LEVELS[place], needs(LEVELS[place]));
        let rooms = [0, 1].map(|k| room(lengths[k], needs[k]));
        self.levels[place].rooms[rooms[0] * ROOMS + rooms[1]] += 1;
        if number == 9 {
            return self.rows.met(SHORT_AT_9 + place, which_short(lengths, needs));
        }
        self.levels[place].count_map(level, table);
        if level == 16 {
            for [mark, short] in (0..ZONES).map(places) {
                self.bits[256 * usize::from(table[mark]) + usize::from(table[short])] += 1;
            }
        }
    }

    pub fn count(&mut self, call: &Call, answer: &Answer) {
        match (call, answer) {
            (Call::LendTable { table }, _) => self.kept = table.clone(),
            (Call::ChangeTable { place, byte }, _) => self.kept[*place] = *byte,
            (Call::Apply { table: None, message }, _) => drop(apply(&mut self.kept, message)),
            (Call::Hear { with: None, .. }, Answer::Hearing { reading, .. }) if reading.verdict == 0 => {
                apply(&mut self.kept, &reading.message[..usize::from(reading.length)]);
            }
            (Call::Grid { table, width, header, cells }, Answer::Gridded(gridded)) => {
                self.count_grid(table, *width, [header.len(), cells.len()], gridded.number);
            }
            _ => {}
        }
    }

    /// Prints all counts, and says what should have been met and was not.
    pub fn print(&self, missing: &mut Vec<String>) {
        self.rows.print(missing);
        let others = (0..=255).filter(|&width| level_of(width).is_none());
        let eights = others.map(|width| self.widths[0][usize::from(width)]);
        print_least("grid, 8 by each of 251 widths", eights, missing);
        print_least("grid, 11 with each of 256 widths", self.widths[1].iter().copied(), missing);
        let bits = self.bits.iter().copied();
        print_least("grid, 16 wide, each mark of a zone with each short byte", bits, missing);
        LEVELS.iter().zip(&self.levels).for_each(|(&level, met)| met.print(level, missing));
    }
}
