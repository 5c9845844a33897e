//! Faults in the zone maps (document 02, No. 8), planted one at a time in the second program's own answers: the
//! trials must tell each from the right ones. An f64 quotient rounded again to f32 is none, see grid_laws.

use crate::grid::{self, Block, Gridded, LEVELS, MAP, NO_DATA, ZONES};
use crate::grid_made::LONG;
use crate::grid_parts::{put_from, Faulty, Parts, RIGHT};
use crate::grid_trials::ASKED;
use crate::made::Chance;
use crate::planted::{differs, note, note_none};
use crate::table::{MARK, TABLE_BYTES, ZONE_BYTES, ZONE_SHORT};
use crate::Tally;

type Fault = (&'static str, fn(&mut Parts));

/// Where zones lie and fall.
const MAPS: [Fault; 14] = [
    ("columns and rows exchanged", |p| p.lies = |zone| (zone % MAP, zone / MAP)),
    ("zone 1 at bottom left", |p| p.lies = |zone| (15 - zone / MAP, zone % MAP)),
    ("zone 1 at top right", |p| p.lies = |zone| (zone / MAP, 15 - zone % MAP)),
    ("zone 1 at bottom right", |p| p.lies = |zone| (15 - zone / MAP, 15 - zone % MAP)),
    ("zones counted from 0", |p| p.lies = |zone| ((zone + 255) % ZONES / MAP, (zone + 15) % MAP)),
    ("every other row backwards", |p| {
        p.lies = |zone| (zone / MAP, if zone / MAP % 2 == 0 { zone % MAP } else { 15 - zone % MAP })
    }),
    ("rows of 8", |p| p.lies = |zone| (zone / 8 % 16, zone / 128 * 8 + zone % 8)),
    ("a block is zones with the same remainder", |p| {
        p.falls = |(row, column), side| (row % (MAP / side), column % (MAP / side))
    }),
    ("a block is zones that follow each other", |p| {
        p.falls = |(row, column), side| {
            let (cell, level) = ((MAP * row + column) / side / side, MAP / side);
            (cell / level, cell % level)
        }
    }),
    ("a block is its first zone alone", |p| p.counts = |place, _| place == (0, 0)),
    ("the last column of a block left out", |p| {
        p.counts = |(_, column), side| side == 1 || column + 1 < side
    }),
    ("the last row of a block left out", |p| p.counts = |(row, _), side| side == 1 || row + 1 < side),
    ("the last zone of a block left out", |p| {
        p.counts = |(row, column), side| side == 1 || row + column + 2 < 2 * side
    }),
    ("the first zone of a block left out", |p| p.counts = |place, side| side == 1 || place != (0, 0)),
];

/// What is heard and what is faulted.
const BITS: [Fault; 18] = [
    ("an unheard zone with bit 0 is faulted", |p| p.adds = |heard, faulted| (heard.into(), faulted.into())),
    ("an unheard zone with bit 0 is heard", |p| {
        p.adds = |heard, faulted| ((heard || faulted).into(), faulted.into())
    }),
    ("every zone is heard", |p| p.adds = |_, faulted| (1, faulted.into())),
    ("an unheard zone is not faulted", |p| p.adds = |heard, faulted| (1, (heard && faulted).into())),
    ("faulted zones are not heard", |p| p.adds = |heard, f| ((heard && !f).into(), (heard && f).into())),
    ("those not faulted are counted", |p| p.adds = |heard, f| (heard.into(), (heard && !f).into())),
    ("those not heard are counted", |p| p.adds = |heard, f| ((!heard).into(), (!heard && f).into())),
    ("heard by mark bit 1", |p| p.heard = |zone| zone[MARK] & 2 != 0),
    ("heard by mark bits 0 and 1", |p| p.heard = |zone| zone[MARK] & 3 == 3),
    ("heard by any mark bit", |p| p.heard = |zone| zone[MARK] != 0),
    ("heard by a mark of 1 or 3", |p| p.heard = |zone| matches!(zone[MARK], 1 | 3)),
    ("heard by a short byte that is not 0", |p| p.heard = |zone| zone[ZONE_SHORT] != 0),
    ("faulted by bypass", |p| p.faulted = |zone| zone[ZONE_SHORT] & 2 != 0),
    ("faulted by trouble", |p| p.faulted = |zone| zone[ZONE_SHORT] & 4 != 0),
    ("faulted by alarm memory", |p| p.faulted = |zone| zone[ZONE_SHORT] & 8 != 0),
    ("faulted by any short flag", |p| p.faulted = |zone| zone[ZONE_SHORT] & 15 != 0),
    ("faulted by short bits 4-7 clear", |p| p.faulted = |zone| zone[ZONE_SHORT] & 0xF1 == 1),
    ("faulted by condition 1", |p| p.faulted = |zone| zone[5] & 1 != 0),
];

/// A share by the machine's own f32.
fn machine(block: Block, share: fn(f32, f32) -> f32) -> [u8; 4] {
    match block.heard {
        0 => NO_DATA,
        heard => share(f32::from(block.faulted), f32::from(heard)).to_le_bytes(),
    }
}

/// A share whose bits are changed, those of 0 not.
fn changed(block: Block, bits: fn(u32, Block) -> u32) -> [u8; 4] {
    grid::cell(grid::share(block).map(|share| if share == 0 { 0 } else { bits(share, block) }))
}

/// Another value where nothing is heard.
fn unheard(block: Block, bytes: [u8; 4]) -> [u8; 4] {
    if block.heard == 0 {
        bytes
    } else {
        grid::cell(grid::share(block))
    }
}

/// How far a share is above the quotient; negative below it.
fn above(share: u32, block: Block) -> f64 {
    f64::from(f32::from_bits(share)) * f64::from(block.heard) - f64::from(block.faulted)
}

/// A coarser cell as the mean of the four finer ones, of which those not heard are left out or have a value.
fn means(parts: &Parts, table: &[u8], level: usize, unheard: Option<f32>) -> Vec<u8> {
    if level == MAP {
        return (RIGHT.cells)(parts, table, level);
    }
    let fine = means(parts, table, 2 * level, unheard);
    let value = |k: usize| match [0, 1, 2, 3].map(|byte| fine[4 * k + byte]) {
        NO_DATA => unheard,
        bytes => Some(f32::from_le_bytes(bytes)),
    };
    let mean = |cell: usize| {
        let corner = cell / level * 4 * level + cell % level * 2;
        let four = [corner, corner + 1, corner + 2 * level, corner + 2 * level + 1];
        let values: Vec<f32> = four.into_iter().filter_map(value).collect();
        match values.len() {
            0 => NO_DATA,
            count => (values.iter().sum::<f32>() / count as f32).to_le_bytes(),
        }
    };
    (0..level * level).flat_map(mean).collect()
}

/// How counts become cells.
const SHARES: [Fault; 29] = [
    ("a mean of shares", |p| p.cells = |p, table, level| means(p, table, level, None)),
    ("a mean of shares, 0 where nothing is heard", |p| {
        p.cells = |p, table, level| means(p, table, level, Some(0.0))
    }),
    ("a mean of shares, minus 9999 among them", |p| {
        p.cells = |p, table, level| means(p, table, level, Some(-9999.0))
    }),
    ("truncated", |p| p.share = |b| changed(b, |share, b| share - u32::from(above(share, b) > 0.0))),
    ("rounded up", |p| p.share = |b| changed(b, |share, b| share + u32::from(above(share, b) < 0.0))),
    ("rounded to 23 bits", |p| p.share = |b| changed(b, |share, _| (share + 1) & !1)),
    ("rounded to 16 bits", |p| p.share = |b| changed(b, |share, _| (share + 0x8000) & 0xFFFF_0000)),
    ("faulted times a rounded 1 / heard", |p| p.share = |b| machine(b, |f, h| f * (1.0 / h))),
    ("1 less the rounded share of the others", |p| p.share = |b| machine(b, |f, h| 1.0 - (h - f) / h)),
    ("in hundredths", |p| p.share = |b| machine(b, |f, h| (100.0 * f / h).round() / 100.0)),
    ("in percent", |p| p.share = |b| machine(b, |f, h| 100.0 * f / h)),
    ("a whole number", |p| p.share = |b| machine(b, |f, h| (f / h).floor())),
    ("1 where any is faulted", |p| p.share = |b| machine(b, |f, _| f.min(1.0))),
    ("1 from a half on", |p| p.share = |b| machine(b, |f, h| f32::from(u8::from(2.0 * f >= h)))),
    ("faulted and not a share", |p| p.share = |b| machine(b, |f, _| f)),
    ("heard / faulted", |p| p.share = |b| machine(b, |f, h| if f == 0.0 { 0.0 } else { h / f })),
    ("1 from 255 / 256 on", |p| p.share = |b| machine(b, |f, h| if f / h > 0.996 { 1.0 } else { f / h })),
    ("minus 0 for 0", |p| p.share = |b| machine(b, |f, h| if f == 0.0 { -0.0 } else { f / h })),
    ("0 where nothing is heard", |p| p.share = |b| unheard(b, [0; 4])),
    ("a NaN where nothing is heard", |p| p.share = |b| unheard(b, [0x00, 0x00, 0xC0, 0x7F])),
    ("9999 where nothing is heard", |p| p.share = |b| unheard(b, [0x00, 0x3C, 0x1C, 0x46])),
    ("minus 9999 in whole numbers", |p| p.share = |b| unheard(b, [0xF1, 0xD8, 0xFF, 0xFF])),
    ("minus 99999", |p| p.share = |b| unheard(b, [0x80, 0x4F, 0xC3, 0xC7])),
    ("minus 9999 big-endian", |p| p.share = |b| unheard(b, [0xC6, 0x1C, 0x3C, 0x00])),
    ("minus 9999 where one alone is heard", |p| {
        p.share = |b| if b.heard == 1 { NO_DATA } else { (RIGHT.share)(b) }
    }),
    ("big-endian", |p| {
        p.share = |b| {
            let [a, b, c, d] = (RIGHT.share)(b);
            [d, c, b, a]
        }
    }),
    ("halves of a cell exchanged", |p| {
        p.share = |b| {
            let [a, b, c, d] = (RIGHT.share)(b);
            [c, d, a, b]
        }
    }),
    ("heard in 8 bits", |p| p.share = |b| (RIGHT.share)(Block { heard: b.heard & 0xFF, ..b })),
    ("faulted in 8 bits", |p| p.share = |b| (RIGHT.share)(Block { faulted: b.faulted & 0xFF, ..b })),
];

/// The text.
const TEXTS: [Fault; 19] = [
    ("the width and 16 / the width exchanged", |p| p.header = |level| grid::header(MAP / level)),
    ("the header of the widest level always", |p| p.header = |_| grid::header(MAP)),
    ("cellsize 1 always", |p| p.header = |level| line(level, 4, "cellsize 1")),
    ("cellsize is the width", |p| p.header = |level| line(level, 4, &format!("cellsize {level}"))),
    ("nrows 16 always", |p| p.header = |level| line(level, 1, "nrows 16")),
    ("no last 0Ah", |p| p.header = |level| grid::header(level).trim_end().to_string()),
    ("0Dh before each 0Ah", |p| p.header = |level| grid::header(level).replace('\n', "\r\n")),
    ("0Dh for 0Ah", |p| p.header = |level| grid::header(level).replace('\n', "\r")),
    ("00h at the end", |p| p.header = |level| grid::header(level) + "\0"),
    ("two spaces", |p| p.header = |level| grid::header(level).replace(' ', "  ")),
    ("a tab for a space", |p| p.header = |level| grid::header(level).replace(' ', "\t")),
    ("two digits", |p| p.header = |level| line(level, 0, &format!("ncols {level:02}"))),
    ("-9999.0", |p| p.header = |level| line(level, 5, "NODATA_value -9999.0")),
    ("nodata_value", |p| p.header = |level| line(level, 5, "nodata_value -9999")),
    ("MSBFIRST", |p| p.header = |level| line(level, 6, "byteorder MSBFIRST")),
    ("xllcenter", |p| p.header = |level| line(level, 2, "xllcenter 0")),
    ("nrows before ncols", |p| {
        p.header =
            |level| grid::header(level).replace("ncols", "_").replace("nrows", "ncols").replace('_', "nrows")
    }),
    ("no byteorder", |p| p.header = |level| grid::header(level).replace("byteorder LSBFIRST\n", "")),
    ("xllcorner 0.0", |p| p.header = |level| line(level, 2, "xllcorner 0.0")),
];

/// The header with another line.
fn line(level: usize, place: usize, text: &str) -> String {
    let header = grid::header(level);
    let lines = header.lines().enumerate().map(|(k, line)| if k == place { text } else { line });
    lines.map(|line| format!("{line}\n")).collect()
}

/// The buffers, and what is said of them.
const BUFFERS: [Fault; 22] = [
    ("one byte of header more said", |p| p.said = |header, cells, _| (header + 1, cells)),
    ("one byte of header fewer said", |p| p.said = |header, cells, _| (header - 1, cells)),
    ("91 bytes of header said", |p| p.said = |_, cells, _| (91, cells)),
    ("the header's lines said", |p| p.said = |_, cells, _| (7, cells)),
    ("no length of the header", |p| p.said = |_, cells, _| (0, cells)),
    ("cells said and not their bytes", |p| p.said = |header, cells, _| (header, cells / 4)),
    ("a row of cells said", |p| p.said = |header, _, level| (header, 4 * level)),
    ("1024 bytes of cells said", |p| p.said = |header, _, _| (header, 1024)),
    ("bytes of cells in 8 bits", |p| p.said = |header, cells, _| (header, cells & 0xFF)),
    ("no length of the cells", |p| p.said = |header, _, _| (header, 0)),
    ("lengths exchanged", |p| p.said = |header, cells, _| (cells, header)),
    ("both lengths in one", |p| p.said = |header, cells, _| (header + cells, cells)),
    ("00h behind the header", |p| {
        p.put = |header, cells, text, laid| {
            (RIGHT.put)(header, cells, text, laid);
            put_from(header, text.len(), &[0]);
        }
    }),
    ("00h behind the cells", |p| {
        p.put = |header, cells, text, laid| {
            (RIGHT.put)(header, cells, text, laid);
            put_from(cells, laid.len(), &[0]);
        }
    }),
    ("the rest of the header's buffer cleared", |p| {
        p.put = |header, cells, text, laid| {
            header.fill(0);
            (RIGHT.put)(header, cells, text, laid);
        }
    }),
    ("the rest of the cells' buffer cleared", |p| {
        p.put = |header, cells, text, laid| {
            cells.fill(0);
            (RIGHT.put)(header, cells, text, laid);
        }
    }),
    ("the header at the end of its buffer", |p| {
        p.put = |header, cells, text, laid| {
            put_from(header, header.len() - text.len(), text);
            put_from(cells, 0, laid);
        }
    }),
    ("the cells at the end of their buffer", |p| {
        p.put = |header, cells, text, laid| {
            put_from(header, 0, text);
            put_from(cells, cells.len() - laid.len(), laid);
        }
    }),
    ("header and cells exchanged", |p| {
        p.put = |header, cells, text, laid| (RIGHT.put)(cells, header, text, laid)
    }),
    ("the header not written", |p| p.put = |_, cells, _, laid| put_from(cells, 0, laid)),
    ("the cells not written", |p| p.put = |header, _, text, _| put_from(header, 0, text)),
    ("cells of minus 9999 not written", |p| {
        p.put = |header, cells, text, laid| {
            put_from(header, 0, text);
            let heard = laid.chunks(4).enumerate().filter(|(_, cell)| *cell != NO_DATA);
            heard.for_each(|(k, cell)| put_from(cells, 4 * k, cell));
        }
    }),
];

/// What is refused, and in which order.
const REFUSALS: [Fault; 37] = [
    ("9 before 11", |p| p.order = [9, 11, 8]),
    ("9 before 8", |p| p.order = [11, 9, 8]),
    ("8 before 11", |p| p.order = [8, 11, 9]),
    ("9, 8, 11", |p| p.order = [9, 8, 11]),
    ("8, 9, 11", |p| p.order = [8, 9, 11]),
    ("one byte short of the header taken", |p| p.header_short = |length, need| length + 1 < need),
    ("one byte short of the cells taken", |p| p.cells_short = |length, need| length + 1 < need),
    ("9 where the header just fits", |p| p.header_short = |length, need| length <= need),
    ("9 where the cells just fit", |p| p.cells_short = |length, need| length <= need),
    ("9 for less than 91 bytes", |p| p.header_short = |length, _| length < 91),
    ("9 for less than 1024 bytes", |p| p.cells_short = |length, _| length < 1024),
    ("9 by cells and not bytes", |p| p.cells_short = |length, need| length < need / 4),
    ("9 by a row of cells", |p| p.cells_short = |length, need| length * length < 4 * need),
    ("9 where both are short alone", |p| p.nine = |header, cells| header && cells),
    ("9 by the header alone", |p| p.nine = |header, _| header),
    ("9 by the cells alone", |p| p.nine = |_, cells| cells),
    ("never 9", |p| p.nine = |_, _| false),
    ("the header's room in 8 bits", |p| p.header_short = |length, need| length % 256 < need),
    ("the cells' room in 16 bits", |p| p.cells_short = |length, need| length % LONG < need),
    ("an empty buffer is none to be looked at", |p| {
        p.header_short = |length, need| (1..need).contains(&length);
        p.cells_short = |length, need| (1..need).contains(&length);
    }),
    ("0 is the widest level", |p| p.level = |width| grid::level_of(if width == 0 { 16 } else { width })),
    ("0 is the narrowest level", |p| p.level = |width| grid::level_of(width.max(1))),
    ("a width between two levels", |p| p.level = |width| LEVELS.into_iter().find(|&l| l <= width.into())),
    ("a width above 16", |p| p.level = |width| grid::level_of(width.min(16))),
    ("a width of 32", |p| p.level = |width| grid::level_of(if width == 32 { 16 } else { width })),
    ("a width in 5 bits", |p| p.level = |width| grid::level_of(width & 31)),
    ("a width in 7 bits", |p| p.level = |width| grid::level_of(width & 127)),
    ("levels by their place", |p| p.level = |width| LEVELS.get(usize::from(width)).copied()),
    ("a width of 3", |p| p.level = |width| grid::level_of(if width == 3 { 4 } else { width })),
    ("the narrowest level refused", |p| p.level = |width| grid::level_of(width).filter(|&level| level > 1)),
    ("the widest level refused", |p| p.level = |width| grid::level_of(width).filter(|&level| level < 16)),
    ("the level of 4 refused", |p| p.level = |width| grid::level_of(width).filter(|&level| level != 4)),
    ("11 below a table's bytes alone", |p| p.is_table = |length| length >= TABLE_BYTES),
    ("11 above a table's bytes alone", |p| p.is_table = |length| length <= TABLE_BYTES),
    ("11 below all zones' bytes", |p| p.is_table = |length| length >= ZONES * ZONE_BYTES),
    ("1,812 bytes are a table", |p| p.is_table = |length| matches!(length, 1812 | TABLE_BYTES)),
    ("a table's bytes in 16 bits", |p| p.is_table = |length| length % LONG == TABLE_BYTES),
];

/// What a refused call does all the same.
const REFUSED: [(&str, fn(&mut Gridded, &[u8], &[u8])); 6] = [
    ("a length of the header", |gridded, text, _| gridded.header_length = text.len() as u64),
    ("a length of the cells", |gridded, _, laid| gridded.cells_length = laid.len() as u64),
    ("a byte of the header's buffer written", |gridded, _, _| flip(&mut gridded.header)),
    ("a byte of the cells' buffer written", |gridded, _, _| flip(&mut gridded.cells)),
    ("the header written as far as it fits", |gridded, text, _| put_from(&mut gridded.header, 0, text)),
    ("the cells written as far as they fit", |gridded, _, laid| put_from(&mut gridded.cells, 0, laid)),
];

fn flip(buffer: &mut [u8]) {
    buffer.iter_mut().rev().take(1).for_each(|byte| *byte ^= 1);
}

/// Whether some answer in a trial of the maps differs from the right one.
fn is_found(seed: u64, parts: &Parts) -> bool {
    ASKED.iter().any(|trial| differs(Faulty::new(parts), |ask| trial(&mut Chance::new(seed), ask)))
}

pub fn run(seed: u64, tally: &mut Tally) {
    note_none(tally, "grid: ", Faulty::new(&RIGHT), is_found(seed, &RIGHT));
    let mut plant = |name: &str, parts: &Parts| {
        note(tally, "grid: ", name, Faulty::new(parts), is_found(seed, parts));
    };
    for (name, fault) in [&MAPS[..], &BITS, &SHARES, &TEXTS, &BUFFERS, &REFUSALS].concat() {
        let mut parts = RIGHT;
        fault(&mut parts);
        plant(name, &parts);
    }
    for (number, (name, does)) in [8, 9, 11].into_iter().flat_map(|number| REFUSED.map(|row| (number, row))) {
        plant(&format!("{name} at {number}"), &Parts { refused: (number, does), ..RIGHT });
    }
}
