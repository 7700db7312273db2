// Document 01, and what document 02 adds to it, in plain Rust, written from their text alone, to compare the library with: the one
// reference implementation. It goes its own way where it can: the whole division is laid out once, sheet after sheet, in the order in
// which document 01 numbers them, and questions are answered by looking there. No sheet number is worked out by a formula, a point finds
// its sheet by a search of the edges, in metres as in millimetres, and a label is read by looking for the sheet whose label is spelt so.
// Its sections are those of document 01; those of document 02 have its letters.
//
// against.rs asks it beside the library, through the C interface; cases.rs writes its answers down for crates/cases and samples/.
#![allow(dead_code)] // neither of the two asks for all of it

use std::cmp::Ordering;
use std::collections::HashSet;
use std::fmt;
use std::ops::Range;

/// A refusal: its number in the table "Numbers of refusal", and the value that it carries (10: the room needed; 4, 19, 20, 21 and 5: a
/// place in the label; 25 and 26: a place in the delivery; 27: a sheet; others: none).
#[derive(Clone, Copy, Debug, PartialEq, Eq)]
pub struct Refusal {
    pub number: u32,
    pub carries: Option<u64>,
}

/// The word, the number, and behind it what the refusal carries.
impl fmt::Display for Refusal {
    fn fmt(&self, to: &mut fmt::Formatter) -> fmt::Result {
        write!(to, "refused {}", self.number)?;
        self.carries.map_or(Ok(()), |value| write!(to, " {value}"))
    }
}

pub type Answer<T> = Result<T, Refusal>;

fn refuse<T>(number: u32) -> Answer<T> {
    Err(Refusal { number, carries: None })
}

pub fn too_short<T>(needed: usize) -> Answer<T> {
    Err(Refusal { number: 10, carries: Some(needed as u64) })
}

// ---- "The grid": the area and the table of scales ----

pub const AREA_WEST: i64 = 200_000_000;
pub const AREA_EAST: i64 = 800_000_000;
pub const AREA_SOUTH: i64 = 4_570_000_000;
pub const AREA_NORTH: i64 = 5_170_000_000;
pub const MOST: usize = 4096;
pub const LAST_SHEET: u32 = 7_953_173;

/// What a scale's sheets are made from.
#[derive(Clone, Copy, Debug, PartialEq, Eq)]
pub enum Made {
    /// The area, in so many rows and columns.
    Area(u32, u32),
    /// Each sheet of the scale of this number, in so many rows of as many.
    Scale(u32, u32),
}

/// A row of the table, with the first field and the count of fields of the scale's labels.
#[derive(Clone, Copy, Debug)]
pub struct Scale {
    pub width: i64,
    pub height: i64,
    pub made: Made,
    pub sheets: u32,
    pub first: u32,
    pub mark: &'static str,
    pub fields: usize,
}

const fn row(width: i64, height: i64, made: Made, sheets: u32, first: u32, mark: &'static str, fields: usize) -> Scale {
    Scale { width, height, made, sheets, first, mark, fields }
}

pub const SCALES: [Scale; 9] = [
    row(150_000, 100_000, Made::Area(6, 4), 24, 0, "250", 3),
    row(60_000, 40_000, Made::Area(15, 10), 150, 24, "100", 3),
    row(30_000, 20_000, Made::Area(30, 20), 600, 174, "50", 3),
    row(15_000, 10_000, Made::Scale(3, 2), 2_400, 774, "25", 4),
    row(6_000, 4_000, Made::Scale(3, 5), 15_000, 3_174, "10", 4),
    row(3_000, 2_000, Made::Scale(4, 5), 60_000, 18_174, "5", 5),
    row(1_200, 800, Made::Scale(3, 25), 375_000, 78_174, "2", 4),
    row(600, 400, Made::Scale(7, 2), 1_500_000, 453_174, "1", 5),
    row(300, 200, Made::Scale(8, 2), 6_000_000, 1_953_174, "5", 6),
];

/// The row of a scale, or refusal 2.
pub fn scale_facts(scale: u32) -> Answer<&'static Scale> {
    match scale {
        1..=9 => Ok(&SCALES[scale as usize - 1]),
        _ => refuse(2),
    }
}

/// The last sheet number of a scale.
pub fn last_of(scale: u32) -> Answer<u32> {
    scale_facts(scale).map(|facts| facts.first + facts.sheets - 1)
}

/// The scale that a sheet number belongs to, or refusal 3.
pub fn scale_of(sheet: u32) -> Answer<u32> {
    match (1..=9).rev().find(|&scale| SCALES[scale as usize - 1].first <= sheet) {
        Some(scale) if sheet <= LAST_SHEET => Ok(scale),
        _ => refuse(3),
    }
}

// ---- The division laid out ----

/// A sheet as it is laid out: its place on the whole grid of its scale, counted from 0 from the upper left, what it is a part of,
/// and its number there. Sheets made from the area have neither.
#[derive(Clone, Copy, Debug)]
struct Laid {
    row: u16,
    column: u16,
    parent: u32,
    number: u16,
}

const NO_PARENT: u32 = u32::MAX;
const FREE: u32 = u32::MAX;
const SLOTS: usize = 1 << 24;

/// A scale's grid: the edges of its columns from the west and of its rows from the north, in millimetres, each with the last one's
/// far edge, and the sheet at every place, row by row.
struct Grid {
    west_to_east: Vec<i64>,
    north_to_south: Vec<i64>,
    at: Vec<u32>,
}

impl Grid {
    fn columns(&self) -> usize {
        self.west_to_east.len() - 1
    }
    fn rows(&self) -> usize {
        self.north_to_south.len() - 1
    }
}

pub struct Division {
    sheets: Vec<Laid>,
    grids: Vec<Grid>,
    /// Every sheet, in a slot that its spelt label leads to.
    slots: Vec<u32>,
}

/// A sheet's frame, in millimetres.
#[derive(Clone, Copy, Debug, PartialEq, Eq)]
pub struct Frame {
    pub west: i64,
    pub east: i64,
    pub south: i64,
    pub north: i64,
}

/// A sheet's scale and its place on the whole grid of the scale, counted from 0.
#[derive(Clone, Copy, Debug, PartialEq, Eq)]
pub struct Place {
    pub scale: u32,
    pub row: u32,
    pub column: u32,
}

/// A label as it is spelt, with zeros behind it.
#[derive(Clone, Copy, PartialEq, Eq)]
pub struct Label {
    bytes: [u8; 16],
    length: usize,
}

impl Label {
    pub fn text(&self) -> &[u8] {
        &self.bytes[..self.length]
    }
    fn put(&mut self, text: &[u8]) {
        self.bytes[self.length..self.length + text.len()].copy_from_slice(text);
        self.length += text.len();
    }
    /// A hyphen and a number.
    fn put_field(&mut self, number: u32) {
        let mut digits = [0; 10];
        let mut from = digits.len();
        let mut rest = number;
        loop {
            from -= 1;
            digits[from] = b'0' + (rest % 10) as u8;
            rest /= 10;
            if rest == 0 {
                break;
            }
        }
        self.put(b"-");
        self.put(&digits[from..]);
    }
}

fn slot_of(bytes: &[u8; 16]) -> usize {
    let text = u128::from_le_bytes(*bytes);
    let mixed = (text as u64 ^ ((text >> 64) as u64).rotate_left(29)).wrapping_mul(0x9E37_79B9_7F4A_7C15);
    let mixed = (mixed ^ (mixed >> 31)).wrapping_mul(0xD6E8_FEB8_6659_FD93);
    (mixed >> 40) as usize
}

impl Division {
    /// Lays out all sheets of all scales. "Within a parent, sheets are numbered from 1, row by row from the upper left"; parents
    /// follow one another by their own numbers, scales by the table.
    pub fn lay_out() -> Division {
        let mut sheets: Vec<Laid> = Vec::with_capacity(LAST_SHEET as usize + 1);
        let mut grids: Vec<Grid> = Vec::new();
        for scale in &SCALES {
            assert_eq!(sheets.len(), scale.first as usize);
            let (width, height) = (scale.width * 1000, scale.height * 1000);
            let west_to_east = (0..).map(|k| AREA_WEST + k * width).take_while(|&e| e <= AREA_EAST).collect();
            let north_to_south = (0..).map(|k| AREA_NORTH - k * height).take_while(|&n| n >= AREA_SOUTH).collect();
            let mut grid = Grid { west_to_east, north_to_south, at: Vec::new() };
            assert_eq!(grid.west_to_east.last(), Some(&AREA_EAST));
            assert_eq!(grid.north_to_south.last(), Some(&AREA_SOUTH));
            grid.at = vec![FREE; grid.rows() * grid.columns()];
            let columns = grid.columns();
            let mut lay = |laid: Laid, sheets: &mut Vec<Laid>| {
                let place = &mut grid.at[laid.row as usize * columns + laid.column as usize];
                assert_eq!(*place, FREE);
                *place = sheets.len() as u32;
                sheets.push(laid);
            };
            match scale.made {
                Made::Area(rows, columns) => {
                    for row in 0..rows as u16 {
                        for column in 0..columns as u16 {
                            lay(Laid { row, column, parent: NO_PARENT, number: 0 }, &mut sheets);
                        }
                    }
                }
                Made::Scale(parents, side) => {
                    let first = SCALES[parents as usize - 1].first;
                    for parent in first..first + SCALES[parents as usize - 1].sheets {
                        let whole = sheets[parent as usize];
                        let mut number = 0;
                        for down in 0..side as u16 {
                            for right in 0..side as u16 {
                                number += 1;
                                let row = whole.row * side as u16 + down;
                                let column = whole.column * side as u16 + right;
                                lay(Laid { row, column, parent, number }, &mut sheets);
                            }
                        }
                    }
                }
            }
            assert!(grid.at.iter().all(|&sheet| sheet != FREE));
            assert_eq!(grid.at.len(), scale.sheets as usize);
            grids.push(grid);
        }
        assert_eq!(sheets.len(), LAST_SHEET as usize + 1);
        let mut division = Division { sheets, grids, slots: vec![FREE; SLOTS] };
        for sheet in 0..=LAST_SHEET {
            let mut slot = slot_of(&division.spell(sheet).bytes);
            while division.slots[slot] != FREE {
                slot = (slot + 1) % SLOTS;
            }
            division.slots[slot] = sheet;
        }
        division
    }

    fn laid(&self, sheet: u32) -> Answer<&Laid> {
        match self.sheets.get(sheet as usize) {
            Some(laid) => Ok(laid),
            None => refuse(3),
        }
    }

    fn grid(&self, scale: u32) -> &Grid {
        &self.grids[scale as usize - 1]
    }

    // ---- "The grid": places, points, corners ----

    /// The scale and place of a sheet, or 3.
    pub fn place(&self, sheet: u32) -> Answer<Place> {
        let laid = self.laid(sheet)?;
        Ok(Place { scale: scale_of(sheet)?, row: laid.row as u32, column: laid.column as u32 })
    }

    /// The rows and columns of a scale's whole grid.
    pub fn grid_size(&self, scale: u32) -> (u64, u64) {
        (self.grid(scale).rows() as u64, self.grid(scale).columns() as u64)
    }

    /// The sheet in a row and column of a scale, counted from 0: 2, 6.
    pub fn sheet_on(&self, scale: u32, row: i128, column: i128) -> Answer<u32> {
        scale_facts(scale)?;
        let grid = self.grid(scale);
        if (0..grid.rows() as i128).contains(&row) && (0..grid.columns() as i128).contains(&column) {
            Ok(grid.at[row as usize * grid.columns() + column as usize])
        } else {
            refuse(6)
        }
    }

    /// The sheet of a scale that a point lies in: 2, 1. A sheet owns its west and north edge, and so does the area.
    pub fn sheet_of_point(&self, scale: u32, e: i64, n: i64) -> Answer<u32> {
        scale_facts(scale)?;
        self.search(scale, |west| west <= e, |north| north >= n)
    }

    /// The sheet in the last column whose west edge is not east of a point, and the last row whose north edge is not south of it: 1.
    fn search(&self, scale: u32, not_east: impl Fn(i64) -> bool, not_south: impl Fn(i64) -> bool) -> Answer<u32> {
        let grid = self.grid(scale);
        let column = grid.west_to_east.partition_point(|&west| not_east(west));
        let row = grid.north_to_south.partition_point(|&north| not_south(north));
        if column == 0 || column > grid.columns() || row == 0 || row > grid.rows() {
            return refuse(1);
        }
        Ok(grid.at[(row - 1) * grid.columns() + column - 1])
    }

    /// The corners of a sheet, or 3.
    pub fn frame(&self, sheet: u32) -> Answer<Frame> {
        let laid = self.laid(sheet)?;
        let grid = self.grid(scale_of(sheet)?);
        let (row, column) = (laid.row as usize, laid.column as usize);
        Ok(Frame {
            west: grid.west_to_east[column],
            east: grid.west_to_east[column + 1],
            south: grid.north_to_south[row + 1],
            north: grid.north_to_south[row],
        })
    }

    // ---- Document 02, a) "Frames in metres for the viewer": floats are told by their 64 bits ----

    /// A frame "as west, east, south and north in metres, with the middle as half the sum of the edges, all exact": 3. The middle is
    /// told east, then north.
    pub fn frame_in_metres(&self, sheet: u32) -> Answer<[u64; 6]> {
        let Frame { west, east, south, north } = self.frame(sheet)?;
        let twice = [2 * west, 2 * east, 2 * south, 2 * north, west + east, south + north];
        let exact = |twice: i64| {
            assert_eq!(twice % 2000, 0, "of sheet {sheet} something is no whole number of metres");
            float_of((twice / 2000) as u64)
        };
        Ok(twice.map(exact))
    }

    /// The sheet of a scale that a point in metres lies in: 2, 18, 1. The document rounds "so that the rounded point is in the same
    /// sheet as the float's exact value": here nothing is rounded, and the exact value is held against the edges. "A float too large
    /// for 64-bit millimetres gives 1": the area's own edges are not too large, so such a float lies outside of them.
    pub fn sheet_at_metres(&self, scale: u32, e: u64, n: u64) -> Answer<u32> {
        scale_facts(scale)?;
        let (Some(e), Some(n)) = (Exact::of(e), Exact::of(n)) else {
            return refuse(18);
        };
        self.search(scale, |west| e.to_edge(west).is_ge(), |north| n.to_edge(north).is_le())
    }

    /// The frame of that sheet: 2, 18, 1.
    pub fn frame_at_metres(&self, scale: u32, e: u64, n: u64) -> Answer<[u64; 6]> {
        self.frame_in_metres(self.sheet_at_metres(scale, e, n)?)
    }

    // ---- "Relations" ----

    /// The sheet that a sheet is a part of: 3, 6.
    pub fn parent(&self, sheet: u32) -> Answer<u32> {
        match self.laid(sheet)?.parent {
            NO_PARENT => refuse(6),
            parent => Ok(parent),
        }
    }

    /// The number of a sheet that there is within its parent; 0 where it has none.
    pub fn number(&self, sheet: u32) -> u32 {
        self.sheets[sheet as usize].number as u32
    }

    /// The part of a sheet with this number at this scale: 3, 2, 6. It is looked for among all sheets of the scale, which lie by
    /// their parents and numbers.
    pub fn child(&self, sheet: u32, scale: u32, number: u32) -> Answer<u32> {
        self.laid(sheet)?;
        let facts = scale_facts(scale)?;
        let all = &self.sheets[facts.first as usize..(facts.first + facts.sheets) as usize];
        let asked = (sheet, number);
        let found = all.partition_point(|laid| (laid.parent, laid.number as u32) < asked);
        match all.get(found) {
            Some(laid) if (laid.parent, laid.number as u32) == asked => Ok(facts.first + found as u32),
            _ => refuse(6),
        }
    }

    /// The sheet so many columns east and rows south: 3, 6.
    pub fn step(&self, sheet: u32, east: i64, south: i64) -> Answer<u32> {
        let place = self.place(sheet)?;
        self.sheet_on(place.scale, place.row as i128 + south as i128, place.column as i128 + east as i128)
    }

    /// The pair, east then south, whose step leads from one sheet to the other: 3 for the first, 3 for the second, 6.
    pub fn offset(&self, from: u32, to: u32) -> Answer<(i64, i64)> {
        let (from, to) = (self.place(from)?, self.place(to)?);
        if from.scale != to.scale {
            return refuse(6);
        }
        Ok((to.column as i64 - from.column as i64, to.row as i64 - from.row as i64))
    }

    /// The block of three rows of three round a sheet, itself in the middle. Each place is found by the point that lies in it as
    /// the sheet's middle lies in the sheet.
    pub fn neighbours(&self, sheet: u32) -> [[Option<u32>; 3]; 3] {
        let mut block = [[None; 3]; 3];
        if let (Ok(scale), Ok(frame)) = (scale_of(sheet), self.frame(sheet)) {
            let (width, height) = (frame.east - frame.west, frame.north - frame.south);
            for (down, row) in block.iter_mut().enumerate() {
                for (right, place) in row.iter_mut().enumerate() {
                    let e = frame.west + width / 2 + (right as i64 - 1) * width;
                    let n = frame.south + height / 2 - (down as i64 - 1) * height;
                    *place = self.sheet_of_point(scale, e, n).ok();
                }
            }
        }
        block
    }

    /// The cover of a window with lent room for so many sheets: 2, 7, 8, 9, 10. A window's points are west <= E < east and
    /// south < N <= north, a sheet's likewise, so two share a point where their sides overlap by more than an edge.
    pub fn cover(&self, scale: u32, window: Frame, room: usize) -> Answer<Vec<u32>> {
        scale_facts(scale)?;
        if window.east <= window.west || window.north <= window.south {
            return refuse(7);
        }
        if window.west < AREA_WEST || window.east > AREA_EAST || window.south < AREA_SOUTH || window.north > AREA_NORTH {
            return refuse(8);
        }
        let grid = self.grid(scale);
        let shared = |edges: &[i64], low: i64, high: i64| -> Vec<usize> {
            let side = |k: &usize| (edges[*k].min(edges[*k + 1]), edges[*k].max(edges[*k + 1]));
            (0..edges.len() - 1).filter(|k| side(k).0 < high && low < side(k).1).collect()
        };
        let columns = shared(&grid.west_to_east, window.west, window.east);
        let rows = shared(&grid.north_to_south, window.south, window.north);
        let count = rows.len() * columns.len();
        if count > MOST {
            return refuse(9);
        }
        if count > room {
            return too_short(count);
        }
        let place = |row: &usize, column: &usize| grid.at[row * grid.columns() + column];
        Ok(rows.iter().flat_map(|row| columns.iter().map(move |column| place(row, column))).collect())
    }

    // ---- "Labels" ----

    /// The label of a sheet that there is: the scale's mark, the number in each parent up to a sheet that is made from the area,
    /// and that one's row and column, rows counted from 101 and columns from 1.
    fn spell(&self, sheet: u32) -> Label {
        let mut label = Label { bytes: [0; 16], length: 0 };
        let scale = scale_of(sheet).expect("a sheet");
        label.put(SCALES[scale as usize - 1].mark.as_bytes());
        let mut at = self.sheets[sheet as usize];
        while at.parent != NO_PARENT {
            label.put_field(at.number as u32);
            at = self.sheets[at.parent as usize];
        }
        label.put_field(101 + at.row as u32);
        label.put_field(1 + at.column as u32);
        label
    }

    /// The label of a sheet with lent room for so many bytes: 3, 10.
    pub fn write_label(&self, sheet: u32, room: usize) -> Answer<Label> {
        self.laid(sheet)?;
        let label = self.spell(sheet);
        if label.length > room {
            return too_short(label.length);
        }
        Ok(label)
    }

    /// The bytes of a sheet's label: 3.
    pub fn label_length(&self, sheet: u32) -> Answer<u32> {
        self.laid(sheet)?;
        Ok(self.spell(sheet).length as u32)
    }

    /// The sheet whose label is spelt so, if there is one.
    fn spelt(&self, text: &[u8]) -> Option<u32> {
        let mut bytes = [0; 16];
        bytes.get_mut(..text.len())?.copy_from_slice(text);
        let mut slot = slot_of(&bytes);
        while self.slots[slot] != FREE {
            if self.spell(self.slots[slot]).text() == text {
                return Some(self.slots[slot]);
            }
            slot = (slot + 1) % SLOTS;
        }
        None
    }

    /// The sheet of a label: 4, 19, 20, 21, 5.
    pub fn read_label(&self, text: &[u8]) -> Answer<u32> {
        self.spelt(text).ok_or_else(|| self.fault(text))
    }

    // ---- Document 02, b) "Tell the lender which field is wrong" ----

    /// What is wrong with a label that no sheet has, and where: "Refusals: 4, 19, 20, 21, 5", so each kind is looked for in the whole
    /// label before the next one is. "Each, and 5 too, carries the place of the first offending byte in the label".
    fn fault(&self, text: &[u8]) -> Refusal {
        let at = |number: u32, place: usize| Refusal { number, carries: Some(place as u64) };
        // "4 stays for empty or over 16 bytes": "0 for an empty label", "16 for one too long".
        if text.is_empty() {
            return at(4, 0);
        }
        if text.len() > 16 {
            return at(4, 16);
        }
        // "19 a byte that is neither digit nor hyphen".
        if let Some(place) = text.iter().position(|byte| !b"0123456789-".contains(byte)) {
            return at(19, place);
        }
        // "20 an empty field or leading zero": "the hyphen or label end that closes an empty field" stands where the field would start, and
        // so does a leading zero.
        let fields = fields_of(text);
        let leading = |field: &[u8]| field.len() > 1 && field[0] == b'0';
        if let Some(&(start, _)) = fields.iter().find(|(_, field)| field.is_empty() || leading(field)) {
            return at(20, start);
        }
        // "21 an unknown first number or count of fields": "0 for an empty label and for 21".
        let known = |scale: &&Scale| scale.mark.as_bytes() == fields[0].1 && scale.fields == fields.len();
        let Some(scale) = SCALES.iter().find(known) else {
            return at(21, 0);
        };
        // "for 5 the start of the first field out of range". A field is in range where some sheet's label is that of the scale's first
        // sheet but for this field: none is turned into a number.
        let first = self.spell(scale.first);
        let first = fields_of(first.text());
        let within = |place: usize| {
            let mut other: Vec<&[u8]> = first.iter().map(|&(_, field)| field).collect();
            other[place] = fields[place].1;
            self.spelt(&other.join(&b'-')).is_some()
        };
        let outside = (1..fields.len()).find(|&place| !within(place));
        at(5, fields[outside.expect("a field out of range")].0)
    }

    // ---- "Catalogue lines" ----

    /// The sheet of a line and the places of its label and name in it: 4, 19, 20, 21, 5, 17, 16. "The line reader and the program repeat
    /// the place after the number": the label begins the line, so it is the place in both.
    pub fn read_line(&self, line: &[u8]) -> Line {
        let parts = self.split_line(line);
        match parts {
            Ok((sheet, label, name)) => Line { sheet: Ok(sheet), label, name },
            Err(refusal) => Line { sheet: Err(refusal), label: 0..0, name: 0..0 },
        }
    }

    fn split_line(&self, line: &[u8]) -> Answer<(u32, Range<usize>, Range<usize>)> {
        let Some(space) = line.iter().position(|&byte| byte == b' ') else {
            return Ok((self.read_label(line)?, 0..line.len(), line.len()..line.len()));
        };
        let sheet = self.read_label(&line[..space])?;
        if scale_of(sheet)? > 6 {
            return refuse(17);
        }
        let name = &line[space + 1..];
        let fine = (1..=48).contains(&name.len())
            && name.iter().all(|&byte| byte >= 32 && byte != 127)
            && !name.starts_with(b" ")
            && !name.ends_with(b" ");
        if !fine {
            return refuse(16);
        }
        Ok((sheet, 0..space, space + 1..line.len()))
    }

    /// The caption of a line: a part of the line or of the fallback.
    pub fn caption(&self, line: &[u8], fallback: &[u8]) -> Caption {
        let read = self.read_line(line);
        match read.sheet {
            Err(_) => Caption::OfLine(0..0),
            Ok(_) if read.name.is_empty() => Caption::OfFallback(0..fallback.len()),
            Ok(_) => Caption::OfLine(read.name),
        }
    }

    // ---- "Shelf list" ----

    /// The bytes of a list of these sheets: 9, then at the first faulty place 3 before 15.
    pub fn list_length(&self, sheets: &[u32]) -> Answer<usize> {
        spell_list(0, sheets, scale_of).map(|list| list.len())
    }

    /// The list of these sheets with lent room for so many bytes: 9, 3 or 15, 10.
    pub fn write_list(&self, sheets: &[u32], room: usize) -> Answer<Vec<u8>> {
        within(room, spell_list(0, sheets, scale_of)?)
    }

    /// The sheets of a list, as far as lent room for so many has taken them, and the refusal if any: 11, 12 of the count, 10, then
    /// 11, 12, 13 of each entry, then 14.
    pub fn read_list(&self, list: &[u8], room: usize) -> (Vec<u32>, Answer<()>) {
        let mut placed = Vec::new();
        let answer = place_list(list, room, &mut placed);
        (placed, answer)
    }

    // ---- "The program" ----

    /// A row for each line: its number from 1, then the sheet and its edges in metres, or "refused" and the refusal, with "the place after
    /// the number" where it carries one. A line ends with a line feed; the last one may do without.
    pub fn rows(&self, catalogue: &[u8]) -> String {
        let mut lines: Vec<&[u8]> = catalogue.split(|&byte| byte == b'\n').collect();
        if lines.last().is_some_and(|last| last.is_empty()) {
            lines.pop();
        }
        let row = |(number, line): (usize, &&[u8])| match self.read_line(line).sheet {
            Ok(sheet) => {
                let frame = self.frame(sheet).expect("a sheet");
                let [west, east, south, north] = [frame.west, frame.east, frame.south, frame.north].map(|edge| edge / 1000);
                format!("{number} {sheet} {west} {east} {south} {north}\n")
            }
            Err(refusal) => format!("{number} {refusal}\n"),
        };
        (1..).zip(&lines).map(row).collect()
    }
}

/// A float's exact value: the whole number times two to the power.
#[derive(Clone, Copy)]
struct Exact {
    whole: i64,
    power: i32,
}

impl Exact {
    /// By "the float's own bits"; none for "a value that is infinite or no number". -0.0 is 0.
    fn of(bits: u64) -> Option<Exact> {
        let fraction = (bits % (1 << 52)) as i64;
        let (size, power) = match (bits >> 52) % 2048 {
            2047 => return None,
            0 => (fraction, -1074),
            exponent => (fraction + (1 << 52), exponent as i32 - 1075),
        };
        Some(Exact { whole: if bits >> 63 == 0 { size } else { -size }, power })
    }

    /// How so many metres lie to an edge in millimetres: a thousand times the whole number to the edge, that one shifted up which is in
    /// the larger unit. Both have 63 bits and a sign, so 64 places more fit, and beyond these a shift changes nothing: a whole number
    /// with a power above 0 has 53 bits, so that it then is beyond every edge; and an edge that is not 0 is then beyond every whole
    /// number.
    fn to_edge(self, millimetres: i64) -> Ordering {
        let up = |number: i128, places: i32| number << places.clamp(0, 64);
        up(self.whole as i128 * 1000, self.power).cmp(&up(millimetres as i128, -self.power))
    }
}

/// The bits of the float that is this whole number. It has at most 53 bits: the highest one goes without saying, its place is the
/// exponent, and there are places for all others.
fn float_of(whole: u64) -> u64 {
    let high = whole.ilog2();
    assert!(high <= 52);
    (1023 + high as u64) << 52 | (whole - (1 << high)) << (52 - high)
}

/// The fields of a label, which its hyphens part, each with the place where it starts.
fn fields_of(text: &[u8]) -> Vec<(usize, &[u8])> {
    let mut fields = Vec::new();
    let mut start = 0;
    for field in text.split(|&byte| byte == b'-') {
        fields.push((start, field));
        start += field.len() + 1;
    }
    fields
}

/// A line as it is read. A name that is absent is the empty part at the line's end; of a refused line both are the empty part at
/// its start.
#[derive(Clone, Debug, PartialEq, Eq)]
pub struct Line {
    pub sheet: Answer<u32>,
    pub label: Range<usize>,
    pub name: Range<usize>,
}

#[derive(Clone, Debug, PartialEq, Eq)]
pub enum Caption {
    OfLine(Range<usize>),
    OfFallback(Range<usize>),
}

/// How many groups of seven bits a number takes.
pub fn groups(number: u32) -> usize {
    let mut list = Vec::new();
    put_number(&mut list, number);
    list.len()
}

/// A number in groups of seven bits, low group first, the high bit set on all but the last.
fn put_number(list: &mut Vec<u8>, number: u32) {
    let mut rest = number;
    while rest > 127 {
        list.push((rest & 127) as u8 | 128);
        rest >>= 7;
    }
    list.push(rest as u8);
}

/// The number at the start of some bytes, and the bytes behind it: 12 for four bytes with the high bit set, 11 where the bytes end
/// before a last group, 12 where the last group is zero after another.
fn take_number(bytes: &[u8]) -> Answer<(u32, &[u8])> {
    let near = &bytes[..bytes.len().min(4)];
    let Some(last) = near.iter().position(|&byte| byte < 128) else {
        return refuse(if near.len() == 4 { 12 } else { 11 });
    };
    if last > 0 && near[last] == 0 {
        return refuse(12);
    }
    let number = near[..=last].iter().rev().fold(0, |high, &byte| high * 128 + (byte % 128) as u32);
    Ok((number, &bytes[last + 1..]))
}

/// The list of these numbers, which begins with their count and so much more: 9, then at the first faulty place what `judge` has against
/// the number before 15.
fn spell_list<T>(more: u32, numbers: &[u32], judge: impl Fn(u32) -> Answer<T>) -> Answer<Vec<u8>> {
    if numbers.len() > MOST {
        return refuse(9);
    }
    let mut list = Vec::new();
    put_number(&mut list, more + numbers.len() as u32);
    let mut least = 0;
    for &number in numbers {
        judge(number)?;
        if number < least {
            return refuse(15);
        }
        put_number(&mut list, number - least);
        least = number + 1;
    }
    Ok(list)
}

/// A list in lent room for so many bytes: 10.
fn within(room: usize, list: Vec<u8>) -> Answer<Vec<u8>> {
    if list.len() > room {
        return too_short(list.len());
    }
    Ok(list)
}

fn place_list(list: &[u8], room: usize, placed: &mut Vec<u32>) -> Answer<()> {
    let (count, entries) = take_number(list)?;
    if count as usize > MOST {
        return refuse(12);
    }
    place_entries(count as usize, entries, room, placed, |sheet| scale_of(sheet).map(|_| sheet))
}

/// So many entries, and nothing behind them, each placed as `judge` has its number: 10, then 11, 12 of each entry and what `judge` has
/// against its number, where 13 stands for 3, then 14.
fn place_entries(count: usize, entries: &[u8], room: usize, placed: &mut Vec<u32>, judge: impl Fn(u32) -> Answer<u32>) -> Answer<()> {
    if count > room {
        return too_short(count);
    }
    let (mut least, mut rest) = (0, entries);
    for _ in 0..count {
        let (number, behind) = take_number(rest)?;
        match judge(least + number) {
            Err(Refusal { number: 3, .. }) => return refuse(13),
            judged => placed.push(judged?),
        }
        least += number + 1;
        rest = behind;
    }
    if rest.is_empty() {
        Ok(())
    } else {
        refuse(14)
    }
}

// ---- Document 02, c) "Names typed on two kinds of computer" ----

/// "joining c, s, z and C, S, Z with CC 8C, and c and C with CC 81, into the Unicode single letters": each letter with its mark, and the
/// single letter.
pub const JOINED: [([u8; 3], [u8; 2]); 8] = [
    ([b'c', 0xCC, 0x8C], [0xC4, 0x8D]), // č
    ([b's', 0xCC, 0x8C], [0xC5, 0xA1]), // š
    ([b'z', 0xCC, 0x8C], [0xC5, 0xBE]), // ž
    ([b'C', 0xCC, 0x8C], [0xC4, 0x8C]), // Č
    ([b'S', 0xCC, 0x8C], [0xC5, 0xA0]), // Š
    ([b'Z', 0xCC, 0x8C], [0xC5, 0xBD]), // Ž
    ([b'c', 0xCC, 0x81], [0xC4, 0x87]), // ć
    ([b'C', 0xCC, 0x81], [0xC4, 0x86]), // Ć
];

/// A name, or any other bytes, in single letters, from left to right. "Nothing else is joined."
pub fn joined(name: &[u8]) -> Vec<u8> {
    let mut joined = Vec::new();
    let mut rest = name;
    while let Some((&byte, behind)) = rest.split_first() {
        if let Some((marked, single)) = JOINED.iter().find(|(marked, _)| rest.starts_with(marked)) {
            joined.extend(single);
            rest = &rest[marked.len()..];
        } else {
            joined.push(byte);
            rest = behind;
        }
    }
    joined
}

/// "Names are the same when they are equal after joining".
pub fn same_name(one: &[u8], other: &[u8]) -> bool {
    joined(one) == joined(other)
}

// ---- Document 02, d) "The fifteen official names" ----

/// "the 1:250 000 names of source document 000 section 4.1, each under its label". "For 250-105-4 the name column, Prevlaka, decides over
/// the misprint beside it".
pub const OFFICIAL: [(&str, &str); 15] = [
    ("250-101-2", "Zagreb"),
    ("250-101-3", "Bjelovar"),
    ("250-101-4", "Beli Manastir"),
    ("250-102-1", "Rijeka"),
    ("250-102-2", "Karlovac"),
    ("250-102-3", "Slavonski Brod"),
    ("250-102-4", "Osijek"),
    ("250-103-1", "Otok Lošinj"),
    ("250-103-2", "Zadar"),
    ("250-103-3", "Jančag"),
    ("250-104-2", "Split"),
    ("250-104-3", "Makarska"),
    ("250-105-2", "Vis"),
    ("250-105-3", "Dubrovnik"),
    ("250-105-4", "Prevlaka"),
];

/// What "a check of a catalogue line" answers: "agrees, differs or not listed".
#[derive(Clone, Copy, Debug, PartialEq, Eq)]
pub enum Checked {
    Agrees,
    Differs,
    NotListed,
}

impl fmt::Display for Checked {
    fn fmt(&self, to: &mut fmt::Formatter) -> fmt::Result {
        to.write_str(match self {
            Checked::Agrees => "agrees",
            Checked::Differs => "differs",
            Checked::NotListed => "not listed",
        })
    }
}

/// "22, not a 1:250 000 sheet, after 3".
fn only_1_250_000(sheet: u32) -> Answer<()> {
    if scale_of(sheet)? == 1 { Ok(()) } else { refuse(22) }
}

/// The name that stands under a label.
fn name_under(label: &[u8]) -> Option<&'static str> {
    OFFICIAL.iter().find(|(listed, _)| listed.as_bytes() == label).map(|&(_, name)| name)
}

impl Division {
    /// "sheet to name", with lent room for so many bytes: 3, 22, 10. None for "A sheet without a name in that list": that is an answer, and
    /// needs no room.
    pub fn official_name(&self, sheet: u32, room: usize) -> Answer<Option<&'static str>> {
        only_1_250_000(sheet)?;
        match name_under(self.spell(sheet).text()) {
            Some(name) if name.len() > room => too_short(name.len()),
            listed => Ok(listed),
        }
    }

    /// "name to sheet by the comparison of c)", of any bytes; none for "a name it doesn't hold".
    pub fn official_sheet(&self, name: &[u8]) -> Option<u32> {
        let (label, _) = OFFICIAL.iter().find(|(_, listed)| same_name(listed.as_bytes(), name))?;
        self.spelt(label.as_bytes())
    }

    /// What is said of a line: 4, 19, 20, 21, 5, 17, 16, 22. "A line is not listed exactly when its sheet has no name there; at a listed
    /// sheet any other name, or none, differs": a line without a name has the empty one, which is none of the fifteen.
    pub fn official_check(&self, line: &[u8]) -> Answer<Checked> {
        let Line { sheet, label, name } = self.read_line(line);
        only_1_250_000(sheet?)?;
        Ok(match name_under(&line[label]) {
            None => Checked::NotListed,
            Some(listed) if same_name(listed.as_bytes(), &line[name]) => Checked::Agrees,
            Some(_) => Checked::Differs,
        })
    }
}

// ---- Document 02, f) "Local labels for cadastral municipalities" ----

/// "Lend the municipality as a rising list of 1 to 400 sheet numbers."
pub const MOST_OF_MUNICIPALITY: usize = 400;

impl Division {
    /// The 1:2 000 sheets of a municipality as they are numbered: "by rows, left to right, starting with the first sheet of the top row",
    /// and "Rows are rows of the whole grid". Refusals: "23 for an empty or too long list; then its first faulty place, with 3, 23 (a sheet
    /// of another scale) and 15 in that order".
    fn by_rows(&self, municipality: &[u32]) -> Answer<Vec<u32>> {
        if municipality.is_empty() || municipality.len() > MOST_OF_MUNICIPALITY {
            return refuse(23);
        }
        for (place, &sheet) in municipality.iter().enumerate() {
            if scale_of(sheet)? != 7 {
                return refuse(23);
            }
            if place > 0 && sheet <= municipality[place - 1] {
                return refuse(15);
            }
        }
        let mut sheets = municipality.to_vec();
        sheets.sort_by_key(|&sheet| (self.sheets[sheet as usize].row, self.sheets[sheet as usize].column));
        Ok(sheets)
    }

    /// "local numbers to sheet": those of the list, then 6 for "a local number that none of its sheets has". Local numbers are n, or n and
    /// a, or n, a and b; an absent one is 0, which is no number of a part, so that b alone leads to none.
    pub fn local_to_sheet(&self, municipality: &[u32], n: u32, a: u32, b: u32) -> Answer<u32> {
        let sheets = self.by_rows(municipality)?;
        let Some((_, &sheet)) = (1..).zip(&sheets).find(|&(number, _)| number == n) else {
            return refuse(6);
        };
        match (a, b) {
            (0, 0) => Ok(sheet),
            (a, 0) => self.child(sheet, 8, a),
            (a, b) => self.child(self.child(sheet, 8, a)?, 9, b),
        }
    }

    /// "sheet to local numbers", one to three of them: those of the list, "then 3 and 6 for what is asked". "a 1:1 000 sheet adds its
    /// number in that sheet, a 1:500 sheet one more": the way up leads to a 1:2 000 sheet, or the sheet is of none, and so not of this
    /// municipality.
    pub fn sheet_to_local(&self, municipality: &[u32], sheet: u32) -> Answer<Vec<u32>> {
        let sheets = self.by_rows(municipality)?;
        let mut numbers = Vec::new();
        let mut whole = sheet;
        while scale_of(whole)? > 7 {
            numbers.insert(0, self.number(whole));
            whole = self.parent(whole)?;
        }
        let Some((number, _)) = (1..).zip(&sheets).find(|&(_, &own)| own == whole) else {
            return refuse(6);
        };
        numbers.insert(0, number);
        Ok(numbers)
    }
}

// ---- Document 02, g) "Two products on one sheet" ----

/// "source document 000, table 7": the products of each scale, in its order.
const PRODUCTS: [&[&str]; 9] =
    [&["TK250"], &["TK100"], &["TK50"], &["TK25"], &["HOK10"], &["HOK5", "DOF5"], &["KP2000", "DOF2"], &["KP1000"], &["KP500"]];

/// "for them 3 and 13 mean above 23 859 521".
pub const LAST_HOLDING: u32 = 23_859_521;

/// "The new list begins with 8 192 plus the count".
pub const NEW_LIST: u32 = 8_192;

/// The number of a sheet with a product, "0 unstated, 1 the first product of the scale, 2 the second": "three times the sheet number plus
/// the product", or 3, then 24, "a product the scale doesn't have".
pub fn holding(sheet: u32, product: u32) -> Answer<u32> {
    let scale = scale_of(sheet)?;
    if product as usize > PRODUCTS[scale as usize - 1].len() {
        return refuse(24);
    }
    Ok(3 * sheet + product)
}

/// The sheet and the product that have this number: 3, 24.
pub fn holding_parts(number: u32) -> Answer<(u32, u32)> {
    if number > LAST_HOLDING {
        return refuse(3);
    }
    let (sheet, product) = (number / 3, number % 3);
    holding(sheet, product).map(|_| (sheet, product))
}

impl Division {
    /// The bytes of a new list of these holdings: 9, then at the first faulty place 3, 24, 15.
    pub fn holdings_length(&self, holdings: &[u32]) -> Answer<usize> {
        spell_list(NEW_LIST, holdings, holding_parts).map(|list| list.len())
    }

    /// The new list of these holdings with lent room for so many bytes: 9; 3, 24 or 15; 10.
    pub fn write_holdings(&self, holdings: &[u32], room: usize) -> Answer<Vec<u8>> {
        within(room, spell_list(NEW_LIST, holdings, holding_parts)?)
    }

    /// The holdings of a list of either kind, as far as lent room for so many has taken them, and the refusal if any: 11, 12 of the first
    /// number, 10, then 11, 12, 13, 24 of each entry, then 14.
    pub fn read_holdings(&self, list: &[u8], room: usize) -> (Vec<u32>, Answer<()>) {
        let mut placed = Vec::new();
        let answer = place_holdings(list, room, &mut placed);
        (placed, answer)
    }
}

/// "The new reader takes both, an old entry as product 0; its first number may be 0 to 4 096 or 8 192 to 12 288, and any other is 12."
fn place_holdings(list: &[u8], room: usize, placed: &mut Vec<u32>) -> Answer<()> {
    let (first, entries) = take_number(list)?;
    match first {
        0..=4_096 => place_entries(first as usize, entries, room, placed, |sheet| holding(sheet, 0)),
        8_192..=12_288 => {
            let count = (first - NEW_LIST) as usize;
            place_entries(count, entries, room, placed, |number| holding_parts(number).map(|_| number))
        }
        _ => refuse(12),
    }
}

// ---- Document 02, j) "Check what the scanning firm delivers" ----

impl Division {
    /// The count of the cover, where "sheet numbers claimed to cover a window at a scale, in any order" are accepted: "Accept exactly when
    /// each sheet of the cover occurs once and nothing else does. Say the first bad place, or the first missing sheet in cover order.
    /// Refusals: cover's 2, 7, 8, 9 first; then 25 a sheet not of the cover and 26 a sheet seen before, whichever place comes first; then 27
    /// a sheet missing." Places count from 0. A number that is no sheet is not of the cover either.
    pub fn check_delivery(&self, scale: u32, window: Frame, delivery: &[u32]) -> Answer<u64> {
        let cover = self.cover(scale, window, MOST)?;
        let of_cover: HashSet<u32> = cover.iter().copied().collect();
        let mut seen = HashSet::new();
        for (place, &sheet) in (0..).zip(delivery) {
            if !of_cover.contains(&sheet) {
                return Err(Refusal { number: 25, carries: Some(place) });
            }
            if !seen.insert(sheet) {
                return Err(Refusal { number: 26, carries: Some(place) });
            }
        }
        match cover.iter().find(|sheet| !seen.contains(sheet)) {
            Some(&missing) => Err(Refusal { number: 27, carries: Some(missing as u64) }),
            None => Ok(cover.len() as u64),
        }
    }
}

// ---- "Table of examples" and "Slips that look right", with readings of open points ----

#[cfg(test)]
mod tests {
    use super::*;
    use std::sync::OnceLock;

    fn division() -> &'static Division {
        static DIVISION: OnceLock<Division> = OnceLock::new();
        DIVISION.get_or_init(Division::lay_out)
    }

    fn label_of(sheet: u32) -> String {
        String::from_utf8(division().write_label(sheet, 16).expect("a sheet").text().to_vec()).expect("text")
    }

    fn read(label: &str) -> Answer<u32> {
        division().read_label(label.as_bytes())
    }

    fn refuse_at<T>(number: u32, place: u64) -> Answer<T> {
        Err(Refusal { number, carries: Some(place) })
    }

    /// All texts over some bytes, of none up to so many.
    fn texts(bytes: &[u8], most: usize) -> Vec<Vec<u8>> {
        let mut texts = vec![Vec::new()];
        let mut from = 0;
        for _ in 0..most {
            let to = texts.len();
            for k in from..to {
                for &byte in bytes {
                    texts.push([&texts[k][..], &[byte]].concat());
                }
            }
            from = to;
        }
        texts
    }

    #[test]
    fn nine_labels() {
        let cases = [
            ("250-102-3", 6),
            ("100-105-6", 69),
            ("50-109-11", 344),
            ("25-3-109-11", 1456),
            ("10-11-109-11", 7434),
            ("5-1-3-109-11", 35224),
            ("2-301-109-11", 184724),
            ("1-3-301-109-11", 879376),
            ("5-1-3-301-109-11", 3657982),
        ];
        for (scale, (label, sheet)) in (1..).zip(cases) {
            assert_eq!(division().sheet_of_point(scale, 500_000_000, 5_000_000_000), Ok(sheet));
            assert_eq!(read(label), Ok(sheet));
            assert_eq!(label_of(sheet), label);
            assert_eq!(scale_of(sheet), Ok(scale));
        }
    }

    #[test]
    fn points_at_edges() {
        let at = |scale, e, n| division().sheet_of_point(scale, e, n);
        let place = |e, n| division().place(at(3, e, n).expect("a sheet")).expect("a place");
        assert_eq!(place(229_999_999, 5_000_000_000).column + 1, 1);
        assert_eq!(place(230_000_000, 5_000_000_000).column + 1, 2);
        assert_eq!(place(500_000_000, 5_150_000_000).row + 101, 102);
        assert_eq!(place(500_000_000, 5_150_000_001).row + 101, 101);
        for scale in 1..=9 {
            assert!(at(scale, 200_000_000, 5_000_000_000).is_ok());
            assert_eq!(at(scale, 199_999_999, 5_000_000_000), refuse(1));
            assert_eq!(at(scale, 800_000_000, 5_000_000_000), refuse(1));
            assert!(at(scale, 799_999_999, 5_000_000_000).is_ok());
            assert!(at(scale, 500_000_000, 5_170_000_000).is_ok());
            assert_eq!(at(scale, 500_000_000, 5_170_000_001), refuse(1));
            assert_eq!(at(scale, 500_000_000, 4_570_000_000), refuse(1));
            assert!(at(scale, 500_000_000, 4_570_000_001).is_ok());
        }
        assert_eq!(at(0, i64::MIN, i64::MAX), refuse(2));
        assert_eq!(at(10, 0, 0), refuse(2));
        assert_eq!(at(9, i64::MIN, i64::MAX), refuse(1));
    }

    #[test]
    fn last_sheet() {
        assert_eq!(read("5-4-4-625-130-20"), Ok(LAST_SHEET));
        let frame = division().frame(LAST_SHEET).expect("a frame");
        assert_eq!((frame.west, frame.south), (799_700_000, 4_570_000_000));
        assert_eq!(division().frame(LAST_SHEET + 1), refuse(3));
        assert_eq!(division().frame(3_657_982).map(|frame| frame.east), Ok(500_300_000));
        assert_eq!(division().frame(3_657_982).map(|frame| frame.south), Ok(4_999_800_000));
    }

    #[test]
    fn labels_refused() {
        let out_of_range = [
            ("50-101-0", 7), ("50-131-1", 3), ("50-0-0", 3), ("50-357-1", 3), ("50-65637-1", 3), ("50-4294967397-1", 3),
            ("2-626-101-1", 2), ("100-116-1", 4),
        ];
        for (label, place) in out_of_range {
            assert_eq!(read(label), refuse_at(5, place), "{label}");
        }
        let badly = [
            ("50-0101-1", 20, 3), ("50-101-", 20, 7), ("", 4, 0), ("0,5-1-3-301-109-11", 4, 16), ("306-101-1", 21, 0),
            ("65586-101-1", 21, 0), ("4294967346-101-1", 21, 0), ("1-1-1-1-1-1-1-1", 21, 0), ("1-1-101-1", 21, 0),
            ("5-1-1-1-1-101-1", 21, 0), ("0", 21, 0), ("0-101-1", 21, 0), ("5-1-3-301-109-011", 4, 16), ("50-101-1 ", 19, 8),
        ];
        for (label, number, place) in badly {
            assert_eq!(read(label), refuse_at(number, place), "{label}");
        }
        assert_eq!(scale_of(read("5-1-1-101-1").expect("a sheet")), Ok(6));
        assert_eq!(scale_of(read("5-1-1-101-101-1").expect("a sheet")), Ok(9));
    }

    #[test]
    fn lists() {
        let list = [0x03, 0x00, 0xD7, 0x02, 0xBC, 0xB3, 0xE5, 0x03];
        let sheets = [0, 344, LAST_SHEET];
        assert_eq!(division().write_list(&sheets, 8), Ok(list.to_vec()));
        assert_eq!(division().write_list(&sheets, 7), too_short(8));
        assert_eq!(division().list_length(&sheets), Ok(8));
        assert_eq!(division().read_list(&list, 3), (sheets.to_vec(), Ok(())));
        assert_eq!(division().read_list(&list[..5], 3), (vec![0, 344], refuse(11)));
        assert_eq!(division().read_list(&list, 2), (vec![], too_short(3)));
        assert_eq!(division().write_list(&[], 1), Ok(vec![0]));
        assert_eq!(division().read_list(&[0], 0), (vec![], Ok(())));
        assert_eq!(division().read_list(&[0x80, 0x80, 0x80, 0x80], 9), (vec![], refuse(12)));
        assert_eq!(division().read_list(&[0x80, 0x80, 0x80], 9), (vec![], refuse(11)));
        assert_eq!(division().read_list(&[0x80, 0x80, 0x80, 0x00], 9), (vec![], refuse(12)));
        assert_eq!(division().read_list(&[0, 0], 9), (vec![], refuse(14)));
        assert_eq!(division().read_list(&[0x81, 0x20], 0), (vec![], refuse(12)));
        assert_eq!(division().list_length(&[5, 5, LAST_SHEET + 1]), refuse(15));
        assert_eq!(division().list_length(&[5, LAST_SHEET + 1, 5]), refuse(3));
    }

    #[test]
    fn covers() {
        let window = Frame { west: 200_000_000, east: 260_000_000, south: 5_150_000_000, north: 5_170_000_000 };
        assert_eq!(division().cover(4, window, 8), Ok(vec![774, 775, 778, 779, 776, 777, 780, 781]));
        assert_eq!(division().cover(4, window, 7), too_short(8));
        let area = Frame { west: AREA_WEST, east: AREA_EAST, south: AREA_SOUTH, north: AREA_NORTH };
        for scale in 1..=9 {
            let count = division().cover(scale, area, MOST).map(|sheets| sheets.len());
            assert_eq!(count, if scale < 5 { Ok(SCALES[scale as usize - 1].sheets as usize) } else { refuse(9) });
        }
        assert_eq!(division().cover(4, Frame { east: AREA_WEST, ..area }, 8), refuse(7));
        assert_eq!(division().cover(4, Frame { east: AREA_EAST + 1, ..area }, 8), refuse(8));
    }

    #[test]
    fn relations() {
        assert_eq!(division().parent(3_657_982), read("1-3-301-109-11"));
        assert_eq!(division().parent(344), refuse(6));
        assert_eq!(division().child(344, 7, 301), read("2-301-109-11"));
        assert_eq!(division().child(344, 8, 1), refuse(6));
        assert_eq!(division().child(1456, 5, 1), refuse(6));
        assert_eq!(division().child(LAST_SHEET + 1, 0, 1), refuse(3));
        assert_eq!(division().child(344, 0, 1), refuse(2));
        assert_eq!(division().step(344, 1, -1), read("50-108-12"));
        assert_eq!(division().step(344, i64::MIN, i64::MAX), refuse(6));
        assert_eq!(division().offset(read("50-109-11").unwrap(), read("50-110-9").unwrap()), Ok((-2, 1)));
        assert_eq!(division().offset(0, 24), refuse(6));
        assert_eq!(division().neighbours(0)[1], [None, Some(0), Some(1)]);
        assert_eq!(division().neighbours(0)[2], [None, Some(4), Some(5)]);
        assert_eq!(division().neighbours(LAST_SHEET + 1), [[None; 3]; 3]);
    }

    #[test]
    fn lines() {
        let line = |text: &str| division().read_line(text.as_bytes());
        assert_eq!(line("50-109-11"), Line { sheet: Ok(344), label: 0..9, name: 9..9 });
        assert_eq!(line("50-109-11 Prelog (sjever)"), Line { sheet: Ok(344), label: 0..9, name: 10..25 });
        let refused = [
            ("", refuse_at(4, 0)), (" ", refuse_at(4, 0)), ("50-109-11 ", refuse(16)), ("2-301-109-11 ", refuse(17)),
            ("50-131-1  x", refuse_at(5, 3)), ("50-109-11\r", refuse_at(19, 9)),
        ];
        for (text, sheet) in refused {
            assert_eq!(line(text), Line { sheet, label: 0..0, name: 0..0 }, "{text}");
        }
        for (length, fine) in [(0, false), (1, true), (48, true), (49, false)] {
            assert_eq!(line(&format!("50-109-11 {}", "x".repeat(length))).sheet.is_ok(), fine);
        }
        let caption = |text: &str| division().caption(text.as_bytes(), b"none");
        assert_eq!(caption("50-109-11"), Caption::OfFallback(0..4));
        assert_eq!(caption("50-109-11 Rab"), Caption::OfLine(10..13));
        assert_eq!(caption("50-109-11 "), Caption::OfLine(0..0));
    }

    #[test]
    fn the_program() {
        let rows = |text: &str| division().rows(text.as_bytes());
        let whole = "1 3657982 500000 500300 4999800 5000000\n2 refused 4 16\n";
        assert_eq!(rows("5-1-3-301-109-11\n0,5-1-3-301-109-11\n"), whole);
        assert_eq!(rows("5-1-3-301-109-11\n0,5-1-3-301-109-11"), whole);
        assert_eq!(rows(""), "");
        assert_eq!(rows("\n"), "1 refused 4 0\n");
    }

    // ---- Document 02, a) ----

    /// The floats next to a positive one.
    fn above(metres: f64) -> u64 {
        metres.to_bits() + 1
    }
    fn below(metres: f64) -> u64 {
        metres.to_bits() - 1
    }

    #[test]
    fn frames_in_metres() {
        let frame = |sheet| division().frame_in_metres(sheet).map(|numbers| numbers.map(f64::from_bits));
        assert_eq!(frame(344), Ok([500_000.0, 530_000.0, 4_990_000.0, 5_010_000.0, 515_000.0, 5_000_000.0]));
        assert_eq!(frame(0), Ok([200_000.0, 350_000.0, 5_070_000.0, 5_170_000.0, 275_000.0, 5_120_000.0]));
        assert_eq!(frame(3_657_982), Ok([500_000.0, 500_300.0, 4_999_800.0, 5_000_000.0, 500_150.0, 4_999_900.0]));
        assert_eq!(frame(LAST_SHEET), Ok([799_700.0, 800_000.0, 4_570_000.0, 4_570_200.0, 799_850.0, 4_570_100.0]));
        assert_eq!(frame(LAST_SHEET + 1), refuse(3));
        assert_eq!(frame(u32::MAX), refuse(3));
        // All exact, "because every edge is a whole number of hundred metres".
        for sheet in 0..=LAST_SHEET {
            let [west, east, south, north, e, n] = frame(sheet).expect("a sheet");
            let edges = division().frame(sheet).expect("a sheet");
            for (metres, edge) in [(west, edges.west), (east, edges.east), (south, edges.south), (north, edges.north)] {
                assert!(edge % 100_000 == 0 && metres.to_bits() == ((edge / 1000) as f64).to_bits());
            }
            assert!(2 * e as i64 == west as i64 + east as i64 && e == e.trunc());
            assert!(2 * n as i64 == south as i64 + north as i64 && n == n.trunc());
        }
    }

    #[test]
    fn floats_taken_apart() {
        let told = |metres: f64| Exact::of(metres.to_bits()).map(|exact| (exact.whole, exact.power));
        assert_eq!(told(1.0), Some((1 << 52, -52)));
        assert_eq!(told(-0.75), Some((-3 << 51, -53)));
        assert_eq!((told(0.0), told(-0.0)), (Some((0, -1074)), Some((0, -1074))));
        assert_eq!(told(f64::from_bits(1)), Some((1, -1074)));
        assert_eq!(told(f64::MIN_POSITIVE), Some((1 << 52, -1074)));
        assert_eq!(told(f64::MIN), Some((1 - (1 << 53), 971)));
        assert_eq!((told(f64::INFINITY), told(f64::NEG_INFINITY), told(f64::NAN)), (None, None, None));
        for whole in [1, 2, 3, 200_000, 799_850, 5_170_000, (1 << 53) - 1] {
            assert_eq!(float_of(whole), (whole as f64).to_bits());
        }
    }

    #[test]
    fn points_in_metres() {
        let (e, n) = (500_000f64.to_bits(), 5_000_000f64.to_bits());
        let at = |scale, e, n| division().sheet_at_metres(scale, e, n);
        for scale in 1..=9 {
            assert_eq!(at(scale, e, n), division().sheet_of_point(scale, 500_000_000, 5_000_000_000));
            assert_eq!(division().frame_at_metres(scale, e, n), division().frame_in_metres(at(scale, e, n).expect("a sheet")));
            // The area owns its west and north edge, not the others, by a hair.
            assert!(at(scale, 200_000f64.to_bits(), n).is_ok());
            assert_eq!(at(scale, below(200_000.0), n), refuse(1));
            assert_eq!(at(scale, 800_000f64.to_bits(), n), refuse(1));
            assert!(at(scale, below(800_000.0), n).is_ok());
            assert!(at(scale, e, 5_170_000f64.to_bits()).is_ok());
            assert_eq!(at(scale, e, above(5_170_000.0)), refuse(1));
            assert_eq!(at(scale, e, 4_570_000f64.to_bits()), refuse(1));
            assert!(at(scale, e, above(4_570_000.0)).is_ok());
        }
        let place = |e, n| division().place(at(3, e, n).expect("a sheet")).expect("a place");
        assert_eq!(place(below(230_000.0), n).column + 1, 1);
        assert_eq!(place(230_000f64.to_bits(), n).column + 1, 2);
        assert_eq!(place(e, 5_150_000f64.to_bits()).row + 101, 102);
        assert_eq!(place(e, above(5_150_000.0)).row + 101, 101);
        // Numbers that are outside, however small or large.
        let numbers = [0.0, f64::from_bits(1), f64::MIN_POSITIVE, 9_223_372_036_854_774.0, 9_223_372_036_854_776.0, 1e300, f64::MAX];
        for metres in numbers.into_iter().flat_map(|metres| [metres.to_bits(), (-metres).to_bits()]) {
            assert_eq!(at(3, metres, n), refuse(1));
            assert_eq!(at(3, e, metres), refuse(1));
            assert_eq!(at(3, metres, metres), refuse(1));
        }
        assert_eq!(at(3, (-500_000f64).to_bits(), n), refuse(1));
        assert_eq!(at(3, e, (-5_000_000f64).to_bits()), refuse(1));
    }

    /// "18, a value that is infinite or no number, stands after 2 and before 1", whichever value it is.
    #[test]
    fn no_numbers() {
        let (e, n) = (500_000f64.to_bits(), 5_000_000f64.to_bits());
        let none = [0x7FF0 << 48, 0xFFF0 << 48, (0x7FF0 << 48) + 1, 0x7FF8 << 48, 0xFFF8 << 48, u64::MAX, u64::MAX >> 1];
        for bits in none {
            for other in [e, n, 0, f64::MAX.to_bits(), f64::MIN.to_bits(), bits, f64::NAN.to_bits()] {
                for scale in 1..=9 {
                    assert_eq!(division().sheet_at_metres(scale, bits, other), refuse(18));
                    assert_eq!(division().sheet_at_metres(scale, other, bits), refuse(18));
                    assert_eq!(division().frame_at_metres(scale, other, bits), refuse(18));
                }
                for scale in [0, 10, 257, u32::MAX] {
                    assert_eq!(division().sheet_at_metres(scale, bits, other), refuse(2));
                    assert_eq!(division().frame_at_metres(scale, other, bits), refuse(2));
                }
            }
        }
        assert_eq!(division().sheet_at_metres(0, f64::MAX.to_bits(), n), refuse(2));
    }

    /// "The east value goes down to a whole millimetre and the north value goes up": the document's rounding, done on the decimal digits,
    /// leads to the same sheet, and beyond 64-bit millimetres there is none.
    #[test]
    fn rounded_points() {
        let rounded = |bits: u64, up: bool| -> Option<i64> {
            let text = format!("{:.1074}", f64::from_bits(bits & (u64::MAX >> 1))).replace('.', "");
            let (whole, rest) = text.split_at(text.len() - 1071);
            let minus = bits >> 63 == 1;
            let further = (up != minus && rest.bytes().any(|digit| digit != b'0')) as i128;
            let size = whole.parse::<i128>().ok()? + further;
            i64::try_from(if minus { -size } else { size }).ok()
        };
        assert_eq!((rounded(0.0015f64.to_bits(), false), rounded(0.0015f64.to_bits(), true)), (Some(1), Some(2)));
        assert_eq!((rounded((-0.0015f64).to_bits(), false), rounded((-0.0015f64).to_bits(), true)), (Some(-2), Some(-1)));
        assert_eq!((rounded(2.5f64.to_bits(), false), rounded((-0.0f64).to_bits(), true)), (Some(2500), Some(0)));
        let mut floats: Vec<u64> = Vec::new();
        for exponent in 0..2047 {
            for fraction in [0, 1, 1 << 51, (1 << 52) - 1] {
                floats.push(exponent << 52 | fraction);
            }
        }
        for edge in division().grid(3).west_to_east.iter().chain(&division().grid(3).north_to_south) {
            for half_millimetres in -2..=2 {
                let bits = ((2 * edge + half_millimetres) as f64 / 2000.0).to_bits();
                floats.extend(bits - 2..=bits + 2);
            }
        }
        let (e, n) = (500_000f64.to_bits(), 5_000_000f64.to_bits());
        let mut inside = 0;
        for bits in floats.into_iter().flat_map(|bits| [bits, bits | 1 << 63]) {
            let (down, up) = (rounded(bits, false), rounded(bits, true));
            for scale in [1, 3, 9] {
                let east = down.map_or(refuse(1), |down| division().sheet_of_point(scale, down, 5_000_000_000));
                let north = up.map_or(refuse(1), |up| division().sheet_of_point(scale, 500_000_000, up));
                assert_eq!(division().sheet_at_metres(scale, bits, n), east, "{bits:x}");
                assert_eq!(division().sheet_at_metres(scale, e, bits), north, "{bits:x}");
                inside += east.is_ok() as u32 + north.is_ok() as u32;
            }
        }
        assert!(inside > 3_000, "{inside}");
    }

    // ---- Document 02, b) ----

    #[test]
    fn places_of_faults() {
        let cases = [
            // "the hyphen or label end that closes an empty field", or the leading zero, of the first such field.
            ("-", 20, 0), ("-101-1", 20, 0), ("50--1", 20, 3), ("50-", 20, 3), ("50-101--1", 20, 7), ("--", 20, 0),
            ("050-101-1", 20, 0), ("05-1-1-101-1", 20, 0), ("00", 20, 0), ("00-101-1", 20, 0), ("50-00-1", 20, 3), ("50-101-01", 20, 7),
            ("50-01-", 20, 3), ("50--01", 20, 3), ("5-4-4-625-130-00", 20, 14), ("5-4-4-625-130-2-", 20, 16), ("999999999999999-", 20, 16),
            ("5-4-4-62-130-20-", 20, 16),
            // "19 a byte that is neither digit nor hyphen".
            ("x", 19, 0), ("x50-101-1", 19, 0), ("50-x-1", 19, 3), ("50-101-1x", 19, 8), ("50.101.1", 19, 2), ("50–101–1", 19, 2),
            ("50-101-1\r", 19, 8), ("50-101\t1", 19, 6), ("50-101-1\0", 19, 8), ("0,5-1-1-1-101-1", 19, 1),
            ("\u{feff}50-101-1", 19, 0), ("50-101-١", 19, 7), ("5-4-4-625-130-2x", 19, 15), ("50/101:1", 19, 2),
            // "0 for an empty label and for 21"; a field "0" alone is well formed.
            ("1", 21, 0), ("50", 21, 0), ("50-101", 21, 0), ("50-0", 21, 0), ("50-101-1-1", 21, 0), ("3-101-1", 21, 0),
            ("5-1-101-1", 21, 0), ("9999999999999999", 21, 0), ("0-0-0-0-0-0-0-0", 21, 0),
            // "for 5 the start of the first field out of range".
            ("50-100-1", 5, 3), ("50-130-21", 5, 7), ("50-131-21", 5, 3), ("25-5-131-21", 5, 3), ("25-4-131-21", 5, 5),
            ("25-4-130-21", 5, 9), ("5-26-5-131-21", 5, 2), ("5-25-5-131-21", 5, 5), ("5-25-4-131-21", 5, 7), ("5-25-4-130-21", 5, 11),
            ("5-5-5-626-131-21", 5, 2), ("5-4-5-626-131-21", 5, 4), ("5-4-4-626-131-21", 5, 6), ("5-4-4-625-131-21", 5, 10),
            ("5-4-4-625-130-21", 5, 14), ("5-4-4-625-130-0", 5, 14), ("5-1-1-101-101", 5, 10), ("50-101-999999999", 5, 7),
            ("50-0-99999999999", 5, 3), ("2-9999999999-1-1", 5, 2),
            // The order is by kind and not by place.
            ("50--1x", 19, 5), ("1--00", 20, 2), ("-x", 19, 1), ("00x", 19, 2), ("3x", 19, 1), ("50-131-x", 19, 7), ("x-", 19, 0),
            ("3-00", 20, 2), ("3-", 20, 2), ("50-131-01", 20, 7), ("50-131-", 20, 7), ("50-131", 21, 0), ("3-131-0", 21, 0),
            // "16 for one too long", whatever else is wrong with it.
            ("x-00-131-21-4294967296", 4, 16), ("5-4-4-625-130-201", 4, 16), ("5-4-4-625-130-20-", 4, 16), ("5-4-4-625-130-20x", 4, 16),
            ("-----------------", 4, 16), ("x----------------", 4, 16),
        ];
        for (label, number, place) in cases {
            assert_eq!(read(label), refuse_at(number, place), "{label}");
            // "The line reader and the program repeat the place after the number", whatever the name is.
            for name in ["", " ", " Rab", "  Rab"] {
                let line = format!("{label}{name}");
                assert_eq!(division().read_line(line.as_bytes()).sheet, refuse_at(number, place), "{line}");
                assert_eq!(division().rows(line.as_bytes()), format!("1 refused {number} {place}\n"), "{line}");
            }
        }
        for length in [17, 18, 66, 256, 65_536 + 8] {
            assert_eq!(read(&"5".repeat(length)), refuse_at(4, 16));
            assert_eq!(division().read_line(format!("{} Rab", "x".repeat(length)).as_bytes()).sheet, refuse_at(4, 16));
        }
        // 16 and 17 carry no place, and print none.
        assert_eq!(division().rows(b"50-101-1 \n2-1-101-1 Rab\n50-131-1 \n"), "1 refused 16\n2 refused 17\n3 refused 5 3\n");
    }

    /// The form of a label by document 01, where all of this was 4: "1 to 16 bytes, only digits and hyphens, no empty field, no leading
    /// zero (a field "0" alone is well formed), a known first number with its count of fields".
    fn well_formed(text: &str) -> bool {
        let fields: Vec<&str> = text.split('-').collect();
        (1..=16).contains(&text.len())
            && text.bytes().all(|byte| byte.is_ascii_digit() || byte == b'-')
            && fields.iter().all(|field| !field.is_empty() && (*field == "0" || !field.starts_with('0')))
            && SCALES.iter().any(|scale| (scale.mark, scale.fields) == (fields[0], fields.len()))
    }

    /// "Which labels are accepted does not change": 4, 19, 20 and 21 together are the old 4, and 5 stays what it was.
    #[test]
    fn as_before() {
        for sheet in (0..100_000).chain((100_000..=LAST_SHEET).step_by(53)) {
            let label = label_of(sheet);
            assert!(well_formed(&label) && read(&label) == Ok(sheet));
        }
        let mut counts = [0; 22];
        let mut hold = |label: &str| {
            let number = read(label).map_or_else(|refusal| refusal.number, |_| 0);
            counts[number as usize] += 1;
            assert_eq!(well_formed(label), [0, 5].contains(&number), "{label}");
        };
        // All texts of up to six letters, alone and behind the beginnings of labels.
        for text in texts(b"015-x", 6) {
            for before in ["", "50-", "25-1-", "5-1-1-", "5-1-1-1-", "5-1-1-115-1"] {
                hold(&format!("{before}{}", text.escape_ascii()));
            }
        }
        for number in [0, 4, 5, 19, 20, 21] {
            assert!(counts[number] > 100, "{number}: {}", counts[number]);
        }
        assert_eq!(counts.iter().sum::<i32>(), 6 * 19_531);
    }

    // ---- Document 02, c) ----

    /// The two marks, CC 8C and CC 81.
    const CARON: char = '\u{30C}';
    const ACUTE: char = '\u{301}';
    const SINGLE: [(char, char, char); 8] = [
        ('c', CARON, 'č'), ('s', CARON, 'š'), ('z', CARON, 'ž'), ('C', CARON, 'Č'), ('S', CARON, 'Š'), ('Z', CARON, 'Ž'),
        ('c', ACUTE, 'ć'), ('C', ACUTE, 'Ć'),
    ];

    /// All letters of Unicode with the two marks, and all of its marks with the letters that are joined: "Nothing else is joined."
    #[test]
    fn letters_joined() {
        let every_letter = ('\0'..=char::MAX).flat_map(|letter| [CARON, ACUTE].map(|mark| (letter, mark)));
        let every_mark = ('\u{300}'..='\u{36F}').flat_map(|mark| ['c', 's', 'z', 'C', 'S', 'Z'].map(|letter| (letter, mark)));
        for (letter, mark) in every_letter.chain(every_mark) {
            let typed = format!("{letter}{mark}");
            let single = SINGLE.iter().find(|&&(a, b, _)| (a, b) == (letter, mark));
            let expected = single.map_or(typed.clone(), |(_, _, single)| single.to_string());
            assert_eq!(joined(typed.as_bytes()), expected.as_bytes(), "{typed}");
        }
    }

    #[test]
    fn names() {
        let same = |one: &str, other: &str| same_name(one.as_bytes(), other.as_bytes());
        assert_eq!("Jančag".as_bytes(), b"Jan\xC4\x8Dag");
        let alike = [
            ("", ""), ("Jančag", "Jančag"), ("Jančag", "Janc\u{30C}ag"), ("Janc\u{30C}ag", "Janc\u{30C}ag"), ("Čakovec", "C\u{30C}akovec"),
            ("Konjščina", "Konjs\u{30C}c\u{30C}ina"), ("Konjšc\u{30C}ina", "Konjs\u{30C}čina"), ("C\u{301}ićarija", "Ćic\u{301}arija"),
            ("c\u{30C}\u{30C}", "č\u{30C}"), ("c\u{30C}c\u{30C}", "čč"), ("c\u{301}\u{30C}", "ć\u{30C}"), ("\u{30C}c\u{30C}", "\u{30C}č"),
        ];
        for (one, other) in alike {
            assert!(same(one, other) && same(other, one), "{one} {other}");
        }
        let unlike = [
            ("", "\u{30C}"), ("Jančag", "Jancag"), ("Janc\u{30C}ag", "Jancag"), ("Jančag", "Janćag"), ("Jančag", "Jan\u{30C}cag"),
            ("C\u{30C}", "č"), ("c\u{30C}", "ć"), ("c\u{301}", "č"), ("s\u{301}", "ś"), ("z\u{301}", "ź"), ("d\u{30C}", "ď"),
            ("c\u{30C}\u{30C}", "č"), ("c\u{30C}\u{30C}", "čč"), ("c\u{30C}\u{301}", "ć\u{30C}"), ("c\u{302}", "ĉ"), ("dž", "ǆ"),
        ];
        for (one, other) in unlike {
            assert!(!same(one, other) && !same(other, one), "{one} {other}");
        }
        for (one, other) in [(&b"c\xCC"[..], &b"c"[..]), (b"c\xCC", b"\xC4"), (b"c\x8C", b"\xC4\x8D"), (b"c\xCC\xCC\x8C", b"\xC4\x8D")] {
            assert!(!same_name(one, other) && !same_name(other, one) && same_name(one, one));
        }
    }

    /// All names of up to six bytes over a few: "Joining twice changes nothing", and it is the same to join one kind of letter after
    /// another, each wherever it stands.
    #[test]
    fn joined_twice() {
        fn instead(name: &[u8], row: &([u8; 3], [u8; 2])) -> Vec<u8> {
            match name.windows(3).position(|three| three == row.0) {
                Some(place) => [&name[..place], &row.1, &instead(&name[place + 3..], row)[..]].concat(),
                None => name.to_vec(),
            }
        }
        for name in texts(b"cC\xCC\x8C\x81\xC4", 6) {
            let once = joined(&name);
            assert_eq!(joined(&once), once, "{name:x?}");
            assert_eq!(JOINED.iter().fold(name.clone(), |name, row| instead(&name, row)), once, "{name:x?}");
        }
    }

    /// "The part handed back is still the line's own bytes", and its length is theirs.
    #[test]
    fn parts_of_lines() {
        for name in ["Jančag", "Janc\u{30C}ag"] {
            let line = format!("50-109-11 {name}");
            assert_eq!(division().read_line(line.as_bytes()), Line { sheet: Ok(344), label: 0..9, name: 10..line.len() });
            assert_eq!(division().caption(line.as_bytes(), b"none"), Caption::OfLine(10..line.len()));
        }
        for (count, fine) in [(16, true), (17, false)] {
            let line = format!("50-109-11 {}", "c\u{30C}".repeat(count));
            assert_eq!(division().read_line(line.as_bytes()).sheet.is_ok(), fine);
        }
    }

    // ---- Document 02, d) ----

    fn check(line: &str) -> Answer<Checked> {
        division().official_check(line.as_bytes())
    }

    fn sheet_named(name: &str) -> Option<u32> {
        division().official_sheet(name.as_bytes())
    }

    /// The sheets of the list, and those of the scale that are not in it.
    const LISTED: [u32; 15] = [1, 2, 3, 4, 5, 6, 7, 8, 9, 10, 13, 14, 17, 18, 19];
    const UNLISTED: [&str; 9] = [
        "250-101-1", "250-103-4", "250-104-1", "250-104-4", "250-105-1", "250-106-1", "250-106-2", "250-106-3", "250-106-4",
    ];

    /// A name with its letters and marks apart.
    fn marked(name: &str) -> String {
        SINGLE.iter().fold(name.to_string(), |name, (letter, mark, single)| name.replace(*single, &format!("{letter}{mark}")))
    }

    #[test]
    fn official_names() {
        for ((label, name), sheet) in OFFICIAL.into_iter().zip(LISTED) {
            assert_eq!(read(label), Ok(sheet));
            for room in 0..=20 {
                let answer = if room < name.len() { too_short(name.len()) } else { Ok(Some(name)) };
                assert_eq!(division().official_name(sheet, room), answer, "{name}");
            }
            for typed in [name.to_string(), marked(name)] {
                assert_eq!(sheet_named(&typed), Some(sheet), "{typed}");
                assert_eq!(check(&format!("{label} {typed}")), Ok(Checked::Agrees), "{typed}");
            }
            assert_eq!(check(label), Ok(Checked::Differs));
        }
        assert_eq!(marked("Jančag"), "Janc\u{30C}ag");
        assert_eq!(marked("Otok Lošinj"), "Otok Los\u{30C}inj");
        assert_eq!(OFFICIAL.into_iter().filter(|(_, name)| marked(name) != *name).count(), 2);
        assert_eq!(OFFICIAL.iter().map(|(_, name)| name.len()).max(), Some(14));
    }

    /// "No two of the fifteen names are the same and no label occurs twice; show it over the whole list."
    #[test]
    fn no_two_the_same() {
        for (place, (label, name)) in OFFICIAL.iter().enumerate() {
            for (other_label, other_name) in &OFFICIAL[..place] {
                assert!(label != other_label && !same_name(name.as_bytes(), other_name.as_bytes()), "{label} {other_label}");
            }
        }
    }

    /// "A sheet without a name in that list, or a name it doesn't hold, answers not listed."
    #[test]
    fn not_listed() {
        for label in UNLISTED {
            let sheet = read(label).expect("a sheet");
            assert!(sheet < 24 && !LISTED.contains(&sheet));
            for room in [0, 1, 20] {
                assert_eq!(division().official_name(sheet, room), Ok(None));
            }
            assert_eq!(check(label), Ok(Checked::NotListed));
            for (_, name) in OFFICIAL.into_iter().chain([("", "Prevlasta"), ("", "Rab")]) {
                assert_eq!(check(&format!("{label} {name}")), Ok(Checked::NotListed));
            }
        }
        let names = [
            "", "Prevlasta", "Prevaska", "prevlaka", "PREVLAKA", "Prevlak", "Prevlaka ", " Prevlaka", "Prevlaka\0", "Jancag", "Janćag",
            "Janc\u{301}ag", "Janc\u{30C}\u{30C}ag", "JANČAG", "Otok Losinj", "Otok Los\u{301}inj", "Otok  Lošinj", "Lošinj", "Viš",
            "Vis\u{30C}", "Karlovac\u{30C}", "250-105-4", "250-105-4 Prevlaka", "Čakovec", "Rab",
        ];
        for name in names {
            assert_eq!(sheet_named(name), None, "{name}");
        }
        for name in [&b"Jan\xC4ag"[..], b"Jan\x8Dag", b"Janc\xCCag", b"Janc\x8Cag", b"Karlovac\xCC", &[b'V'; 100_000]] {
            assert_eq!(division().official_sheet(name), None);
        }
    }

    /// "at a listed sheet any other name, or none, differs", also that of another sheet. The source's own lines have one misprint.
    #[test]
    fn names_that_differ() {
        for (label, name) in OFFICIAL {
            let others = OFFICIAL.into_iter().map(|(_, other)| other).filter(|other| *other != name);
            for other in others.chain(["Prevlasta", "Rab", "Jancag", "Otok Lośinj", "prevlaka"]) {
                assert_eq!(check(&format!("{label} {other}")), Ok(Checked::Differs));
            }
        }
        let printed: Vec<&str> = include_str!("../samples/tk250.txt").lines().collect();
        let other: Vec<&str> = printed.iter().copied().filter(|line| check(line) != Ok(Checked::Agrees)).collect();
        assert_eq!((printed.len(), other), (15, vec!["250-105-4 Prevlasta"]));
        assert_eq!(check("250-105-4 Prevlasta"), Ok(Checked::Differs));
    }

    /// "Refusals: 22, not a 1:250 000 sheet, after 3, and for a line after 16; a sheet's name is written into lent room, 10 last."
    #[test]
    fn not_1_250_000() {
        for room in [0, 1, 20] {
            for scale in &SCALES[1..] {
                for sheet in [scale.first, scale.first + scale.sheets - 1] {
                    assert_eq!(division().official_name(sheet, room), refuse(22));
                }
            }
            for sheet in [LAST_SHEET + 1, LAST_SHEET + 20, u32::MAX] {
                assert_eq!(division().official_name(sheet, room), refuse(3));
            }
        }
        for scale in &SCALES[1..] {
            let label = label_of(scale.first);
            let detailed = scale.first >= SCALES[6].first;
            assert_eq!(check(&label), refuse(22));
            assert_eq!(check(&format!("{label} Zagreb")), refuse(if detailed { 17 } else { 22 }));
            for name in ["", " Zagreb", "Zagreb ", "Zagreb\r", &"n".repeat(49)] {
                assert_eq!(check(&format!("{label} {name}")), refuse(if detailed { 17 } else { 16 }));
            }
        }
        // At a sheet of the scale 16 stands before all that the list says.
        for label in ["250-105-4", "250-105-1"] {
            for name in ["", " Prevlaka", "Prevlaka ", "Prevlaka\r", &"n".repeat(49)] {
                assert_eq!(check(&format!("{label} {name}")), refuse(16));
            }
        }
        let faults = [
            ("", 4, 0), ("250-105-4-1234567", 4, 16), ("250-105-x", 19, 8), ("250-0105-4", 20, 4), ("251-105-4", 21, 0),
            ("250-107-4", 5, 4), ("250-105-5", 5, 8), ("100-116-1", 5, 4),
        ];
        for (label, number, place) in faults {
            for tail in ["", " ", " Prevlaka", "  Prevlaka"] {
                assert_eq!(check(&format!("{label}{tail}")), refuse_at(number, place));
            }
        }
    }

    // ---- Document 02, f) ----

    fn sheets_of<const N: usize>(labels: [&str; N]) -> [u32; N] {
        labels.map(|label| read(label).expect("a label"))
    }

    /// The sheets in the order in which they are lent.
    fn lent(sheets: &[u32]) -> Vec<u32> {
        let mut sheets = sheets.to_vec();
        sheets.sort();
        sheets
    }

    /// Asks both ways.
    fn hold_local(municipality: &[u32], sheet: u32, numbers: &[u32]) {
        let [n, a, b] = [0, 1, 2].map(|place| numbers.get(place).copied().unwrap_or(0));
        assert_eq!(division().sheet_to_local(municipality, sheet), Ok(numbers.to_vec()));
        assert_eq!(division().local_to_sheet(municipality, n, a, b), Ok(sheet));
    }

    #[test]
    fn local_numbers() {
        let three = lent(&sheets_of(["2-25-101-1", "2-1-101-2", "2-26-101-1"]));
        assert_eq!(three, [78_198, 78_199, 78_799]);
        let cases: [(&str, &[u32]); 11] = [
            ("2-25-101-1", &[1]), ("2-1-101-2", &[2]), ("2-26-101-1", &[3]), ("1-1-25-101-1", &[1, 1]), ("1-4-1-101-2", &[2, 4]),
            ("1-2-26-101-1", &[3, 2]), ("1-3-26-101-1", &[3, 3]), ("5-1-1-25-101-1", &[1, 1, 1]), ("5-4-3-1-101-2", &[2, 3, 4]),
            ("5-2-4-26-101-1", &[3, 4, 2]), ("5-4-4-26-101-1", &[3, 4, 4]),
        ];
        for (label, numbers) in cases {
            hold_local(&three, read(label).expect("a label"), numbers);
        }
        // Where four 1:50 000 sheets meet, two rows and two columns of each.
        let numbered = sheets_of([
            "2-599-101-1", "2-600-101-1", "2-576-101-2", "2-577-101-2", "2-624-101-1", "2-625-101-1", "2-601-101-2", "2-602-101-2",
            "2-24-102-1", "2-25-102-1", "2-1-102-2", "2-2-102-2", "2-49-102-1", "2-50-102-1", "2-26-102-2", "2-27-102-2",
        ]);
        let sixteen = lent(&numbered);
        assert!(numbered != sixteen[..]);
        for (n, sheet) in (1..).zip(numbered) {
            hold_local(&sixteen, sheet, &[n]);
        }
        // The first and the last sheet of the scale, alone and together, and the last of all.
        let [first, last] = sheets_of(["2-1-101-1", "2-625-130-20"]);
        assert_eq!((first, last), (78_174, 453_173));
        for (municipality, n) in [(&[last][..], 1), (&[first, last], 2)] {
            hold_local(municipality, municipality[0], &[1]);
            hold_local(municipality, last, &[n]);
            hold_local(municipality, LAST_SHEET, &[n, 4, 4]);
        }
    }

    /// "each undoing the other for every sheet of the municipality at scales 7, 8 and 9", "numbered from 1 to n by rows", and "a local
    /// number that none of its sheets has, gets 6".
    #[test]
    fn both_ways() {
        let on = |(row, column): (i128, i128)| division().sheet_on(7, row, column).expect("a sheet");
        let block = |row: i128, column: i128, rows: i128, columns: i128| {
            (row..row + rows).flat_map(move |row| (column..column + columns).map(move |column| (row, column)))
        };
        let holes = |&(row, column): &(i128, i128)| (3 * row + 5 * column) % 7 > 1;
        let municipalities: [Vec<u32>; 9] = [
            block(0, 0, 1, 1).map(on).collect(),
            block(749, 498, 1, 2).map(on).collect(),
            block(40, 45, 8, 10).map(on).collect(),
            block(45, 30, 10, 8).map(on).collect(),
            block(90, 90, 20, 20).map(on).collect(),
            block(360, 240, 22, 25).filter(holes).map(on).collect(),
            block(700, 70, 1, 400).map(on).collect(),
            block(70, 474, 399, 1).map(on).collect(),
            (0..400).map(|k| on((k * k * 7 % 750, k * 11 % 500))).collect(),
        ];
        for sheets in municipalities {
            let municipality = lent(&sheets);
            let count = municipality.len() as u32;
            let mut found = Vec::new();
            for (n, a, b) in (0..=count + 1).flat_map(|n| (0..=5).flat_map(move |a| (0..=5).map(move |b| (n, a, b)))) {
                let numbers: Vec<u32> = [n, a, b].into_iter().filter(|&number| number > 0).collect();
                if n == 0 || n > count || a > 4 || b > 4 || (a == 0 && b > 0) {
                    assert_eq!(division().local_to_sheet(&municipality, n, a, b), refuse(6));
                } else {
                    let sheet = division().local_to_sheet(&municipality, n, a, b).expect("a sheet");
                    hold_local(&municipality, sheet, &numbers);
                    found.push((sheet, numbers));
                }
            }
            // A row is told by its north edge, and the place in it by the west edge.
            let edges = |sheet: u32| division().frame(sheet).map(|frame| (-frame.north, frame.west)).expect("a frame");
            let whole: Vec<u32> = found.iter().filter(|(_, numbers)| numbers.len() == 1).map(|&(sheet, _)| sheet).collect();
            assert!(whole.windows(2).all(|two| edges(two[0]) < edges(two[1])));
            assert_eq!(lent(&whole), municipality);
            found.sort();
            found.dedup_by_key(|(sheet, _)| *sheet);
            assert_eq!(found.len(), 21 * municipality.len());
        }
    }

    /// "A sheet outside it, or a local number that none of its sheets has, gets 6", and a number that is no sheet 3.
    #[test]
    fn outside_municipalities() {
        let three = sheets_of(["2-25-101-1", "2-26-101-1", "2-1-101-2"]);
        let outside = [
            "2-24-101-1", "2-27-101-1", "2-50-101-1", "2-2-101-2", "2-26-101-2", "1-4-24-101-1", "1-1-27-101-1", "1-1-2-101-2",
            "5-4-4-24-101-1", "5-1-1-27-101-1", "5-1-1-2-101-2", "250-101-1", "100-101-1", "50-101-1", "50-101-2", "25-2-101-1",
            "10-5-101-1", "5-5-2-101-1", "2-625-130-20", "1-4-625-130-20", "5-4-4-625-130-20",
        ];
        for sheet in sheets_of(outside).into_iter().chain([0, 1, 24, 78_173]) {
            assert_eq!(division().sheet_to_local(&three, sheet), refuse(6), "{sheet}");
        }
        for sheet in [LAST_SHEET + 1, 1 << 23, (1 << 31) + three[0], u32::MAX] {
            assert_eq!(division().sheet_to_local(&three, sheet), refuse(3), "{sheet}");
        }
        for far in [5, 6, 256, 257, 65_537, (1 << 31) + 1, u32::MAX - 1, u32::MAX] {
            for [n, a, b] in [[far, 0, 0], [far, 1, 1], [1, far, 0], [1, far, 1], [1, 1, far], [1, 0, far], [far, far, far]] {
                assert_eq!(division().local_to_sheet(&three, n, a, b), refuse(6), "{n} {a} {b}");
            }
        }
    }

    #[test]
    fn municipalities_refused() {
        let [one, two, three] = sheets_of(["2-25-101-1", "2-26-101-1", "2-1-101-2"]);
        let [below, above, last, none] = [78_173, 453_174, LAST_SHEET, LAST_SHEET + 1];
        let cases: [(&[u32], u32); 33] = [
            (&[], 23), (&[none], 3), (&[u32::MAX], 3), (&[below], 23), (&[above], 23), (&[0], 23), (&[last], 23),
            (&[one, one], 15), (&[two, one], 15), (&[one, none], 3), (&[one, u32::MAX], 3), (&[one, above], 23), (&[one, last], 23),
            // 23 before 15 at one place.
            (&[one, 0], 23), (&[one, below], 23), (&[one, two, 0], 23), (&[one, two, below], 23),
            // The first faulty place, whatever its fault is.
            (&[above, none], 23), (&[above, one], 23), (&[below, none], 23), (&[none, above], 3), (&[none, none], 3), (&[none, one], 3),
            (&[one, one, none], 15), (&[one, one, above], 15), (&[two, one, below], 15), (&[one, above, none], 23),
            (&[one, above, two], 23), (&[one, none, above], 3), (&[one, none, two], 3), (&[one, two, two], 15), (&[one, three, two], 15),
            (&[one, two, none], 3),
        ];
        // Before all that may be wrong with what is asked.
        let hold = |municipality: &[u32], number: u32| {
            for sheet in [one, two + 1, 0, below, above, last, none, u32::MAX] {
                assert_eq!(division().sheet_to_local(municipality, sheet), refuse(number), "{municipality:?}");
            }
            for [n, a, b] in [[1, 0, 0], [1, 1, 1], [0, 0, 0], [9, 0, 0], [1, 5, 0], [1, 0, 1], [u32::MAX; 3]] {
                assert_eq!(division().local_to_sheet(municipality, n, a, b), refuse(number), "{municipality:?}");
            }
        };
        for (municipality, number) in cases {
            hold(municipality, number);
        }
        // "1 to 400 sheet numbers": a longer list is not looked at.
        for count in [401, 402, 4_096, 65_936] {
            hold(&(one..one + count).collect::<Vec<_>>(), 23);
            hold(&vec![none; count as usize], 23);
            hold(&vec![one; count as usize], 23);
        }
        // At each place of one that may be, with 15 at the last.
        for place in [0, 1, 200, 398, 399] {
            for (number, refusal) in [(none, 3), (below, 23), (above, 23), (one - 1, 15)] {
                let mut municipality: Vec<u32> = (one..one + 400).collect();
                municipality[399] = one;
                municipality[place] = number;
                hold(&municipality, refusal);
            }
        }
    }

    // ---- Document 02, g) ----

    /// "2 the second, which only scales 6 and 7 have".
    #[test]
    fn products() {
        for (scale, facts) in (1..).zip(&SCALES) {
            for sheet in [facts.first, facts.first + facts.sheets - 1] {
                for product in [0, 1, 2, 3, 4, 255, 256, 1 << 31, u32::MAX - 1, u32::MAX] {
                    let had = product < 2 || (product == 2 && [6, 7].contains(&scale));
                    assert_eq!(holding(sheet, product), if had { Ok(3 * sheet + product) } else { refuse(24) }, "{sheet} {product}");
                }
            }
        }
        // The latter three have a triple that is small in 32 bits.
        for sheet in [LAST_SHEET + 1, 1 << 23, u32::MAX, 1_431_655_765, 1_431_655_766, 2_863_311_531] {
            for product in [0, 1, 2, 3, u32::MAX] {
                assert_eq!(holding(sheet, product), refuse(3), "{sheet} {product}");
            }
        }
        assert_eq!(holding(read("5-1-3-109-11").expect("a sheet"), 2), Ok(105_674));
        assert_eq!(holding(read("2-301-109-11").expect("a sheet"), 2), Ok(554_174));
        assert_eq!(holding(read("10-11-109-11").expect("a sheet"), 2), refuse(24));
    }

    /// Over all numbers: each is that of one sheet with one product, or 24.
    #[test]
    fn numbers_of_holdings() {
        let mut counts = [0; 3];
        for number in 0..=LAST_HOLDING {
            match holding_parts(number) {
                Ok((sheet, product)) => {
                    assert_eq!(holding(sheet, product), Ok(number));
                    counts[product as usize] += 1;
                }
                refused => assert_eq!(refused, refuse(24)),
            }
        }
        assert_eq!(counts, [7_953_174, 7_953_174, 435_000]);
        assert_eq!(holding_parts(LAST_HOLDING - 1), Ok((LAST_SHEET, 1)));
        assert_eq!(holding_parts(LAST_HOLDING), refuse(24));
        for number in [LAST_HOLDING + 1, LAST_HOLDING + 2, 1 << 28, (1 << 31) + 1, u32::MAX] {
            assert_eq!(holding_parts(number), refuse(3));
        }
    }

    /// A number in so many groups, however many it takes.
    fn in_groups(number: u32, groups: usize) -> Vec<u8> {
        (0..groups).map(|k| (number as u64 >> (7 * k)) as u8 % 128 + if k + 1 < groups { 128 } else { 0 }).collect()
    }

    #[test]
    fn lists_of_holdings() {
        let cases: [(&[u32], &[u8]); 6] = [
            (&[], &[0x80, 0x40]),
            (&[0], &[0x81, 0x40, 0x00]),
            (&[1_033], &[0x81, 0x40, 0x89, 0x08]),
            (&[0, 1, 1_032, 1_033], &[0x84, 0x40, 0x00, 0x00, 0x86, 0x08, 0x00]),
            // The first sheet of 1:5 000 with all that it may be held as.
            (&[54_522, 54_523, 54_524], &[0x83, 0x40, 0xFA, 0xA9, 0x03, 0x00, 0x00]),
            (&[0, 1_033, 23_859_520], &[0x83, 0x40, 0x00, 0x88, 0x08, 0xB6, 0x9A, 0xB0, 0x0B]),
        ];
        for (holdings, list) in cases {
            let (count, long) = (holdings.len(), list.len());
            assert_eq!(division().holdings_length(holdings), Ok(long));
            assert_eq!(division().write_holdings(holdings, long), Ok(list.to_vec()));
            assert_eq!(division().write_holdings(holdings, long - 1), too_short(long));
            assert_eq!(division().read_holdings(list, count), (holdings.to_vec(), Ok(())));
            assert_eq!(division().read_holdings(&[list, &[0]].concat(), count), (holdings.to_vec(), refuse(14)));
            for cut in 0..long {
                let (placed, answer) = division().read_holdings(&list[..cut], count);
                assert_eq!(answer, refuse(11));
                assert_eq!(placed, holdings[..placed.len()]);
            }
            for room in 0..count {
                assert_eq!(division().read_holdings(list, room), (vec![], too_short(count)));
            }
        }
        assert_eq!(division().read_holdings(&cases[5].1[..5], 3), (vec![0, 1_033], refuse(11)));
        assert_eq!(division().read_holdings(&cases[5].1[..4], 3), (vec![0], refuse(11)));
        // As many as there may be, and one more.
        let most: Vec<u32> = (54_522..).take(MOST).collect();
        let list = division().write_holdings(&most, 4_100).expect("a list");
        assert_eq!(list, [&[0x80, 0x60, 0xFA, 0xA9, 0x03][..], &[0; 4_095]].concat());
        assert_eq!(division().read_holdings(&list, MOST), (most, Ok(())));
        assert_eq!(division().holdings_length(&[u32::MAX; MOST + 1]), refuse(9));
    }

    /// "The new reader takes both, an old entry as product 0", and "The present reader refuses such a list with 12".
    #[test]
    fn both_kinds() {
        let old = [0x03, 0x00, 0xD7, 0x02, 0xBC, 0xB3, 0xE5, 0x03];
        assert_eq!(division().read_holdings(&old, 3), (vec![0, 1_032, 23_859_519], Ok(())));
        assert_eq!(division().read_holdings(&old[..5], 3), (vec![0, 1_032], refuse(11)));
        assert_eq!(division().read_holdings(&old, 2), (vec![], too_short(3)));
        for number in [0, 1, LAST_SHEET, LAST_SHEET + 1, LAST_SHEET + 2, LAST_HOLDING - 1, LAST_HOLDING, LAST_HOLDING + 1] {
            let entry = in_groups(number, groups(number));
            let (sheets, answer) = division().read_list(&[&[1][..], &entry].concat(), 1);
            let tripled = sheets.iter().map(|sheet| 3 * sheet).collect();
            assert_eq!(division().read_holdings(&[&[1][..], &entry].concat(), 1), (tripled, answer));
            let alone = holding_parts(number).map(|_| ());
            let answer = alone.or_else(|refusal| refuse(if refusal.number == 3 { 13 } else { 24 }));
            let placed = if answer.is_ok() { vec![number] } else { vec![] };
            assert_eq!(division().read_holdings(&[&[0x81, 0x40][..], &entry].concat(), 1), (placed, answer));
        }
        // The first number alone, and badly written.
        for first in 0..20_000 {
            let whole = in_groups(first, groups(first));
            let (count, is_old) = match first {
                0..=4_096 => (first, true),
                8_192..=12_288 => (first - 8_192, false),
                _ => {
                    assert_eq!(division().read_holdings(&whole, 5_000), (vec![], refuse(12)));
                    continue;
                }
            };
            let alone = if count == 0 { Ok(()) } else { too_short(count as usize) };
            assert_eq!(division().read_holdings(&whole, 0), (vec![], alone));
            assert_eq!(division().read_list(&whole, 0), (vec![], if is_old { alone } else { refuse(12) }));
            for more in whole.len() + 1..=5 {
                assert_eq!(division().read_holdings(&in_groups(first, more), 5_000), (vec![], refuse(12)));
            }
        }
    }

    /// "24, a product the scale doesn't have, after 13 in reading and after 3 in writing".
    #[test]
    fn holdings_refused() {
        let [good, second, none] = [54_522, 54_521, LAST_HOLDING + 1];
        let cases: [(&[u32], u32); 17] = [
            (&[none], 3), (&[u32::MAX], 3), (&[2], 24), (&[LAST_HOLDING], 24), (&[second], 24), (&[1_359_524], 24),
            (&[good, good], 15), (&[good, good - 2], 15),
            // 24 before 15 at one place.
            (&[good, second], 24), (&[good, 2], 24), (&[1_359_521, good, second], 15), (&[1_359_521, second, good], 24),
            // The first faulty place, whatever its fault is.
            (&[good, good, none], 15), (&[good, second, none], 24), (&[good, none, second], 3), (&[none, none], 3),
            (&[LAST_HOLDING, none], 24),
        ];
        for (holdings, number) in cases {
            assert_eq!(division().holdings_length(holdings), refuse(number), "{holdings:?}");
            for room in [0, 100] {
                assert_eq!(division().write_holdings(holdings, room), refuse(number), "{holdings:?}");
            }
        }
        // Badly written and with a product that is not had: 12; of two entries the first.
        assert_eq!(division().read_holdings(&[0x81, 0x40, 0x82, 0x00], 1), (vec![], refuse(12)));
        assert_eq!(division().read_holdings(&[0x82, 0x40, 0x02, 0x80], 2), (vec![], refuse(24)));
        assert_eq!(division().read_holdings(&[0x82, 0x40, 0x01, 0x00], 2), (vec![1], refuse(24)));
        assert_eq!(division().read_holdings(&[0x81, 0x40, 0x02, 0x00], 1), (vec![], refuse(24)));
    }

    // ---- Document 02, j) ----

    /// So many rows and columns of a scale, from a row and a column on.
    fn block(scale: u32, row: usize, column: usize, rows: usize, columns: usize) -> Frame {
        let Grid { west_to_east, north_to_south, .. } = division().grid(scale);
        let (west, east) = (west_to_east[column], west_to_east[column + columns]);
        Frame { west, east, south: north_to_south[row + rows], north: north_to_south[row] }
    }

    fn check_at_4(window: Frame, delivery: &[u32]) -> Answer<u64> {
        division().check_delivery(4, window, delivery)
    }

    /// Document 01's cover, delivered.
    #[test]
    fn deliveries() {
        let cover = [774, 775, 778, 779, 776, 777, 780, 781];
        let window = Frame { west: 200_000_000, east: 260_000_000, south: 5_150_000_000, north: 5_170_000_000 };
        assert_eq!(division().cover(4, window, 8), Ok(cover.to_vec()));
        let good = [cover, lent(&cover).try_into().expect("eight"), [781, 780, 777, 776, 779, 778, 775, 774]];
        for delivery in good {
            assert_eq!(check_at_4(window, &delivery), Ok(8));
        }
        let cases: [(&[u32], u32, u64); 22] = [
            (&[], 27, 774), (&[774], 27, 775), (&[774, 775], 27, 778), (&[775], 27, 774), (&[781, 779, 778, 775, 774], 27, 776),
            // The first in cover order, which is not the least.
            (&[774, 775, 780, 781], 27, 778), (&[774, 775, 779, 780, 781], 27, 778), (&[774, 775, 776, 777, 780, 781], 27, 778),
            (&[774, 775, 778, 779, 776, 777, 780], 27, 781),
            // Beside the window, of another scale, and no sheet at all.
            (&[782], 25, 0), (&[774, 773], 25, 1), (&[774, 775, 814], 25, 2), (&[774, 0], 25, 1), (&[774, 174], 25, 1),
            (&[774, 775, 778, 779, 776, 777, 780, LAST_SHEET + 1], 25, 7), (&[774, 775, 778, 779, 776, 777, 780, 781, u32::MAX], 25, 8),
            (&[774, 774], 26, 1), (&[774, 775, 778, 774], 26, 3), (&[774, 775, 778, 779, 776, 777, 780, 774], 26, 7),
            // Whichever place comes first; a strange one is strange where it stands first.
            (&[774, 774, 782], 26, 1), (&[774, 782, 774], 25, 1), (&[774, 782, 782], 25, 1),
        ];
        for (delivery, number, value) in cases {
            assert_eq!(check_at_4(window, delivery), refuse_at(number, value), "{delivery:?}");
        }
        for place in 0..8 {
            let mut delivery = cover.to_vec();
            let sheet = delivery.remove(place);
            assert_eq!(check_at_4(window, &delivery), refuse_at(27, sheet as u64));
            delivery.extend([sheet, sheet]);
            assert_eq!(check_at_4(window, &delivery), refuse_at(26, 8));
        }
        // A place or a sheet of 0 is carried.
        assert_eq!(check_at_4(window, &[0]), refuse_at(25, 0));
        assert_eq!(division().check_delivery(1, window, &[]), refuse_at(27, 0));
        assert_eq!(check_at_4(window, &[774]).expect_err("refused").to_string(), "refused 27 775");
    }

    /// All deliveries of up to five numbers over a few, where the cover is not in rising order: "Accept exactly when each sheet of the
    /// cover occurs once and nothing else does", by counts over all numbers; a place is bad by what stands there and before it.
    #[test]
    fn every_delivery() {
        let window = block(4, 0, 1, 2, 2);
        let cover = [775, 778, 777, 780];
        assert_eq!(division().cover(4, window, 4), Ok(cover.to_vec()));
        let numbers = [775, 778, 777, 780, 776, 0, LAST_SHEET + 1, u32::MAX];
        let mut accepted = 0;
        for text in texts(&[0, 1, 2, 3, 4, 5, 6, 7], 5) {
            let delivery: Vec<u32> = text.iter().map(|&place| numbers[place as usize]).collect();
            let answer = check_at_4(window, &delivery);
            let count = |number: u32| delivery.iter().filter(|&&other| other == number).count();
            let exact = numbers.iter().all(|&number| count(number) == cover.contains(&number) as usize);
            assert_eq!(answer.is_ok(), exact, "{delivery:?}");
            let strange = |place: usize| !cover.contains(&delivery[place]);
            let again = |place: usize| delivery[..place].contains(&delivery[place]);
            let bad = (0..delivery.len()).find(|&place| strange(place) || again(place));
            let missing = cover.into_iter().find(|&sheet| count(sheet) == 0);
            let expected = match (bad, missing) {
                (Some(place), _) => refuse_at(if strange(place) { 25 } else { 26 }, place as u64),
                (None, Some(sheet)) => refuse_at(27, sheet as u64),
                (None, None) => Ok(4),
            };
            assert_eq!(answer, expected, "{delivery:?}");
            accepted += answer.is_ok() as u32;
        }
        assert_eq!(accepted, 24);
    }

    /// As many sheets as a cover may have, and deliveries that are longer.
    #[test]
    fn large_deliveries() {
        for (scale, row, column) in [(5, 3, 4), (6, 0, 136), (7, 18, 20), (8, 686, 0), (9, 2_936, 1_936)] {
            let window = block(scale, row, column, 64, 64);
            let cover = division().cover(scale, window, MOST).expect("a cover");
            assert_eq!(cover.len(), MOST);
            let check = |delivery: &[u32]| division().check_delivery(scale, window, delivery);
            let mut delivery = lent(&cover);
            assert!(delivery != cover);
            assert_eq!((check(&cover), check(&delivery)), (Ok(4_096), Ok(4_096)));
            delivery.reverse();
            assert_eq!(check(&delivery), Ok(4_096));
            assert_eq!(check(&[&cover[..], &cover].concat()), refuse_at(26, 4_096));
            assert_eq!(check(&[cover[4_095]; 9_000]), refuse_at(26, 1));
            for place in [0, 1, 63, 64, 2_000, 4_032, 4_095] {
                let with = |number: u32| [&cover[..place], &[number], &cover[place + 1..]].concat();
                for strange in [LAST_SHEET + 1, u32::MAX, SCALES[scale as usize - 2].first] {
                    assert_eq!(check(&with(strange)), refuse_at(25, place as u64));
                }
                // Twice with the right count, and the other missing.
                let (other, later) = if place < 2_048 { (4_094, 4_094) } else { (5, place) };
                assert_eq!(check(&with(cover[other])), refuse_at(26, later as u64));
                assert_eq!(check(&[&cover[..place], &cover[place + 1..]].concat()), refuse_at(27, cover[place] as u64));
                assert_eq!(check(&[&cover[..], &[cover[place]]].concat()), refuse_at(26, 4_096));
                assert_eq!(check(&[&cover[..place], &cover[place + 1..], &[cover[place]]].concat()), Ok(4_096));
            }
        }
    }

    /// "Refusals: cover's 2, 7, 8, 9 first", whatever is delivered.
    #[test]
    fn covers_refused() {
        let good = block(9, 0, 0, 64, 64);
        let cover = division().cover(9, good, MOST).expect("a cover");
        let area = Frame { west: AREA_WEST, east: AREA_EAST, south: AREA_SOUTH, north: AREA_NORTH };
        let cases = [
            (0, good, 2), (10, good, 2), (265, good, 2), (u32::MAX, good, 2), (0, Frame { east: good.west, ..good }, 2),
            (9, Frame { east: good.west, ..good }, 7), (9, Frame { north: good.south, ..good }, 7), (9, Frame { west: i64::MAX, ..good }, 7),
            (9, Frame { east: i64::MIN, ..good }, 7), (9, Frame { south: AREA_NORTH + 1, ..good }, 7),
            (9, Frame { west: AREA_WEST - 1, ..good }, 8), (9, Frame { north: AREA_NORTH + 1, ..good }, 8),
            (9, Frame { east: AREA_EAST + 1, ..good }, 8), (9, Frame { south: AREA_SOUTH - 1, ..good }, 8),
            (9, Frame { west: i64::MIN, ..good }, 8), (9, Frame { south: i64::MIN, ..good }, 8), (9, Frame { east: i64::MAX, ..good }, 8),
            (9, Frame { south: AREA_SOUTH - 1, ..area }, 8), (9, area, 9), (5, area, 9), (9, Frame { east: good.east + 1, ..good }, 9),
            (9, Frame { south: good.south - 1, ..good }, 9), (9, block(9, 0, 0, 17, 241), 9), (9, block(9, 0, 0, 241, 17), 9),
        ];
        for (scale, window, number) in cases {
            for delivery in [&[][..], &cover, &cover[1..], &[cover[0], cover[0]], &[u32::MAX], &[u32::MAX; 5_000]] {
                assert_eq!(division().check_delivery(scale, window, delivery), refuse(number), "{scale} {window:?}");
            }
        }
        // On the border, and with as many sheets as may be.
        assert_eq!(division().check_delivery(9, good, &cover), Ok(4_096));
        for (scale, sheets) in [(1, 24), (2, 150), (3, 600), (4, 2_400)] {
            let delivery = division().cover(scale, area, MOST).expect("a cover");
            assert_eq!(division().check_delivery(scale, area, &delivery), Ok(sheets));
            assert_eq!(division().check_delivery(scale, area, &delivery[1..]), refuse_at(27, delivery[0] as u64));
        }
    }
}
