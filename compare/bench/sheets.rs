//! The definition in plain Rust, for its time alone: labels, points, also in metres, names, local numbers, shelf lists of both kinds and
//! deliveries.
//!
//! Written as a careful Rust programmer would write it who wants the time: one table, labels field by field in one pass over the bytes, each
//! scale with an arm of its own whose numbers the compiler knows, a list's number written out, no allocation, and a second pass, on a cold
//! path, only for the place at which a label is at fault, and for names of which not all bytes are the same. A municipality is not sorted:
//! what its list's order tells already is used, and the rest is counted. Of a delivery each sheet is marked at its place in the cover, which
//! its row and column tell. A refusal is its number, with that place beside it, the room needed where lent room can be too short, or the sheet
//! that is missing. Each program here uses a part of it.
#![allow(dead_code)]

use std::ops::Range;

pub const LAST_SHEET: u32 = 7_953_173;
pub const LAST_HOLDING: u32 = 23_859_521;
/// What the first number of a new list has beside the count.
const NEW_LIST: u32 = 8_192;
pub const MOST_SHEETS: usize = 4_096;
pub const MOST_OF_MUNICIPALITY: usize = 400;
pub const LONGEST_LABEL: usize = 16;
const WEST: u32 = 200_000;
const EAST: u32 = 800_000;
const SOUTH: u32 = 4_570_000;
const NORTH: u32 = 5_170_000;

pub struct Made {
    /// Place of the scale above and into how many rows of how many columns its sheet is cut.
    pub above: usize,
    pub side: u32,
}

pub struct Scale {
    pub mark: u32,
    pub first: u32,
    pub width: u32,
    pub height: u32,
    pub rows: u32,
    pub columns: u32,
    pub made: Option<Made>,
}

const fn from_area(mark: u32, first: u32, width: u32, height: u32, rows: u32, columns: u32) -> Scale {
    Scale { mark, first, width, height, rows, columns, made: None }
}

const fn from_parent(mark: u32, first: u32, width: u32, height: u32, above: usize, side: u32) -> Scale {
    Scale { mark, first, width, height, rows: 0, columns: 0, made: Some(Made { above, side }) }
}

pub static SCALES: [Scale; 9] = [
    from_area(250, 0, 150_000, 100_000, 6, 4),
    from_area(100, 24, 60_000, 40_000, 15, 10),
    from_area(50, 174, 30_000, 20_000, 30, 20),
    from_parent(25, 774, 15_000, 10_000, 2, 2),
    from_parent(10, 3_174, 6_000, 4_000, 2, 5),
    from_parent(5, 18_174, 3_000, 2_000, 3, 5),
    from_parent(2, 78_174, 1_200, 800, 2, 25),
    from_parent(1, 453_174, 600, 400, 6, 2),
    from_parent(5, 1_953_174, 300, 200, 7, 2),
];

// ---- labels

pub struct Sheet {
    pub scale: usize,
    pub number: u32,
    pub west: u32,
    pub north: u32,
}

/// The numbers of a label's fields. 16 bytes hold at most eight.
type Fields = [u64; 8];

/// Place among the scale's sheets, and how far east and south of the area's corner; or the first field out of range.
struct Ground {
    place: u32,
    east: u32,
    south: u32,
}

/// By row and column, where a scale is made from the area, and by the number in the sheet above, where it is made from another. Which scale it
/// is is known when this is compiled.
#[inline(always)]
fn by_area<const SCALE: usize>(fields: &Fields, at: usize) -> Result<Ground, usize> {
    let s = &SCALES[SCALE];
    let (row, column) = (fields[at].wrapping_sub(101), fields[at + 1].wrapping_sub(1));
    if row >= s.rows as u64 {
        return Err(at);
    }
    if column >= s.columns as u64 {
        return Err(at + 1);
    }
    let (row, column) = (row as u32, column as u32);
    Ok(Ground { place: row * s.columns + column, east: column * s.width, south: row * s.height })
}

#[inline(always)]
fn by_part<const SCALE: usize, const SIDE: u32>(
    fields: &Fields,
    at: usize,
    above: impl Fn(&Fields, usize) -> Result<Ground, usize>,
) -> Result<Ground, usize> {
    let s = &SCALES[SCALE];
    let part = fields[at].wrapping_sub(1);
    if part >= (SIDE * SIDE) as u64 {
        return Err(at);
    }
    let part = part as u32;
    let Ground { place, east, south } = above(fields, at + 1)?;
    Ok(Ground { place: place * SIDE * SIDE + part, east: east + part % SIDE * s.width, south: south + part / SIDE * s.height })
}

/// What is wrong with a label that is empty, too long, or has a byte, an empty field or a leading zero that it must not have, and where.
#[cold]
fn badly_formed(label: &[u8]) -> (u32, usize) {
    if label.is_empty() || label.len() > LONGEST_LABEL {
        return (4, label.len().min(LONGEST_LABEL));
    }
    if let Some(place) = label.iter().position(|&b| b != b'-' && !b.is_ascii_digit()) {
        return (19, place);
    }
    // An empty field is closed where it starts, and a leading zero stands there.
    let mut start = 0;
    for field in label.split(|&b| b == b'-') {
        if field.is_empty() || (field.len() > 1 && field[0] == b'0') {
            break;
        }
        start += field.len() + 1;
    }
    (20, start)
}

/// Where a field starts.
#[cold]
fn start_of(label: &[u8], field: usize) -> usize {
    label.split(|&b| b == b'-').take(field).map(|before| before.len() + 1).sum()
}

/// The numbers of a label's fields, and how many there are; none if it is badly formed. Field by field: a first digit, those behind it, a hyphen.
#[inline(always)]
fn fields_in(label: &[u8]) -> Option<(Fields, usize)> {
    if label.len() > LONGEST_LABEL {
        return None;
    }
    let mut fields = [0; 8];
    let (mut count, mut at) = (0, 0);
    loop {
        let first = label.get(at)?.wrapping_sub(b'0');
        if first > 9 || count == 8 {
            return None;
        }
        let mut value = first as u64;
        at += 1;
        while at < label.len() {
            let digit = label[at].wrapping_sub(b'0');
            if digit > 9 {
                break;
            }
            if first == 0 {
                return None;
            }
            value = value * 10 + digit as u64;
            at += 1;
        }
        fields[count] = value;
        count += 1;
        if at == label.len() {
            return Some((fields, count));
        }
        if label[at] != b'-' {
            return None;
        }
        at += 1;
    }
}

/// The sheet of a label, with its west and north; or the refusal and its place in the label.
#[inline(always)]
pub fn read_label(label: &[u8]) -> Result<Sheet, (u32, usize)> {
    let Some((fields, count)) = fields_in(label) else { return Err(badly_formed(label)) };
    let of_50_000 = by_area::<2>;
    let of_25_000 = |fields: &Fields, at| by_part::<3, 2>(fields, at, of_50_000);
    let of_2_000 = |fields: &Fields, at| by_part::<6, 25>(fields, at, of_50_000);
    let of_1_000 = |fields: &Fields, at| by_part::<7, 2>(fields, at, of_2_000);
    let (scale, ground) = match (fields[0], count) {
        (250, 3) => (0, by_area::<0>(&fields, 1)),
        (100, 3) => (1, by_area::<1>(&fields, 1)),
        (50, 3) => (2, of_50_000(&fields, 1)),
        (25, 4) => (3, of_25_000(&fields, 1)),
        (10, 4) => (4, by_part::<4, 5>(&fields, 1, of_50_000)),
        (5, 5) => (5, by_part::<5, 5>(&fields, 1, of_25_000)),
        (2, 4) => (6, of_2_000(&fields, 1)),
        (1, 5) => (7, of_1_000(&fields, 1)),
        (5, 6) => (8, by_part::<8, 2>(&fields, 1, of_1_000)),
        _ => return Err((21, 0)),
    };
    let ground = ground.map_err(|field| (5, start_of(label, field)))?;
    Ok(Sheet { scale, number: SCALES[scale].first + ground.place, west: WEST + ground.east, north: NORTH - ground.south })
}

/// A number of at most three digits. All three are put, and a zero in front is put over by the digit behind it.
#[inline(always)]
fn put_field(n: u32, text: &mut [u8; LONGEST_LABEL + 2], at: usize) -> usize {
    let tens = at + (n >= 100) as usize;
    let ones = tens + (n >= 10) as usize;
    text[at] = b'0' + (n / 100) as u8;
    text[tens] = b'0' + (n / 10 % 10) as u8;
    text[ones] = b'0' + (n % 10) as u8;
    ones + 1
}

#[inline(always)]
fn put_part(n: u32, text: &mut [u8; LONGEST_LABEL + 2], at: usize) -> usize {
    text[at] = b'-';
    put_field(n, text, at + 1)
}

/// The fields of a label behind its first number, as many parts as there are sides; which scale it is is known when this is compiled.
#[inline(always)]
fn put_fields<const SCALE: usize, const PARTS: usize>(sheet: u32, sides: [u32; PARTS], columns: u32, text: &mut [u8; LONGEST_LABEL + 2]) -> usize {
    let mut place = sheet - SCALES[SCALE].first;
    let mut at = put_field(SCALES[SCALE].mark, text, 0);
    for side in sides {
        at = put_part(place % (side * side) + 1, text, at);
        place /= side * side;
    }
    at = put_part(101 + place / columns, text, at);
    put_part(1 + place % columns, text, at)
}

pub fn write_label(sheet: u32, room: &mut [u8]) -> Result<usize, (u32, usize)> {
    if sheet > LAST_SHEET {
        return Err((3, 0));
    }
    // As many scales begin at or before the sheet, which takes no guess.
    let scale: usize = SCALES[1..].iter().map(|s| (s.first <= sheet) as usize).sum();
    let text = &mut [0; LONGEST_LABEL + 2];
    let length = match scale {
        0 => put_fields::<0, 0>(sheet, [], 4, text),
        1 => put_fields::<1, 0>(sheet, [], 10, text),
        2 => put_fields::<2, 0>(sheet, [], 20, text),
        3 => put_fields::<3, 1>(sheet, [2], 20, text),
        4 => put_fields::<4, 1>(sheet, [5], 20, text),
        5 => put_fields::<5, 2>(sheet, [5, 2], 20, text),
        6 => put_fields::<6, 1>(sheet, [25], 20, text),
        7 => put_fields::<7, 2>(sheet, [2, 25], 20, text),
        _ => put_fields::<8, 3>(sheet, [2, 2, 25], 20, text),
    };
    if room.len() < length {
        return Err((10, length));
    }
    room[..length].copy_from_slice(&text[..length]);
    Ok(length)
}

// ---- points

/// Place among the scale's sheets, by row and column, as many parts as there are sides; which scale it is is known when this is compiled.
#[inline(always)]
fn place_on<const SCALE: usize, const PARTS: usize>(east: u32, south: u32, sides: [u32; PARTS], columns: u32) -> u32 {
    let s = &SCALES[SCALE];
    let (mut row, mut column) = (south / (s.height * 1_000), east / (s.width * 1_000));
    let (mut number, mut weight) = (s.first, 1);
    for side in sides {
        number += weight * (row % side * side + column % side);
        weight *= side * side;
        row /= side;
        column /= side;
    }
    number + weight * (row * columns + column)
}

pub fn sheet_at(scale: u32, e: i64, n: i64) -> Result<u32, u32> {
    if !(1..=9).contains(&scale) {
        return Err(2);
    }
    let east = e.wrapping_sub(WEST as i64 * 1_000) as u64;
    let south = (NORTH as i64 * 1_000).wrapping_sub(n) as u64;
    if east >= (EAST - WEST) as u64 * 1_000 || south >= (NORTH - SOUTH) as u64 * 1_000 {
        return Err(1);
    }
    let (east, south) = (east as u32, south as u32);
    Ok(match scale {
        1 => place_on::<0, 0>(east, south, [], 4),
        2 => place_on::<1, 0>(east, south, [], 10),
        3 => place_on::<2, 0>(east, south, [], 20),
        4 => place_on::<3, 1>(east, south, [2], 20),
        5 => place_on::<4, 1>(east, south, [5], 20),
        6 => place_on::<5, 2>(east, south, [5, 2], 20),
        7 => place_on::<6, 1>(east, south, [25], 20),
        8 => place_on::<7, 2>(east, south, [2, 25], 20),
        _ => place_on::<8, 3>(east, south, [2, 2, 25], 20),
    })
}

const FRACTION: u64 = (1 << 52) - 1;
const NO_NUMBER: u64 = 2_047;
/// The exponent with which the fraction and the one before it are the number itself.
const WHOLE: u64 = 1_075;

/// A float that is neither infinite nor no number, in thousandths, from its bits: rounded down, or where `UP` is wanted up. None beyond 64
/// bits.
fn thousandths<const UP: bool>(bits: u64) -> Option<i64> {
    let exponent = bits >> 52 & NO_NUMBER;
    let minus = bits >> 63 != 0;
    // 53 bits at most, so the product has no more than 63.
    let product = (if exponent == 0 { bits & FRACTION } else { bits & FRACTION | 1 << 52 }) * 1_000;
    let size = if exponent >= WHOLE {
        let shift = (exponent - WHOLE) as u32;
        // The product is above 2^61, so two places further up it never fits.
        if shift > 1 || product > i64::MAX as u64 >> shift {
            return None;
        }
        product << shift
    } else {
        let shift = (WHOLE - exponent.max(1)) as u32;
        let (size, rest) = if shift < 64 { (product >> shift, product & ((1 << shift) - 1)) } else { (0, product) };
        size + (rest != 0 && UP != minus) as u64
    };
    Some(if minus { -(size as i64) } else { size as i64 })
}

pub fn sheet_at_metres(scale: u32, e: f64, n: f64) -> Result<u32, u32> {
    if !(1..=9).contains(&scale) {
        return Err(2);
    }
    let (e, n) = (e.to_bits(), n.to_bits());
    if e >> 52 & NO_NUMBER == NO_NUMBER || n >> 52 & NO_NUMBER == NO_NUMBER {
        return Err(18);
    }
    match (thousandths::<false>(e), thousandths::<true>(n)) {
        (Some(e), Some(n)) => sheet_at(scale, e, n),
        _ => Err(1),
    }
}

// ---- names

/// The single letter that a letter is joined into with the mark of CC and this byte.
fn single(letter: u8, mark: u8) -> Option<[u8; 2]> {
    Some(match (letter, mark) {
        (b'c', 0x8C) => [0xC4, 0x8D],
        (b's', 0x8C) => [0xC5, 0xA1],
        (b'z', 0x8C) => [0xC5, 0xBE],
        (b'C', 0x8C) => [0xC4, 0x8C],
        (b'S', 0x8C) => [0xC5, 0xA0],
        (b'Z', 0x8C) => [0xC5, 0xBD],
        (b'c', 0x81) => [0xC4, 0x87],
        (b'C', 0x81) => [0xC4, 0x86],
        _ => return None,
    })
}

/// Of bytes that agree it does not matter what they are part of: only where two differ, one name must have a letter with its mark there,
/// and the other the single letter. Most names are spelt alike, and are found so first.
pub fn same_name(mut a: &[u8], mut b: &[u8]) -> bool {
    if a == b {
        return true;
    }
    loop {
        let alike = a.iter().zip(b).take_while(|(x, y)| x == y).count();
        (a, b) = match (&a[alike..], &b[alike..]) {
            ([], []) => return true,
            ([letter, 0xCC, mark, a @ ..], [x, y, b @ ..]) if single(*letter, *mark) == Some([*x, *y]) => (a, b),
            ([x, y, a @ ..], [letter, 0xCC, mark, b @ ..]) if single(*letter, *mark) == Some([*x, *y]) => (a, b),
            _ => return false,
        };
    }
}

// ---- local numbers

/// The first sheets of 1:2 000, 1:1 000 and 1:500, each scale ending where the next begins.
const FROM_2_000: u32 = 78_174;
const FROM_1_000: u32 = 453_174;
const FROM_500: u32 = 1_953_174;
/// The 1:2 000 sheets of a 1:50 000 sheet, those of a row in it, its rows, and the sheets of a row of twenty 1:50 000 sheets.
const OF_50_000: u32 = 625;
const OF_ROW: u32 = 25;
const ROWS: usize = 25;
const OF_BAND: u32 = 20 * OF_50_000;

/// What is wrong with a municipality that has 1 to 400 numbers and is not as it must be.
#[cold]
fn fault_of(municipality: &[u32]) -> u32 {
    let mut least = 0;
    for &sheet in municipality {
        if sheet > LAST_SHEET {
            return 3;
        }
        if !(FROM_2_000..FROM_1_000).contains(&sheet) {
            return 23;
        }
        if sheet < least {
            break;
        }
        least = sheet + 1;
    }
    15
}

/// Where the numbers rise, the first and the last tell the scale of all. The comparisons go on to the end, many at a time.
fn check(municipality: &[u32]) -> Result<(), u32> {
    if municipality.is_empty() || municipality.len() > MOST_OF_MUNICIPALITY {
        return Err(23);
    }
    let (first, last) = (municipality[0], municipality[municipality.len() - 1]);
    let rising = municipality.windows(2).fold(true, |rising, two| rising & (two[0] < two[1]));
    if !rising || first < FROM_2_000 || last >= FROM_1_000 {
        return Err(fault_of(municipality));
    }
    Ok(())
}

/// The row of a 1:2 000 sheet in its 1:50 000 sheet.
fn row_of(sheet: u32) -> u32 {
    (sheet - FROM_2_000) % OF_50_000 / OF_ROW
}

/// The places of the sheets that lie in the same row of 1:50 000 sheets. By rows, too, just as many come before them, and in each of their
/// rows the sheets rise.
fn band_of(municipality: &[u32], sheet: u32) -> Range<usize> {
    let from = sheet - (sheet - FROM_2_000) % OF_BAND;
    let start = municipality.partition_point(|&other| other < from);
    start..start + municipality[start..].partition_point(|&other| other < from + OF_BAND)
}

pub fn local_to_sheet(municipality: &[u32], n: u32, a: u32, b: u32) -> Result<u32, u32> {
    check(municipality)?;
    let place = n.wrapping_sub(1) as usize;
    if place >= municipality.len() || a > 4 || b > 4 || (a == 0 && b > 0) {
        return Err(6);
    }
    let band = band_of(municipality, municipality[place]);
    let mut left = place - band.start;
    let band = &municipality[band];
    let mut counts = [0; ROWS];
    for &sheet in band {
        counts[row_of(sheet) as usize] += 1;
    }
    let mut row = 0;
    while left >= counts[row] {
        left -= counts[row];
        row += 1;
    }
    let sheet = *band.iter().filter(|&&sheet| row_of(sheet) == row as u32).nth(left).unwrap();
    let index = sheet - FROM_2_000;
    Ok(match (a, b) {
        (0, _) => sheet,
        (_, 0) => FROM_1_000 + 4 * index + a - 1,
        _ => FROM_500 + 16 * index + 4 * (a - 1) + b - 1,
    })
}

/// The three numbers, absent ones 0.
pub fn sheet_to_local(municipality: &[u32], sheet: u32) -> Result<[u32; 3], u32> {
    check(municipality)?;
    if sheet > LAST_SHEET {
        return Err(3);
    }
    let (whole, a, b) = if sheet >= FROM_500 {
        let index = sheet - FROM_500;
        (FROM_2_000 + index / 16, index / 4 % 4 + 1, index % 4 + 1)
    } else if sheet >= FROM_1_000 {
        let index = sheet - FROM_1_000;
        (FROM_2_000 + index / 4, index % 4 + 1, 0)
    } else {
        (sheet, 0, 0)
    };
    if municipality.binary_search(&whole).is_err() {
        return Err(6);
    }
    let band = band_of(municipality, whole);
    let row = row_of(whole);
    let start = band.start as u32;
    // Those of the rows above, and those of its own row that have a lower number.
    let before: u32 = municipality[band].iter().map(|&other| (row_of(other) < row + (other < whole) as u32) as u32).sum();
    Ok([start + before + 1, a, b])
}

// ---- shelf lists

fn groups(n: u32) -> usize {
    ((38 - (n | 1).leading_zeros()) / 7) as usize
}

fn put_groups(mut n: u32, room: &mut [u8], mut at: usize) -> usize {
    while n >= 128 {
        room[at] = n as u8 | 128;
        n >>= 7;
        at += 1;
    }
    room[at] = n as u8;
    at + 1
}

/// A number that is at most the last one; or the refusal.
#[inline(always)]
fn up_to(last: u32, number: u32, why: u32) -> Result<u32, u32> {
    if number > last { Err(why) } else { Ok(number) }
}

/// The first sheet of 1:5 000. From there up to 1:1 000 there are two products, and elsewhere one.
const FROM_5_000: u32 = 18_174;

/// A holding; or 24 where it has a second product that the scale does not have.
#[inline(always)]
fn had(holding: u32) -> Result<u32, u32> {
    if holding % 3 == 2 && !(3 * FROM_5_000..3 * FROM_1_000).contains(&holding) { Err(24) } else { Ok(holding) }
}

/// The length; or the refusal, and the room needed.
pub type Written = Result<usize, (u32, usize)>;

/// The list that begins with the count and so much more, of numbers that pass.
#[inline(always)]
fn write_numbers(numbers: &[u32], more: u32, room: &mut [u8], pass: impl Fn(u32) -> Result<u32, u32>) -> Written {
    if numbers.len() > MOST_SHEETS {
        return Err((9, 0));
    }
    let first = more + numbers.len() as u32;
    let mut long = groups(first);
    let mut least = 0;
    for &number in numbers {
        pass(number).map_err(|why| (why, 0))?;
        if number < least {
            return Err((15, 0));
        }
        long += groups(number - least);
        least = number + 1;
    }
    if room.len() < long {
        return Err((10, long));
    }
    let room = &mut room[..long];
    let mut at = put_groups(first, room, 0);
    least = 0;
    for &number in numbers {
        at = put_groups(number - least, room, at);
        least = number + 1;
    }
    Ok(long)
}

pub fn write_list(sheets: &[u32], room: &mut [u8]) -> Written {
    write_numbers(sheets, 0, room, |sheet| up_to(LAST_SHEET, sheet, 3))
}

pub fn write_holdings(holdings: &[u32], room: &mut [u8]) -> Written {
    write_numbers(holdings, NEW_LIST, room, |holding| up_to(LAST_HOLDING, holding, 3).and_then(had))
}

/// The number at a place, and the place behind it: in one group, two, three or four.
#[inline(always)]
fn next_number(list: &[u8], at: usize) -> Result<(u32, usize), u32> {
    let byte = |at: usize| list.get(at).map(|&b| b as u32).ok_or(11u32);
    let last = |group: u32, value: u32, end: usize| if group == 0 { Err(12) } else { Ok((value, end)) };
    let a = byte(at)?;
    if a < 128 {
        return Ok((a, at + 1));
    }
    let (b, a) = (byte(at + 1)?, a - 128);
    if b < 128 {
        return last(b, b << 7 | a, at + 2);
    }
    let (c, a) = (byte(at + 2)?, (b - 128) << 7 | a);
    if c < 128 {
        return last(c, c << 14 | a, at + 3);
    }
    let (d, a) = (byte(at + 3)?, (c - 128) << 14 | a);
    if d < 128 { last(d, d << 21 | a, at + 4) } else { Err(12) }
}

/// The refusal and the room needed, or none; and how many were placed.
pub type Read = (Result<(), (u32, usize)>, usize);

/// The entries from a place on, each number placed as it passes.
#[inline(always)]
fn read_numbers(list: &[u8], mut at: usize, count: usize, room: &mut [u32], pass: impl Fn(u32) -> Result<u32, u32>) -> Read {
    if room.len() < count {
        return (Err((10, count)), 0);
    }
    let mut least = 0;
    for (placed, place) in room[..count].iter_mut().enumerate() {
        let number = match next_number(list, at) {
            Ok((gap, end)) => {
                at = end;
                least + gap
            }
            Err(why) => return (Err((why, 0)), placed),
        };
        match pass(number) {
            Ok(own) => *place = own,
            Err(why) => return (Err((why, 0)), placed),
        }
        least = number + 1;
    }
    if at < list.len() {
        return (Err((14, 0)), count);
    }
    (Ok(()), count)
}

pub fn read_list(list: &[u8], room: &mut [u32]) -> Read {
    match next_number(list, 0) {
        Ok((count, _)) if count > MOST_SHEETS as u32 => (Err((12, 0)), 0),
        Ok((count, at)) => read_numbers(list, at, count as usize, room, |sheet| up_to(LAST_SHEET, sheet, 13)),
        Err(why) => (Err((why, 0)), 0),
    }
}

/// Lists of both kinds.
pub fn read_holdings(list: &[u8], room: &mut [u32]) -> Read {
    const MOST: u32 = MOST_SHEETS as u32;
    const MOST_NEW: u32 = NEW_LIST + MOST;
    match next_number(list, 0) {
        Ok((first @ 0..=MOST, at)) => {
            read_numbers(list, at, first as usize, room, |sheet| up_to(LAST_SHEET, sheet, 13).map(|sheet| 3 * sheet))
        }
        Ok((first @ NEW_LIST..=MOST_NEW, at)) => {
            let count = (first - NEW_LIST) as usize;
            read_numbers(list, at, count, room, |holding| up_to(LAST_HOLDING, holding, 13).and_then(had))
        }
        Ok(_) => (Err((12, 0)), 0),
        Err(why) => (Err((why, 0)), 0),
    }
}

// ---- deliveries

/// In millimetres.
#[derive(Clone, Copy, Debug)]
pub struct Window {
    pub west: i64,
    pub east: i64,
    pub south: i64,
    pub north: i64,
}

/// A scale's sheets, by the first number and the count, and of them the block of rows and columns that is the cover.
struct Cover {
    first: u32,
    sheets: u32,
    row: u32,
    column: u32,
    rows: u32,
    columns: u32,
}

/// Row and column of a sheet on the whole grid, by its place among the sheets of its scale: where they are made from the area, and where each
/// sheet of the scale above is cut into `SIDE` rows of as many.
#[inline(always)]
fn of_area<const COLUMNS: u32>(place: u32) -> (u32, u32) {
    (place / COLUMNS, place % COLUMNS)
}

#[inline(always)]
fn of_parent<const SIDE: u32>(place: u32, above: impl Fn(u32) -> (u32, u32)) -> (u32, u32) {
    let part = place % (SIDE * SIDE);
    let (row, column) = above(place / (SIDE * SIDE));
    (row * SIDE + part / SIDE, column * SIDE + part % SIDE)
}

/// Marks each sheet at its place in the cover; or 25 or 26 at the first bad place.
#[inline(always)]
fn mark(cover: &Cover, delivery: &[u32], marks: &mut [bool], on: impl Fn(u32) -> (u32, u32)) -> Result<(), (u32, usize)> {
    for (at, &sheet) in delivery.iter().enumerate() {
        let place = sheet.wrapping_sub(cover.first);
        if place >= cover.sheets {
            return Err((25, at));
        }
        let (row, column) = on(place);
        let (row, column) = (row.wrapping_sub(cover.row), column.wrapping_sub(cover.column));
        if row >= cover.rows || column >= cover.columns {
            return Err((25, at));
        }
        let mark = &mut marks[(row * cover.columns + column) as usize];
        if *mark {
            return Err((26, at));
        }
        *mark = true;
    }
    Ok(())
}

/// The count of the cover; or the refusal, and the place, or the sheet that is missing.
pub fn check_delivery(scale: u32, window: &Window, delivery: &[u32]) -> Result<usize, (u32, usize)> {
    const WEST_END: i64 = WEST as i64 * 1_000;
    const NORTH_END: i64 = NORTH as i64 * 1_000;
    const FEW: usize = 64;
    let Some(s) = SCALES.get((scale as usize).wrapping_sub(1)) else { return Err((2, 0)) };
    let &Window { west, east, south, north } = window;
    if east <= west || north <= south {
        return Err((7, 0));
    }
    if west < WEST_END || east > EAST as i64 * 1_000 || south < SOUTH as i64 * 1_000 || north > NORTH_END {
        return Err((8, 0));
    }
    // Within the area all differences fit 32 bits.
    let (width, height) = (s.width * 1_000, s.height * 1_000);
    let (row, column) = ((NORTH_END - north) as u32 / height, (west - WEST_END) as u32 / width);
    let rows = (NORTH_END - south - 1) as u32 / height - row + 1;
    let columns = (east - WEST_END - 1) as u32 / width - column + 1;
    let count = (rows * columns) as usize;
    if count > MOST_SHEETS {
        return Err((9, 0));
    }
    let end = SCALES.get(scale as usize).map_or(LAST_SHEET + 1, |next| next.first);
    let cover = Cover { first: s.first, sheets: end - s.first, row, column, rows, columns };
    // Most covers are small, and few marks are sooner cleared than all.
    let (mut few, mut all);
    let marks = if count <= FEW {
        few = [false; FEW];
        &mut few[..]
    } else {
        all = [false; MOST_SHEETS];
        &mut all[..]
    };
    let of_50_000 = of_area::<20>;
    let of_25_000 = |place| of_parent::<2>(place, of_50_000);
    let of_2_000 = |place| of_parent::<25>(place, of_50_000);
    let of_1_000 = |place| of_parent::<2>(place, of_2_000);
    match scale {
        1 => mark(&cover, delivery, marks, of_area::<4>),
        2 => mark(&cover, delivery, marks, of_area::<10>),
        3 => mark(&cover, delivery, marks, of_50_000),
        4 => mark(&cover, delivery, marks, of_25_000),
        5 => mark(&cover, delivery, marks, |place| of_parent::<5>(place, of_50_000)),
        6 => mark(&cover, delivery, marks, |place| of_parent::<5>(place, of_25_000)),
        7 => mark(&cover, delivery, marks, of_2_000),
        8 => mark(&cover, delivery, marks, of_1_000),
        _ => mark(&cover, delivery, marks, |place| of_parent::<2>(place, of_1_000)),
    }?;
    // All were of the cover and none twice, so that just as many are all of it.
    if delivery.len() == count {
        return Ok(count);
    }
    let missing = marks.iter().position(|&mark| !mark).unwrap() as u32;
    let (row, column) = (row + missing / columns, column + missing % columns);
    let sheet = sheet_at(scale, WEST_END + (column * width) as i64, NORTH_END - (row * height) as i64);
    Err((27, sheet.unwrap() as usize))
}
