//! The library's operations beside the same ones in Rust: each asked the same questions in turn, the least time of so many runs.
//!
//! Every question is first put to both, and the answers must agree. Both are called, neither is set into the loop that asks. A line of
//! output has the operation, our nanoseconds for a question and Rust's, with tabs between.
//! Questions come from one seed, so every run asks the same, and the first labels of a catalogue from that. Arguments: the number of runs and
//! the catalogue; then, to count instructions, the beginning of an operation's name and `ours` or `rust`, which alone is run then.
use std::hint::black_box;
use std::time::Instant;

#[path = "../numbers.rs"]
mod numbers;
mod sheets;
use numbers::Numbers;
use sheets::{Window, LAST_HOLDING, LAST_SHEET, LONGEST_LABEL, MOST_OF_MUNICIPALITY, MOST_SHEETS, SCALES};

const SEED: u64 = 1;
const LABELS: usize = 65_536;
const POINTS: usize = 65_536;
const NAMES: usize = 65_536;
const LARGE_SETS: usize = 16;
const SMALL_SETS: usize = 4_096;
const LARGE_MUNICIPALITIES: usize = 16;
const SMALL_MUNICIPALITIES: usize = 1_024;
const LOCAL: usize = 2_048;
const LARGE_DELIVERIES: usize = 16;
const SMALL_DELIVERIES: usize = 4_096;
/// The bytes of the longest list: two for its count, and four for each sheet.
const LONGEST_LIST: usize = 2 + 4 * MOST_SHEETS;

extern "C" {
    fn qubathimi_read_label(label: *const u8, length: usize, value: &mut u64) -> u32;
    fn qubathimi_write_label(sheet: u32, room: *mut u8, length: usize, value: &mut u64) -> u32;
    fn qubathimi_sheet_at(scale: u32, e: i64, n: i64, value: &mut u64) -> u32;
    fn qubathimi_sheet_at_metres(scale: u32, e: f64, n: f64, value: &mut u64) -> u32;
    fn qubathimi_same_name(a: *const u8, a_length: usize, b: *const u8, b_length: usize) -> bool;
    fn qubathimi_write_list(sheets: *const u32, count: usize, room: *mut u8, length: usize, value: &mut u64) -> u32;
    fn qubathimi_read_list(list: *const u8, length: usize, room: *mut u32, room_length: usize, placed: &mut u64, value: &mut u64) -> u32;
    fn qubathimi_write_holdings(holdings: *const u32, count: usize, room: *mut u8, length: usize, value: &mut u64) -> u32;
    fn qubathimi_read_holdings(list: *const u8, length: usize, room: *mut u32, places: usize, placed: &mut u64, value: &mut u64) -> u32;
    fn qubathimi_local_to_sheet(municipality: *const u32, count: usize, n: u32, a: u32, b: u32, value: &mut u64) -> u32;
    fn qubathimi_sheet_to_local(municipality: *const u32, count: usize, sheet: u32, n: &mut u32, a: &mut u32, b: &mut u32) -> u32;
    fn qubathimi_check_delivery(
        scale: u32,
        west: i64,
        east: i64,
        south: i64,
        north: i64,
        sheets: *const u32,
        count: usize,
        value: &mut u64,
    ) -> u32;
}

// ---- the questions

/// A sheet of any of the nine scales, each as likely as the others.
fn any_sheet(numbers: &mut Numbers) -> u32 {
    let scale = numbers.draw(0, 8) as usize;
    let end = SCALES.get(scale + 1).map_or(LAST_SHEET + 1, |next| next.first);
    numbers.draw(SCALES[scale].first as u64, end as u64 - 1) as u32
}

/// A label with a slip in it; it may be a good one still.
fn worse(mut label: Vec<u8>, numbers: &mut Numbers) -> Vec<u8> {
    let at = numbers.draw(0, label.len() as u64 - 1) as usize;
    match numbers.draw(0, 4) {
        0 => drop(label.remove(at)),
        1 => label.insert(at, label[at]),
        2 => label[at] = numbers.draw(32, 126) as u8,
        3 => label.insert(at, b'0'),
        _ => label.push(b'-'),
    }
    label
}

/// Nine in ten are good.
fn labels(numbers: &mut Numbers) -> Vec<Vec<u8>> {
    let any_label = |_| {
        let mut room = [0; LONGEST_LABEL];
        let length = sheets::write_label(any_sheet(numbers), &mut room).unwrap();
        let label = room[..length].to_vec();
        if numbers.draw(0, 9) == 0 { worse(label, numbers) } else { label }
    };
    (0..LABELS).map(any_label).collect()
}

/// The first labels of a catalogue: what stands before the first space of a line.
fn labels_of(catalogue: &str) -> Vec<Vec<u8>> {
    let bytes = std::fs::read(catalogue).expect(catalogue);
    bytes.split(|&b| b == b'\n').take(LABELS).map(|line| line.split(|&b| b == b' ').next().unwrap().to_vec()).collect()
}

/// Scale, east and north of points all over the area.
fn points(numbers: &mut Numbers) -> Vec<(u32, i64, i64)> {
    let mut any_point = || {
        let scale = numbers.draw(1, 9) as u32;
        (scale, numbers.draw(200_000_000, 799_999_999) as i64, 5_170_000_000 - numbers.draw(0, 599_999_999) as i64)
    };
    (0..POINTS).map(|_| any_point()).collect()
}

/// Such points in metres, with a part of a millimetre more to the east and less to the north; one in eight has none.
fn in_metres(points: &[(u32, i64, i64)]) -> Vec<(u32, f64, f64)> {
    // Numbers of their own, so that what is drawn for other operations stays as it is.
    let numbers = &mut Numbers(SEED);
    let mut any_part = || if numbers.draw(0, 7) == 0 { 0.0 } else { numbers.draw(0, 999_999) as f64 / 1e6 };
    points.iter().map(|&(scale, e, n)| (scale, (e as f64 + any_part()) / 1000.0, (n as f64 - any_part()) / 1000.0)).collect()
}

/// What a name begins with, and what follows: some about as often as in the catalogues, and those that have two spellings more often.
const CAPITALS: &str = "ABDGIJKLMNOPRTUVČŠŽĆ";
const LETTERS: &str = "aaaaaaiiiioooeeeerrnnvvljjkkuttcsdgbpm čšžć";
/// The latter, with the longer spelling.
const SPELLINGS: [(char, &str); 8] = [
    ('č', "c\u{30C}"),
    ('š', "s\u{30C}"),
    ('ž', "z\u{30C}"),
    ('ć', "c\u{301}"),
    ('Č', "C\u{30C}"),
    ('Š', "S\u{30C}"),
    ('Ž', "Z\u{30C}"),
    ('Ć', "C\u{301}"),
];

fn any_of(letters: &str, numbers: &mut Numbers) -> char {
    letters.chars().nth(numbers.draw(0, letters.chars().count() as u64 - 1) as usize).unwrap()
}

/// Pairs of names, of 5 to 30 bytes in the shorter spelling: one pair in ten differs in a letter, and one name in three is in the longer.
fn names() -> Vec<(String, String)> {
    // Numbers of their own, as for points in metres.
    let numbers = &mut Numbers(SEED);
    let any_pair = |_| {
        let length = numbers.draw(5, 29) as usize;
        let mut name = any_of(CAPITALS, numbers).to_string();
        while name.len() < length {
            name.push(any_of(LETTERS, numbers));
        }
        let mut other: Vec<char> = name.chars().collect();
        if numbers.draw(0, 9) == 0 {
            let at = numbers.draw(0, other.len() as u64 - 1) as usize;
            other[at] = 'x'; // no name has one
        }
        let mut spelt = |name: String| {
            let longer = |name: String, &(single, marked): &(char, &str)| name.replace(single, marked);
            if numbers.draw(0, 2) == 0 { SPELLINGS.iter().fold(name, longer) } else { name }
        };
        (spelt(name), spelt(other.into_iter().collect()))
    };
    (0..NAMES).map(any_pair).collect()
}

/// As many numbers as a list may have, in three steps of size: most follow closely, some lie further on, a few far.
fn large_set(last: u32, fine: fn(u32) -> bool, numbers: &mut Numbers) -> Vec<u32> {
    let mut next = numbers.draw(0, 1_000) as u32;
    let mut set = Vec::new();
    for left in (0..MOST_SHEETS as u32).rev() {
        while !fine(next) {
            next += 1;
        }
        set.push(next);
        let gap = match numbers.draw(0, 99) {
            0..=59 => numbers.draw(0, 127),
            60..=97 => numbers.draw(128, 3_000),
            _ => numbers.draw(16_384, 40_000),
        };
        next = (next + 1 + gap as u32).min(last + 1 - left);
    }
    set
}

/// At most 16 sheets of any scale.
fn small_set(numbers: &mut Numbers) -> Vec<u32> {
    let mut set: Vec<u32> = (0..numbers.draw(0, 16)).map(|_| any_sheet(numbers)).collect();
    set.sort_unstable();
    set.dedup();
    set
}

fn is_holding(number: u32) -> bool {
    sheets::write_holdings(&[number], &mut [0; 6]).is_ok()
}

/// At most 16 holdings of any scale. In two of three the product is stated; where the scale has no second one, it is the first.
fn small_holdings(numbers: &mut Numbers) -> Vec<u32> {
    let count = numbers.draw(0, 16);
    let any_holding = |_| {
        let number = 3 * any_sheet(numbers) + numbers.draw(0, 2) as u32;
        if is_holding(number) { number } else { number - 1 }
    };
    let mut set: Vec<u32> = (0..count).map(any_holding).collect();
    set.sort_unstable();
    set.dedup();
    set
}

/// The 1:2 000 sheet in a row and a column of the whole grid.
fn sheet_on(row: u64, column: u64) -> u32 {
    sheets::sheet_at(7, 200_000_000 + 1_200_000 * column as i64, 5_170_000_000 - 800_000 * row as i64).unwrap()
}

/// A municipality of so many sheets: a rectangle across 1:50 000 sheets, of which a fifth or a little more is missing.
fn municipality(count: usize, numbers: &mut Numbers) -> Vec<u32> {
    let places = count as u64 * 5 / 4 + 1;
    let side = (places as f64).sqrt() as u64;
    let columns = numbers.draw(side.div_ceil(2), side + side / 2);
    let rows = places.div_ceil(columns);
    let north = 25 * numbers.draw(2, 28) - numbers.draw(1, rows.max(2) - 1);
    let west = 25 * numbers.draw(2, 18) - numbers.draw(1, columns.max(2) - 1);
    let all = (north..north + rows).flat_map(|row| (west..west + columns).map(move |column| sheet_on(row, column)));
    let mut sheets: Vec<u32> = all.collect();
    while sheets.len() > count {
        sheets.swap_remove(numbers.draw(0, sheets.len() as u64 - 1) as usize);
    }
    sheets.sort_unstable();
    sheets
}

/// Two numbers of parts, at each of the three scales as often: absent ones are 0.
fn any_parts(numbers: &mut Numbers) -> (u32, u32) {
    let (a, b) = (numbers.draw(1, 4) as u32, numbers.draw(1, 4) as u32);
    match numbers.draw(0, 2) {
        0 => (0, 0),
        1 => (a, 0),
        _ => (a, b),
    }
}

/// Local numbers in any of some municipalities; one in ten has no sheet.
fn local_numbers<'a>(municipalities: &'a [Vec<u32>], numbers: &mut Numbers) -> Vec<(&'a [u32], [u32; 3])> {
    let mut any_numbers = || {
        let municipality = &municipalities[numbers.draw(0, municipalities.len() as u64 - 1) as usize][..];
        let count = municipality.len() as u64;
        let (n, (a, b)) = (numbers.draw(1, count) as u32, any_parts(numbers));
        let asked = match numbers.draw(0, 39) {
            0 => [0, a, b],
            1 => [n + count as u32, a, b],
            2 => [n, 0, 1],
            3 => [n, 5, b],
            _ => [n, a, b],
        };
        (municipality, asked)
    };
    (0..LOCAL).map(|_| any_numbers()).collect()
}

/// Sheets of any of some municipalities; one in ten is outside, beside a sheet of it.
fn local_sheets<'a>(municipalities: &'a [Vec<u32>], numbers: &mut Numbers) -> Vec<(&'a [u32], u32)> {
    let mut any_local = || {
        let municipality = &municipalities[numbers.draw(0, municipalities.len() as u64 - 1) as usize][..];
        let mut whole = municipality[numbers.draw(0, municipality.len() as u64 - 1) as usize];
        if numbers.draw(0, 9) == 0 {
            while municipality.contains(&whole) {
                whole += 1;
            }
        }
        let (a, b) = any_parts(numbers);
        (municipality, sheets::local_to_sheet(&[whole], 1, a, b).unwrap())
    };
    (0..LOCAL).map(|_| any_local()).collect()
}

#[derive(Debug)]
struct Delivery {
    scale: u32,
    window: Window,
    sheets: Vec<u32>,
}

/// So many rows and columns of a scale, anywhere, delivered in any order; of the outermost ones the window has half or more.
fn delivery(scale: u64, rows: u64, columns: u64, numbers: &mut Numbers) -> Delivery {
    let scale = scale as u32;
    let s = &SCALES[scale as usize - 1];
    let [width, height] = [s.width, s.height].map(|side| side as u64 * 1_000);
    let west = 200_000_000 + numbers.draw(0, 600_000_000 / width - columns) * width;
    let north = 5_170_000_000 - numbers.draw(0, 600_000_000 / height - rows) * height;
    let mut sheets: Vec<u32> = Vec::new();
    for (row, column) in (0..rows).flat_map(|row| (0..columns).map(move |column| (row, column))) {
        sheets.push(sheets::sheet_at(scale, (west + column * width) as i64, (north - row * height) as i64).unwrap());
        sheets.swap(numbers.draw(0, row * columns + column) as usize, (row * columns + column) as usize);
    }
    let mut off = |side: u64| numbers.draw(0, side / 2 - 1);
    let window = Window {
        west: (west + off(width)) as i64,
        east: (west + columns * width - off(width)) as i64,
        south: (north - rows * height + off(height)) as i64,
        north: (north - off(height)) as i64,
    };
    Delivery { scale, window, sheets }
}

/// One sheet dropped, another one in its stead, which may be of the cover, or it comes twice.
fn put_fault(sheets: &mut Vec<u32>, numbers: &mut Numbers) {
    let at = numbers.draw(0, sheets.len() as u64 - 1) as usize;
    match numbers.draw(0, 2) {
        0 => drop(sheets.remove(at)),
        1 => sheets[at] += 1,
        _ => sheets.push(sheets[at]),
    }
}

/// So many deliveries, every tenth with a fault.
fn deliveries(count: usize, any: fn(&mut Numbers) -> Delivery, numbers: &mut Numbers) -> Vec<Delivery> {
    let mut deliveries: Vec<Delivery> = (0..count).map(|_| any(numbers)).collect();
    for faulty in deliveries.iter_mut().skip(9).step_by(10) {
        put_fault(&mut faulty.sheets, numbers);
    }
    deliveries
}

// ---- the same call of both: a status, and the value with it

#[inline(never)]
fn rust_read_label(label: &[u8]) -> (u32, u64) {
    match sheets::read_label(label) {
        Ok(sheet) => (0, sheet.number as u64),
        Err((why, place)) => (why, place as u64),
    }
}

fn our_read_label(label: &[u8]) -> (u32, u64) {
    let mut value = 0;
    let status = unsafe { qubathimi_read_label(label.as_ptr(), label.len(), &mut value) };
    (status, value)
}

fn told(answer: Result<usize, (u32, usize)>) -> (u32, u64) {
    match answer {
        Ok(value) => (0, value as u64),
        Err((why, room)) => (why, room as u64),
    }
}

#[inline(never)]
fn rust_write_label(sheet: u32, room: &mut [u8]) -> (u32, u64) {
    told(sheets::write_label(sheet, room))
}

fn our_write_label(sheet: u32, room: &mut [u8]) -> (u32, u64) {
    let mut value = 0;
    let status = unsafe { qubathimi_write_label(sheet, room.as_mut_ptr(), room.len(), &mut value) };
    (status, value)
}

#[inline(never)]
fn rust_sheet_at(&(scale, e, n): &(u32, i64, i64)) -> (u32, u64) {
    match sheets::sheet_at(scale, e, n) {
        Ok(sheet) => (0, sheet as u64),
        Err(why) => (why, 0),
    }
}

fn our_sheet_at(&(scale, e, n): &(u32, i64, i64)) -> (u32, u64) {
    let mut value = 0;
    let status = unsafe { qubathimi_sheet_at(scale, e, n, &mut value) };
    (status, value)
}

#[inline(never)]
fn rust_sheet_at_metres(&(scale, e, n): &(u32, f64, f64)) -> (u32, u64) {
    match sheets::sheet_at_metres(scale, e, n) {
        Ok(sheet) => (0, sheet as u64),
        Err(why) => (why, 0),
    }
}

fn our_sheet_at_metres(&(scale, e, n): &(u32, f64, f64)) -> (u32, u64) {
    let mut value = 0;
    let status = unsafe { qubathimi_sheet_at_metres(scale, e, n, &mut value) };
    (status, value)
}

#[inline(never)]
fn rust_same_name((a, b): &(String, String)) -> (u32, u64) {
    (sheets::same_name(a.as_bytes(), b.as_bytes()) as u32, 0)
}

fn our_same_name((a, b): &(String, String)) -> (u32, u64) {
    (unsafe { qubathimi_same_name(a.as_ptr(), a.len(), b.as_ptr(), b.len()) } as u32, 0)
}

#[inline(never)]
fn rust_write_list(set: &[u32], room: &mut [u8]) -> (u32, u64) {
    told(sheets::write_list(set, room))
}

fn our_write_list(set: &[u32], room: &mut [u8]) -> (u32, u64) {
    let mut value = 0;
    let status = unsafe { qubathimi_write_list(set.as_ptr(), set.len(), room.as_mut_ptr(), room.len(), &mut value) };
    (status, value)
}

fn told_placed((answer, placed): sheets::Read) -> (u32, u64) {
    (answer.map_or_else(|(why, _)| why, |()| 0), placed as u64)
}

#[inline(never)]
fn rust_read_list(list: &[u8], room: &mut [u32]) -> (u32, u64) {
    told_placed(sheets::read_list(list, room))
}

fn our_read_list(list: &[u8], room: &mut [u32]) -> (u32, u64) {
    let (mut placed, mut value) = (0, 0);
    let status = unsafe { qubathimi_read_list(list.as_ptr(), list.len(), room.as_mut_ptr(), room.len(), &mut placed, &mut value) };
    (status, placed)
}

#[inline(never)]
fn rust_write_holdings(set: &[u32], room: &mut [u8]) -> (u32, u64) {
    told(sheets::write_holdings(set, room))
}

fn our_write_holdings(set: &[u32], room: &mut [u8]) -> (u32, u64) {
    let mut value = 0;
    let status = unsafe { qubathimi_write_holdings(set.as_ptr(), set.len(), room.as_mut_ptr(), room.len(), &mut value) };
    (status, value)
}

#[inline(never)]
fn rust_read_holdings(list: &[u8], room: &mut [u32]) -> (u32, u64) {
    told_placed(sheets::read_holdings(list, room))
}

fn our_read_holdings(list: &[u8], room: &mut [u32]) -> (u32, u64) {
    let (mut placed, mut value) = (0, 0);
    let status = unsafe { qubathimi_read_holdings(list.as_ptr(), list.len(), room.as_mut_ptr(), room.len(), &mut placed, &mut value) };
    (status, placed)
}

#[inline(never)]
fn rust_local_to_sheet(&(municipality, [n, a, b]): &(&[u32], [u32; 3])) -> (u32, u64) {
    match sheets::local_to_sheet(municipality, n, a, b) {
        Ok(sheet) => (0, sheet as u64),
        Err(why) => (why, 0),
    }
}

fn our_local_to_sheet(&(municipality, [n, a, b]): &(&[u32], [u32; 3])) -> (u32, u64) {
    let mut value = 0;
    let status = unsafe { qubathimi_local_to_sheet(municipality.as_ptr(), municipality.len(), n, a, b, &mut value) };
    (status, value)
}

/// Local numbers as one value.
fn one_value([n, a, b]: [u32; 3]) -> u64 {
    n as u64 | (a as u64) << 32 | (b as u64) << 40
}

#[inline(never)]
fn rust_sheet_to_local(&(municipality, sheet): &(&[u32], u32)) -> (u32, u64) {
    match sheets::sheet_to_local(municipality, sheet) {
        Ok(numbers) => (0, one_value(numbers)),
        Err(why) => (why, 0),
    }
}

fn our_sheet_to_local(&(municipality, sheet): &(&[u32], u32)) -> (u32, u64) {
    let [mut n, mut a, mut b] = [0; 3];
    let status = unsafe { qubathimi_sheet_to_local(municipality.as_ptr(), municipality.len(), sheet, &mut n, &mut a, &mut b) };
    (status, one_value([n, a, b]))
}

#[inline(never)]
fn rust_check_delivery(asked: &Delivery) -> (u32, u64) {
    told(sheets::check_delivery(asked.scale, &asked.window, &asked.sheets))
}

fn our_check_delivery(Delivery { scale, window, sheets }: &Delivery) -> (u32, u64) {
    let Window { west, east, south, north } = *window;
    let mut value = 0;
    let status = unsafe { qubathimi_check_delivery(*scale, west, east, south, north, sheets.as_ptr(), sheets.len(), &mut value) };
    (status, value)
}

// ---- the race

/// Asks both every question, and stops at the first that they answer differently. Lent room is compared whole.
fn agree<Q: std::fmt::Debug, T: Copy + Default + PartialEq>(
    what: &str,
    questions: &[Q],
    length: usize,
    ours: impl Fn(&Q, &mut [T]) -> (u32, u64),
    rust: impl Fn(&Q, &mut [T]) -> (u32, u64),
) {
    let (mut our_room, mut rust_room) = (vec![T::default(); length], vec![T::default(); length]);
    for question in questions {
        let (a, b) = (ours(question, &mut our_room), rust(question, &mut rust_room));
        if a != b || our_room != rust_room {
            eprintln!("{what}: {question:?}: ours {a:?}, Rust {b:?}");
            std::process::exit(1);
        }
    }
}

fn time<Q, T>(questions: &[Q], times: usize, room: &mut [T], ask: impl Fn(&Q, &mut [T]) -> (u32, u64)) -> f64 {
    let start = Instant::now();
    for _ in 0..times {
        for question in questions {
            black_box(ask(black_box(question), room));
        }
    }
    start.elapsed().as_secs_f64() * 1e9 / (questions.len() * times) as f64
}

struct Race {
    runs: usize,
    /// The beginning of an operation's name, and the side that alone is run.
    only: Option<(String, String)>,
}

impl Race {
    /// Prints the line of an operation. A run asks all questions so many times, and takes a few milliseconds: where other work goes on
    /// beside, some run is left alone.
    fn race<Q: std::fmt::Debug, T: Copy + Default + PartialEq>(
        &self,
        what: &str,
        questions: &[Q],
        times: usize,
        length: usize,
        ours: impl Fn(&Q, &mut [T]) -> (u32, u64),
        rust: impl Fn(&Q, &mut [T]) -> (u32, u64),
    ) {
        let mut room = vec![T::default(); length];
        if let Some((name, side)) = &self.only {
            if what.starts_with(name.as_str()) {
                for _ in 0..self.runs {
                    if side == "ours" { time(questions, times, &mut room, &ours) } else { time(questions, times, &mut room, &rust) };
                }
                println!("{what}, {side}: {} questions", self.runs * times * questions.len());
            }
            return;
        }
        agree(what, questions, length, &ours, &rust);
        let (mut a, mut b) = (f64::INFINITY, f64::INFINITY);
        for _ in 0..self.runs {
            a = a.min(time(questions, times, &mut room, &ours));
            b = b.min(time(questions, times, &mut room, &rust));
        }
        println!("{what}\t{a:.2}\t{b:.2}");
    }
}

/// The lists of sets, and of every tenth set one that is cut short.
fn lists(sets: &[Vec<u32>], write: fn(&[u32], &mut [u8]) -> sheets::Written, numbers: &mut Numbers) -> Vec<Vec<u8>> {
    let mut room = vec![0; LONGEST_LIST];
    let mut list = |(i, set): (usize, &Vec<u32>)| {
        let long = write(set, &mut room).unwrap();
        let kept = if i % 10 == 9 { numbers.draw(0, long as u64) as usize } else { long };
        room[..kept].to_vec()
    };
    sets.iter().enumerate().map(&mut list).collect()
}

fn main() {
    let mut arguments = std::env::args().skip(1);
    let runs = arguments.next().expect("the number of runs").parse().expect("a number of runs");
    let catalogue = arguments.next().expect("a catalogue");
    let both = Race { runs, only: arguments.next().zip(arguments.next()) };
    let numbers = &mut Numbers(SEED);

    let labels = labels(numbers);
    both.race("label reading, scales alike", &labels, 1, 0, |q, _: &mut [u8]| our_read_label(q), |q, _| rust_read_label(q));

    let lines = labels_of(&catalogue);
    both.race("label reading, a catalogue's lines", &lines, 1, 0, |q, _: &mut [u8]| our_read_label(q), |q, _| rust_read_label(q));

    let named: Vec<u32> = (0..LABELS).map(|_| any_sheet(numbers)).collect();
    both.race("label writing", &named, 1, LONGEST_LABEL, |&q, r| our_write_label(q, r), |&q, r| rust_write_label(q, r));

    let mut points = points(numbers);
    let mut metres = in_metres(&points);
    both.race("point to sheet, scales mixed", &points, 1, 0, |q, _: &mut [u8]| our_sheet_at(q), |q, _| rust_sheet_at(q));
    points.sort_by_key(|&(scale, _, _)| scale);
    both.race("point to sheet, scale by scale", &points, 1, 0, |q, _: &mut [u8]| our_sheet_at(q), |q, _| rust_sheet_at(q));

    let (ours, rust) = (our_sheet_at_metres, rust_sheet_at_metres);
    both.race("point in metres to sheet, scales mixed", &metres, 1, 0, |q, _: &mut [u8]| ours(q), |q, _| rust(q));
    metres.sort_by_key(|&(scale, _, _)| scale);
    both.race("point in metres to sheet, scale by scale", &metres, 1, 0, |q, _: &mut [u8]| ours(q), |q, _| rust(q));

    both.race("name comparing", &names(), 1, 0, |q, _: &mut [u8]| our_same_name(q), |q, _| rust_same_name(q));

    let large: Vec<Vec<u32>> = (0..LARGE_SETS).map(|_| large_set(LAST_SHEET, |_| true, numbers)).collect();
    let small: Vec<Vec<u32>> = (0..SMALL_SETS).map(|_| small_set(numbers)).collect();
    for (size, sets, times) in [("4 096 sheets", &large, 8), ("0 to 16 sheets", &small, 16)] {
        let lists = lists(sets, sheets::write_list, numbers);
        both.race(&format!("list reading, {size}"), &lists, times, MOST_SHEETS, |q, r| our_read_list(q, r), |q, r| rust_read_list(q, r));
        both.race(&format!("list writing, {size}"), sets, times, LONGEST_LIST, |q, r| our_write_list(q, r), |q, r| rust_write_list(q, r));
        let (ours, rust) = (our_read_holdings, rust_read_holdings);
        both.race(&format!("old list read as holdings, {size}"), &lists, times, MOST_SHEETS, |q, r| ours(q, r), |q, r| rust(q, r));
    }

    // Numbers of their own, as for points in metres.
    let numbers = &mut Numbers(SEED);
    let large: Vec<Vec<u32>> = (0..LARGE_SETS).map(|_| large_set(LAST_HOLDING, is_holding, numbers)).collect();
    let small: Vec<Vec<u32>> = (0..SMALL_SETS).map(|_| small_holdings(numbers)).collect();
    for (size, sets, times) in [("4 096 holdings", &large, 8), ("0 to 16 holdings", &small, 16)] {
        let lists = lists(sets, sheets::write_holdings, numbers);
        let (ours, rust) = (our_read_holdings, rust_read_holdings);
        both.race(&format!("holdings reading, {size}"), &lists, times, MOST_SHEETS, |q, r| ours(q, r), |q, r| rust(q, r));
        let (ours, rust) = (our_write_holdings, rust_write_holdings);
        both.race(&format!("holdings writing, {size}"), sets, times, LONGEST_LIST, |q, r| ours(q, r), |q, r| rust(q, r));
    }

    // Numbers of their own, as for points in metres.
    let numbers = &mut Numbers(SEED);
    let large: Vec<Vec<u32>> = (0..LARGE_MUNICIPALITIES).map(|_| municipality(MOST_OF_MUNICIPALITY, numbers)).collect();
    let mut any_small = || {
        let count = numbers.draw(1, 16) as usize;
        municipality(count, numbers)
    };
    let small: Vec<Vec<u32>> = (0..SMALL_MUNICIPALITIES).map(|_| any_small()).collect();
    for (size, municipalities, times) in [("400 sheets", &large, 1), ("1 to 16 sheets", &small, 16)] {
        let questions = local_numbers(municipalities, numbers);
        let (ours, rust) = (our_local_to_sheet, rust_local_to_sheet);
        both.race(&format!("local numbers to sheet, {size}"), &questions, times, 0, |q, _: &mut [u8]| ours(q), |q, _| rust(q));
        let questions = local_sheets(municipalities, numbers);
        let (ours, rust) = (our_sheet_to_local, rust_sheet_to_local);
        both.race(&format!("sheet to local numbers, {size}"), &questions, times, 0, |q, _: &mut [u8]| ours(q), |q, _| rust(q));
    }

    // Numbers of their own, as for points in metres.
    let numbers = &mut Numbers(SEED);
    let large = deliveries(LARGE_DELIVERIES, |numbers| delivery(numbers.draw(5, 9), 64, 64, numbers), numbers);
    let any_small = |numbers: &mut Numbers| delivery(numbers.draw(1, 9), numbers.draw(1, 4), numbers.draw(1, 4), numbers);
    let small = deliveries(SMALL_DELIVERIES, any_small, numbers);
    for (size, deliveries) in [("4 096 sheets", &large), ("1 to 16 sheets", &small)] {
        let (ours, rust) = (our_check_delivery, rust_check_delivery);
        both.race(&format!("delivery check, {size}"), deliveries, 8, 0, |q, _: &mut [u8]| ours(q), |q, _| rust(q));
    }
}
