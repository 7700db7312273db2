//! The library from Rust: a point's sheet, its label and its corners, a sheet's frame for a viewer, a cover, a catalogue line, what is wrong
//! with another, and a shelf list.
use std::fmt::Display;

// As include/qubathimi.h declares them; a slice is handed over as a pointer and a length.
extern "C" {
    fn qubathimi_sheet_at(scale: u32, e: i64, n: i64, value: &mut u64) -> u32;
    fn qubathimi_corners(sheet: u32, west: &mut i64, east: &mut i64, south: &mut i64, north: &mut i64) -> u32;
    fn qubathimi_frame(sheet: u32, west: &mut f64, east: &mut f64, south: &mut f64, north: &mut f64, middle_e: &mut f64, middle_n: &mut f64) -> u32;
    fn qubathimi_sheet_at_metres(scale: u32, e: f64, n: f64, value: &mut u64) -> u32;
    fn qubathimi_frame_at_metres(
        scale: u32,
        e: f64,
        n: f64,
        west: &mut f64,
        east: &mut f64,
        south: &mut f64,
        north: &mut f64,
        middle_e: &mut f64,
        middle_n: &mut f64,
    ) -> u32;
    fn qubathimi_cover(scale: u32, west: i64, east: i64, south: i64, north: i64, room: *mut u32, length: usize, value: &mut u64) -> u32;
    fn qubathimi_read_label(label: *const u8, length: usize, value: &mut u64) -> u32;
    fn qubathimi_write_label(sheet: u32, room: *mut u8, length: usize, value: &mut u64) -> u32;
    fn qubathimi_read_line(line: *const u8, length: usize, value: &mut u64) -> u32;
    fn qubathimi_line_parts(line: *const u8, length: usize, label: &mut u64, start: &mut u64, end: &mut u64) -> u32;
    fn qubathimi_caption(line: *const u8, line_length: usize, fallback: *const u8, fallback_length: usize, value: &mut u64, start: &mut u64, end: &mut u64) -> u32;
    fn qubathimi_write_list(sheets: *const u32, count: usize, room: *mut u8, length: usize, value: &mut u64) -> u32;
    fn qubathimi_read_list(list: *const u8, length: usize, room: *mut u32, room_length: usize, placed: &mut u64, value: &mut u64) -> u32;
}

/// The number of a refusal, and what it carries.
#[derive(Debug)]
struct Refused(u32, u64);

/// An answer of one number, or a refusal: the status, and what was written to `value`.
fn answer(ask: impl FnOnce(&mut u64) -> u32) -> Result<usize, Refused> {
    let mut value = 0;
    match ask(&mut value) {
        0 => Ok(value as usize),
        number => Err(Refused(number, value)),
    }
}

// A slice's own pointer and length are what each of these functions asks for, so the calls are safe for any argument.

fn sheet_at(scale: u32, e: i64, n: i64) -> Result<usize, Refused> {
    answer(|value| unsafe { qubathimi_sheet_at(scale, e, n, value) })
}

/// West, east, south and north.
fn corners(sheet: u32) -> Result<[i64; 4], Refused> {
    let [mut west, mut east, mut south, mut north] = [0; 4];
    match unsafe { qubathimi_corners(sheet, &mut west, &mut east, &mut south, &mut north) } {
        0 => Ok([west, east, south, north]),
        number => Err(Refused(number, 0)),
    }
}

fn sheet_at_metres(scale: u32, e: f64, n: f64) -> Result<usize, Refused> {
    answer(|value| unsafe { qubathimi_sheet_at_metres(scale, e, n, value) })
}

/// West, east, south and north, and the middle, in metres.
fn frame_by(ask: impl FnOnce(&mut [f64; 6]) -> u32) -> Result<[f64; 6], Refused> {
    let mut frame = [0.0; 6];
    match ask(&mut frame) {
        0 => Ok(frame),
        number => Err(Refused(number, 0)),
    }
}

fn frame(sheet: u32) -> Result<[f64; 6], Refused> {
    frame_by(|[west, east, south, north, e, n]| unsafe { qubathimi_frame(sheet, west, east, south, north, e, n) })
}

fn frame_at_metres(scale: u32, e: f64, n: f64) -> Result<[f64; 6], Refused> {
    frame_by(|[west, east, south, north, a, b]| unsafe { qubathimi_frame_at_metres(scale, e, n, west, east, south, north, a, b) })
}

fn cover(scale: u32, [west, east, south, north]: [i64; 4], room: &mut [u32]) -> Result<usize, Refused> {
    answer(|value| unsafe { qubathimi_cover(scale, west, east, south, north, room.as_mut_ptr(), room.len(), value) })
}

fn read_label(label: &[u8]) -> Result<usize, Refused> {
    answer(|value| unsafe { qubathimi_read_label(label.as_ptr(), label.len(), value) })
}

fn write_label(sheet: u32, room: &mut [u8]) -> Result<usize, Refused> {
    answer(|value| unsafe { qubathimi_write_label(sheet, room.as_mut_ptr(), room.len(), value) })
}

fn read_line(line: &[u8]) -> Result<usize, Refused> {
    answer(|value| unsafe { qubathimi_read_line(line.as_ptr(), line.len(), value) })
}

/// The label and the name of a line.
fn parts(line: &[u8]) -> (&[u8], &[u8]) {
    let [mut label, mut start, mut end] = [0; 3];
    unsafe { qubathimi_line_parts(line.as_ptr(), line.len(), &mut label, &mut start, &mut end) };
    (&line[..label as usize], &line[start as usize..end as usize])
}

fn caption<'a>(line: &'a [u8], fallback: &'a [u8]) -> &'a [u8] {
    let [mut source, mut start, mut end] = [0; 3];
    unsafe { qubathimi_caption(line.as_ptr(), line.len(), fallback.as_ptr(), fallback.len(), &mut source, &mut start, &mut end) };
    let text = if source == 0 { line } else { fallback };
    &text[start as usize..end as usize]
}

fn write_list(sheets: &[u32], room: &mut [u8]) -> Result<usize, Refused> {
    answer(|value| unsafe { qubathimi_write_list(sheets.as_ptr(), sheets.len(), room.as_mut_ptr(), room.len(), value) })
}

/// The sheets that were placed, and how the reading ended.
fn read_list<'a>(list: &[u8], room: &'a mut [u32]) -> (&'a [u32], Result<usize, Refused>) {
    let mut placed = 0;
    let ended = answer(|value| unsafe { qubathimi_read_list(list.as_ptr(), list.len(), room.as_mut_ptr(), room.len(), &mut placed, value) });
    (&room[..placed as usize], ended)
}

fn spaced<T: Display>(items: &[T]) -> String {
    items.iter().map(|item| format!(" {item}")).collect()
}

fn text(bytes: &[u8]) -> String {
    String::from_utf8_lossy(bytes).into_owned()
}

fn run() -> Result<(), Refused> {
    let sheet = sheet_at(9, 500_000_000, 5_000_000_000)?;
    println!("sheet {sheet}");
    let mut room = [0; 16];
    let length = write_label(sheet as u32, &mut room)?;
    println!("label {}", text(&room[..length]));
    println!("read back {}", read_label(&room[..length])?);
    println!("corners{}", spaced(&corners(sheet as u32)?));

    // A viewer has floats: what lies under its pointer, and the frame to draw.
    let sheet = sheet_at_metres(3, 529_999.999_999_999_9, 5_000_000.25)?;
    println!("under the pointer {sheet}");
    let [west, east, south, north, e, n] = frame(sheet as u32)?;
    println!("frame {west:.1} {east:.1} {south:.1} {north:.1}, middle {e:.1} {n:.1}");
    // A value that is infinite or no number has no sheet under it.
    if let Err(Refused(number, _)) = frame_at_metres(3, f64::INFINITY, 5_000_000.25) {
        println!("refused {number}");
    }

    // Room that is too short is told with the room needed.
    let window = [200_000_000, 260_000_000, 5_150_000_000, 5_170_000_000];
    if let Err(Refused(number, needed)) = cover(4, window, &mut [0]) {
        println!("refused {number}, room needed {needed}");
        let mut sheets = vec![0; needed as usize];
        let count = cover(4, window, &mut sheets)?;
        println!("cover{}", spaced(&sheets[..count]));
    }

    let line = b"50-109-11 Old town";
    println!("line {}", read_line(line)?);
    let (label, name) = parts(line);
    println!("label {}", text(label));
    println!("name {}", text(name));
    // The label by itself is a line without a name.
    println!("caption {}", text(caption(label, b"no name")));

    // For the lender: the line, the refusal and its place, and a caret under it.
    let line = b"50-0109-11 Old town";
    println!("line {}", text(line));
    match read_line(line) {
        Err(Refused(number @ (4 | 19 | 20 | 21 | 5), place)) => {
            println!("     {:>1$}", "^", place as usize + 1);
            println!("refused {number} at {place}");
        }
        other => println!("sheet {}", other?),
    }

    let mut bytes = [0; 16];
    let length = write_list(&[0, 344, 7_953_173], &mut bytes)?;
    let digits: Vec<String> = bytes[..length].iter().map(|byte| format!("{byte:02X}")).collect();
    println!("list{}", spaced(&digits));
    let mut room = [0; 8];
    let (sheets, ended) = read_list(&bytes[..length], &mut room);
    println!("sheets{}", spaced(sheets));
    ended?;
    // A list that is cut short tells the sheets that are wholly there.
    if let (sheets, Err(Refused(number, _))) = read_list(&bytes[..5], &mut room) {
        println!("refused {number}");
        println!("sheets{}", spaced(sheets));
    }
    Ok(())
}

fn main() {
    if let Err(Refused(number, _)) = run() {
        println!("refused {number}");
        std::process::exit(1);
    }
}
