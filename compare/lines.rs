//! Catalogue lines for the races: nine in ten of them good, the nine scales equally often, three in four of those that may have a name
//! with one.

use crate::numbers::Numbers;
use crate::paper::{Made, SCALES};

/// The scale's mark, a number in each parent, and a row and a column.
fn any_label(scale: usize, numbers: &mut Numbers) -> String {
    let mut label = SCALES[scale].mark.to_string();
    let mut made = SCALES[scale].made;
    while let Made::Scale(parents, side) = made {
        label += &format!("-{}", numbers.draw(1, (side * side) as u64));
        made = SCALES[parents as usize - 1].made;
    }
    if let Made::Area(rows, columns) = made {
        let row = 100 + numbers.draw(1, rows as u64);
        label += &format!("-{row}-{}", numbers.draw(1, columns as u64));
    }
    label
}

fn any_name(numbers: &mut Numbers) -> String {
    let length = numbers.draw(3, 9);
    let mut name: String = (0..length).map(|_| numbers.draw(97, 122) as u8 as char).collect();
    name[..1].make_ascii_uppercase();
    if numbers.draw(0, 2) == 0 {
        name += [" (sjever)", " (jug)", " (istok)", " (zapad)"][numbers.draw(0, 3) as usize];
    }
    name
}

/// The line with a slip in it, of the kinds that people and old programs make; it may be a good one still.
fn worse(mut line: String, numbers: &mut Numbers) -> String {
    let at = numbers.draw(0, line.len() as u64 - 1) as usize;
    let other = numbers.draw(32, 126) as u8 as char;
    match numbers.draw(0, 7) {
        0 => drop(line.remove(at)),
        1 => line.insert(at, line.as_bytes()[at] as char),
        2 => line = line.replacen('-', " ", 1),
        3 => line.insert_str(0, "0,"),
        4 => line = line.replacen('-', "-0", 1),
        5 => line.push(' '),
        6 => line = line.replace('-', "/"),
        _ => line.replace_range(at..at + 1, &other.to_string()),
    }
    line
}

pub fn any_line(numbers: &mut Numbers) -> String {
    let scale = numbers.draw(0, 8) as usize;
    let mut line = any_label(scale, numbers);
    if scale < 6 && numbers.draw(0, 3) > 0 {
        line += &format!(" {}", any_name(numbers));
    }
    if numbers.draw(0, 9) == 0 {
        line = worse(line, numbers);
    }
    line
}
