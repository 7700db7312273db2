// Questions, how they are put to the box and to the paper, and what becomes of the answers. The form in which they travel is told
// in compare/box.c; the paper's answers are brought into the same form, so that answers agree where their bytes do.

use crate::paper::{self, Answer, Caption, Division, Frame};
use std::fmt::Write as _;
use std::io::{BufReader, Read, Write};
use std::process::{exit, Child, ChildStdin, ChildStdout, Command, Stdio};

/// Floats are told by their bits.
#[derive(Clone, Debug)]
pub enum Question {
    Facts { scale: u32 },
    ScaleOf { sheet: u32 },
    Locate { sheet: u32 },
    SheetOn { scale: u32, row: u32, column: u32 },
    SheetAt { scale: u32, e: i64, n: i64 },
    Corners { sheet: u32 },
    Parent { sheet: u32 },
    Child { sheet: u32, scale: u32, number: u32 },
    Step { sheet: u32, east: i64, south: i64 },
    Offset { a: u32, b: u32 },
    Neighbours { sheet: u32, room: usize },
    Cover { scale: u32, window: Frame, room: usize },
    ReadLabel { label: Vec<u8> },
    LabelLength { sheet: u32 },
    WriteLabel { sheet: u32, room: usize },
    ReadLine { line: Vec<u8> },
    LineParts { line: Vec<u8> },
    Caption { line: Vec<u8>, fallback: Vec<u8> },
    SameName { a: Vec<u8>, b: Vec<u8> },
    ListLength { sheets: Vec<u32> },
    WriteList { sheets: Vec<u32>, room: usize },
    ReadList { list: Vec<u8>, room: usize },
    Frame { sheet: u32 },
    SheetAtMetres { scale: u32, e: u64, n: u64 },
    FrameAtMetres { scale: u32, e: u64, n: u64 },
    OfficialName { sheet: u32, room: usize },
    OfficialSheet { name: Vec<u8> },
    OfficialCheck { line: Vec<u8> },
    LocalToSheet { municipality: Vec<u32>, n: u32, a: u32, b: u32 },
    SheetToLocal { municipality: Vec<u32>, sheet: u32 },
    Holding { sheet: u32, product: u32 },
    HoldingParts { holding: u32 },
    HoldingsLength { holdings: Vec<u32> },
    WriteHoldings { holdings: Vec<u32>, room: usize },
    ReadHoldings { list: Vec<u8>, room: usize },
    CheckDelivery { scale: u32, window: Frame, delivery: Vec<u32> },
}

#[derive(Clone, Copy, PartialEq)]
enum Room {
    None,
    Bytes,
    Sheets,
}

/// Of each kind of question, in order: the function, how many numbers it gives, and the room that is lent to it.
const KINDS: [(&str, usize, Room); 36] = [
    ("width, height, rows, columns, first, last", 6, Room::None),
    ("scale_of", 0, Room::None),
    ("locate", 3, Room::None),
    ("sheet_on", 1, Room::None),
    ("sheet_at", 1, Room::None),
    ("corners", 4, Room::None),
    ("parent", 1, Room::None),
    ("child", 1, Room::None),
    ("step", 1, Room::None),
    ("offset", 2, Room::None),
    ("neighbours", 1, Room::Sheets),
    ("cover", 1, Room::Sheets),
    ("read_label", 1, Room::None),
    ("label_length", 1, Room::None),
    ("write_label", 1, Room::Bytes),
    ("read_line", 1, Room::None),
    ("line_parts", 3, Room::None),
    ("caption", 3, Room::None),
    ("same_name", 0, Room::None),
    ("list_length", 1, Room::None),
    ("write_list", 1, Room::Bytes),
    ("read_list", 2, Room::Sheets),
    ("frame", 6, Room::None),
    ("sheet_at_metres", 1, Room::None),
    ("frame_at_metres", 6, Room::None),
    ("official_name", 1, Room::Bytes),
    ("official_sheet", 1, Room::None),
    ("official_check", 1, Room::None),
    ("local_to_sheet", 1, Room::None),
    ("sheet_to_local", 3, Room::None),
    ("holding", 1, Room::None),
    ("holding_parts", 2, Room::None),
    ("holdings_length", 1, Room::None),
    ("write_holdings", 1, Room::Bytes),
    ("read_holdings", 2, Room::Sheets),
    ("check_delivery", 1, Room::None),
];

/// The kinds whose numbers are floats.
const IN_METRES: [usize; 2] = [23, 25];
/// The results that there are: 0, and the numbers of refusal.
const RESULTS: usize = 28;

const GUARD: usize = 8;
const NONE: u32 = u32::MAX;

fn mark(salt: u32, place: usize) -> u64 {
    (salt as u64 + place as u64 + 1).wrapping_mul(0x9E37_79B9_7F4A_7C15)
}
fn mark_u32(salt: u32, place: usize) -> u32 {
    (mark(salt, place) >> 32) as u32 | 0x8000_0000
}
fn mark_u8(salt: u32, place: usize) -> u8 {
    (mark(salt, place) >> 56) as u8 | 0x80
}

/// An answer that is being brought into the form of the box.
struct Form<'a> {
    to: &'a mut Vec<u8>,
    kind: u8,
    salt: u32,
}

impl Form<'_> {
    fn begin(&mut self, result: u32) {
        self.to.extend([self.kind, 0]);
        self.to.extend(result.to_le_bytes());
    }
    fn number(&mut self, number: u64) {
        self.to.extend(number.to_le_bytes());
    }
    /// An answer that is one number: what a refusal carries stands in its place.
    fn value<T: Into<u64>>(&mut self, answer: Answer<T>) {
        match answer {
            Ok(value) => {
                self.begin(0);
                self.number(value.into());
            }
            Err(refusal) => {
                self.begin(refusal.number);
                self.number(refusal.carries.unwrap_or(0));
            }
        }
    }
    /// An answer of several numbers: a refusal leaves the marks, which are the odd ones of those that the box has put there.
    fn several<const N: usize>(&mut self, answer: Answer<[u64; N]>, marks: fn(u32, usize) -> u64) {
        let (result, numbers) = match answer {
            Ok(numbers) => (0, numbers),
            Err(refusal) => (refusal.number, std::array::from_fn(|k| marks(self.salt, 2 * k + 1))),
        };
        self.begin(result);
        for number in numbers {
            self.number(number);
        }
    }
    /// The lent room, marked, then written to from its start.
    fn room<T: Copy + PartialEq>(&mut self, room: usize, written: &[T], marks: fn(u32, usize) -> T, put: fn(&mut Vec<u8>, T)) {
        let lost = |k: &usize| written[*k] != marks(self.salt, GUARD + *k);
        let from = (0..written.len()).find(lost);
        let to = (0..written.len()).rev().find(lost);
        let (from, to) = match (from, to) {
            (Some(from), Some(to)) => (from + GUARD, to + 1 + GUARD),
            _ => (room + 2 * GUARD, room + 2 * GUARD),
        };
        self.to.extend((from as u32).to_le_bytes());
        self.to.extend((to as u32).to_le_bytes());
        for k in from..to {
            put(self.to, written[k - GUARD]);
        }
    }
    fn sheets_room(&mut self, room: usize, written: &[u32]) {
        self.room(room, written, mark_u32, |to, sheet| to.extend(sheet.to_le_bytes()));
    }
    fn bytes_room(&mut self, room: usize, written: &[u8]) {
        self.room(room, written, mark_u8, |to, byte| to.push(byte));
    }
    /// A list that is written: its length, and the room.
    fn written(&mut self, room: usize, answer: Answer<Vec<u8>>) {
        self.value(answer.as_ref().map(|list| list.len() as u64).map_err(|refusal| *refusal));
        self.bytes_room(room, &answer.unwrap_or_default());
    }
    /// A list that is read: how many were placed, the value, and the room.
    fn placed(&mut self, room: usize, (placed, answer): (Vec<u32>, Answer<()>)) {
        let (result, value) = match answer {
            Ok(()) => (0, placed.len() as u64),
            Err(refusal) => (refusal.number, refusal.carries.unwrap_or(0)),
        };
        self.begin(result);
        self.number(placed.len() as u64);
        self.number(value);
        self.sheets_room(room, &placed);
    }
}

impl Question {
    fn kind(&self) -> u8 {
        match self {
            Question::Facts { .. } => 1,
            Question::ScaleOf { .. } => 2,
            Question::Locate { .. } => 3,
            Question::SheetOn { .. } => 4,
            Question::SheetAt { .. } => 5,
            Question::Corners { .. } => 6,
            Question::Parent { .. } => 7,
            Question::Child { .. } => 8,
            Question::Step { .. } => 9,
            Question::Offset { .. } => 10,
            Question::Neighbours { .. } => 11,
            Question::Cover { .. } => 12,
            Question::ReadLabel { .. } => 13,
            Question::LabelLength { .. } => 14,
            Question::WriteLabel { .. } => 15,
            Question::ReadLine { .. } => 16,
            Question::LineParts { .. } => 17,
            Question::Caption { .. } => 18,
            Question::SameName { .. } => 19,
            Question::ListLength { .. } => 20,
            Question::WriteList { .. } => 21,
            Question::ReadList { .. } => 22,
            Question::Frame { .. } => 23,
            Question::SheetAtMetres { .. } => 24,
            Question::FrameAtMetres { .. } => 25,
            Question::OfficialName { .. } => 26,
            Question::OfficialSheet { .. } => 27,
            Question::OfficialCheck { .. } => 28,
            Question::LocalToSheet { .. } => 29,
            Question::SheetToLocal { .. } => 30,
            Question::Holding { .. } => 31,
            Question::HoldingParts { .. } => 32,
            Question::HoldingsLength { .. } => 33,
            Question::WriteHoldings { .. } => 34,
            Question::ReadHoldings { .. } => 35,
            Question::CheckDelivery { .. } => 36,
        }
    }

    /// The question as the box takes it.
    fn put(&self, salt: u32, to: &mut Vec<u8>) {
        fn numbers(to: &mut Vec<u8>, numbers: &[u32]) {
            for number in numbers {
                to.extend(number.to_le_bytes());
            }
        }
        fn wide(to: &mut Vec<u8>, numbers: &[i64]) {
            for number in numbers {
                to.extend(number.to_le_bytes());
            }
        }
        fn floats(to: &mut Vec<u8>, floats: &[u64]) {
            for bits in floats {
                to.extend(bits.to_le_bytes());
            }
        }
        fn bytes(to: &mut Vec<u8>, bytes: &[u8]) {
            numbers(to, &[bytes.len() as u32]);
            to.extend(bytes);
        }
        fn set(to: &mut Vec<u8>, sheets: &[u32]) {
            numbers(to, &[sheets.len() as u32]);
            numbers(to, sheets);
        }
        to.push(self.kind());
        numbers(to, &[salt]);
        match self {
            Question::Facts { scale } => numbers(to, &[*scale]),
            Question::ScaleOf { sheet }
            | Question::Locate { sheet }
            | Question::Corners { sheet }
            | Question::Parent { sheet }
            | Question::LabelLength { sheet }
            | Question::Frame { sheet } => numbers(to, &[*sheet]),
            Question::SheetOn { scale, row, column } => numbers(to, &[*scale, *row, *column]),
            Question::SheetAt { scale, e, n } => {
                numbers(to, &[*scale]);
                wide(to, &[*e, *n]);
            }
            Question::SheetAtMetres { scale, e, n } | Question::FrameAtMetres { scale, e, n } => {
                numbers(to, &[*scale]);
                floats(to, &[*e, *n]);
            }
            Question::Child { sheet, scale, number } => numbers(to, &[*sheet, *scale, *number]),
            Question::Step { sheet, east, south } => {
                numbers(to, &[*sheet]);
                wide(to, &[*east, *south]);
            }
            Question::Offset { a, b } => numbers(to, &[*a, *b]),
            Question::Neighbours { sheet, room } | Question::WriteLabel { sheet, room } | Question::OfficialName { sheet, room } => {
                numbers(to, &[*sheet, *room as u32]);
            }
            Question::Cover { scale, window, room } => {
                numbers(to, &[*scale]);
                wide(to, &[window.west, window.east, window.south, window.north]);
                numbers(to, &[*room as u32]);
            }
            Question::ReadLabel { label } => bytes(to, label),
            Question::ReadLine { line } | Question::LineParts { line } | Question::OfficialCheck { line } => bytes(to, line),
            Question::OfficialSheet { name } => bytes(to, name),
            Question::Caption { line, fallback } => {
                bytes(to, line);
                bytes(to, fallback);
            }
            Question::SameName { a, b } => {
                bytes(to, a);
                bytes(to, b);
            }
            Question::ListLength { sheets: own } | Question::HoldingsLength { holdings: own } => set(to, own),
            Question::WriteList { sheets: own, room } | Question::WriteHoldings { holdings: own, room } => {
                set(to, own);
                numbers(to, &[*room as u32]);
            }
            Question::ReadList { list, room } | Question::ReadHoldings { list, room } => {
                bytes(to, list);
                numbers(to, &[*room as u32]);
            }
            Question::Holding { sheet, product } => numbers(to, &[*sheet, *product]),
            Question::HoldingParts { holding } => numbers(to, &[*holding]),
            Question::LocalToSheet { municipality, n, a, b } => {
                set(to, municipality);
                numbers(to, &[*n, *a, *b]);
            }
            Question::SheetToLocal { municipality, sheet } => {
                set(to, municipality);
                numbers(to, &[*sheet]);
            }
            Question::CheckDelivery { scale, window, delivery } => {
                numbers(to, &[*scale]);
                wide(to, &[window.west, window.east, window.south, window.north]);
                set(to, delivery);
            }
        }
    }

    /// The paper's answer, in the form of the box.
    fn answer(&self, division: &Division, salt: u32, to: &mut Vec<u8>) {
        let mut form = Form { to, kind: self.kind(), salt };
        match self {
            Question::Facts { scale } => {
                // The header: of a number that is no scale, each of these is 0.
                let facts = paper::scale_facts(*scale).map(|facts| {
                    let (rows, columns) = division.grid_size(*scale);
                    let last = paper::last_of(*scale).expect("a scale");
                    [facts.width as u64, facts.height as u64, rows, columns, facts.first as u64, last as u64]
                });
                form.several(Ok(facts.unwrap_or([0; 6])), mark);
            }
            Question::ScaleOf { sheet } => form.begin(paper::scale_of(*sheet).unwrap_or(0)),
            Question::Locate { sheet } => {
                let place = division.place(*sheet).map(|place| [place.scale as u64, place.row as u64, place.column as u64]);
                form.several(place, |salt, k| mark_u32(salt, k) as u64);
            }
            Question::SheetOn { scale, row, column } => form.value(division.sheet_on(*scale, *row as i128, *column as i128)),
            Question::SheetAt { scale, e, n } => form.value(division.sheet_of_point(*scale, *e, *n)),
            Question::Corners { sheet } => {
                let frame = division.frame(*sheet);
                form.several(frame.map(|frame| [frame.west, frame.east, frame.south, frame.north].map(|edge| edge as u64)), mark);
            }
            Question::Parent { sheet } => form.value(division.parent(*sheet)),
            Question::Child { sheet, scale, number } => form.value(division.child(*sheet, *scale, *number)),
            Question::Step { sheet, east, south } => form.value(division.step(*sheet, *east, *south)),
            Question::Offset { a, b } => {
                form.several(division.offset(*a, *b).map(|(east, south)| [east as u64, south as u64]), mark);
            }
            Question::Neighbours { sheet, room } => {
                let block = division.neighbours(*sheet).concat();
                let block: Vec<u32> = block.iter().map(|place| place.unwrap_or(NONE)).collect();
                let answer = if *room < 9 { paper::too_short(9) } else { Ok(block) };
                form.value(answer.as_ref().map(|block| block.len() as u64).map_err(|refusal| *refusal));
                form.sheets_room(*room, &answer.unwrap_or_default());
            }
            Question::Cover { scale, window, room } => {
                let answer = division.cover(*scale, *window, *room);
                form.value(answer.as_ref().map(|sheets| sheets.len() as u64).map_err(|refusal| *refusal));
                form.sheets_room(*room, &answer.unwrap_or_default());
            }
            Question::ReadLabel { label } => form.value(division.read_label(label)),
            Question::LabelLength { sheet } => form.value(division.label_length(*sheet)),
            Question::WriteLabel { sheet, room } => {
                let answer = division.write_label(*sheet, *room);
                form.value(answer.as_ref().map(|label| label.text().len() as u64).map_err(|refusal| *refusal));
                form.bytes_room(*room, answer.as_ref().map_or(&[], |label| label.text()));
            }
            Question::ReadLine { line } => form.value(division.read_line(line).sheet),
            Question::LineParts { line } => {
                // The label starts where the line does.
                let read = division.read_line(line);
                assert_eq!(read.label.start, 0);
                form.several(Ok([read.label.end, read.name.start, read.name.end].map(|place| place as u64)), mark);
            }
            Question::Caption { line, fallback } => {
                let (of, part) = match division.caption(line, fallback) {
                    Caption::OfLine(part) => (0, part),
                    Caption::OfFallback(part) => (1, part),
                };
                form.several(Ok([of, part.start as u64, part.end as u64]), mark);
            }
            Question::SameName { a, b } => form.begin(paper::same_name(a, b) as u32),
            Question::ListLength { sheets } => form.value(division.list_length(sheets).map(|length| length as u64)),
            Question::WriteList { sheets, room } => form.written(*room, division.write_list(sheets, *room)),
            Question::ReadList { list, room } => form.placed(*room, division.read_list(list, *room)),
            Question::Frame { sheet } => form.several(division.frame_in_metres(*sheet), mark),
            Question::SheetAtMetres { scale, e, n } => form.value(division.sheet_at_metres(*scale, *e, *n)),
            Question::FrameAtMetres { scale, e, n } => form.several(division.frame_at_metres(*scale, *e, *n), mark),
            Question::OfficialName { sheet, room } => {
                // The header: of a sheet that is not listed the count is 0.
                let answer = division.official_name(*sheet, *room).map(|name| name.unwrap_or(""));
                form.value(answer.map(|name| name.len() as u64));
                form.bytes_room(*room, answer.unwrap_or("").as_bytes());
            }
            Question::OfficialSheet { name } => form.value(Ok(division.official_sheet(name).unwrap_or(NONE))),
            // The header: 0 agrees, 1 differs, 2 not listed, which is how they stand in order.
            Question::OfficialCheck { line } => form.value(division.official_check(line).map(|said| said as u32)),
            Question::LocalToSheet { municipality, n, a, b } => form.value(division.local_to_sheet(municipality, *n, *a, *b)),
            Question::SheetToLocal { municipality, sheet } => {
                // The header: of the three numbers, absent ones are 0.
                let local = division.sheet_to_local(municipality, *sheet);
                let three = local.map(|numbers| [0, 1, 2].map(|place| numbers.get(place).map_or(0, |&number| number as u64)));
                form.several(three, |salt, k| mark_u32(salt, k) as u64);
            }
            Question::Holding { sheet, product } => form.value(paper::holding(*sheet, *product)),
            Question::HoldingParts { holding } => {
                let parts = paper::holding_parts(*holding).map(|(sheet, product)| [sheet as u64, product as u64]);
                form.several(parts, |salt, k| mark_u32(salt, k) as u64);
            }
            Question::HoldingsLength { holdings } => form.value(division.holdings_length(holdings).map(|length| length as u64)),
            Question::WriteHoldings { holdings, room } => form.written(*room, division.write_holdings(holdings, *room)),
            Question::ReadHoldings { list, room } => form.placed(*room, division.read_holdings(list, *room)),
            Question::CheckDelivery { scale, window, delivery } => form.value(division.check_delivery(*scale, *window, delivery)),
        }
    }
}

/// An answer for people: the result, the numbers given, and the places of the lent room that have lost their marks.
fn tell(body: &[u8]) -> String {
    fn number(body: &[u8], at: usize, bytes: usize) -> Option<u64> {
        Some(body.get(at..at + bytes)?.iter().rev().fold(0, |high, &byte| high << 8 | byte as u64))
    }
    let told = || -> Option<String> {
        let kind = number(body, 0, 1)? as usize;
        let (_, numbers, room) = *KINDS.get(kind.wrapping_sub(1))?;
        let mut text = format!("result {}", number(body, 2, 4)?);
        if number(body, 1, 1)? != 0 {
            text += ", WROTE BESIDE WHAT IT WAS LENT";
        }
        for k in 0..numbers {
            let given = number(body, 6 + 8 * k, 8)?;
            let shown = if IN_METRES.contains(&kind) { metres(given) } else { (given as i64).to_string() };
            let _ = write!(text, "{} {shown}", if k == 0 { ", gives" } else { "" });
        }
        if room != Room::None {
            let at = 6 + 8 * numbers;
            let (from, to) = (number(body, at, 4)? as usize, number(body, at + 4, 4)? as usize);
            let width = if room == Room::Bytes { 1 } else { 4 };
            if from == to {
                text += ", the room as it was";
            } else {
                let _ = write!(text, ", room from {} to {}:", from as i64 - GUARD as i64, to as i64 - GUARD as i64);
                for k in 0..to.checked_sub(from)? {
                    let _ = write!(text, " {}", number(body, at + 8 + width * k, width)?);
                }
            }
        }
        Some(text)
    };
    told().unwrap_or_else(|| format!("{body:?}"))
}

/// A float for people: in full, and its bits.
fn metres(bits: u64) -> String {
    format!("{:?} ({bits:#018x})", f64::from_bits(bits))
}

/// A question for people: bytes as text where they are such, and as numbers; floats in metres, and as their bits.
fn spell(question: &Question) -> String {
    let mut text = format!("{question:?}");
    if let Question::SheetAtMetres { e, n, .. } | Question::FrameAtMetres { e, n, .. } = question {
        let _ = write!(text, "\n    e is {}, n is {}", metres(*e), metres(*n));
    }
    let mut add = |name: &str, bytes: &[u8]| {
        let _ = write!(text, "\n    {name} as text: \"{}\"", bytes.escape_ascii());
    };
    match question {
        Question::ReadLabel { label } => add("label", label),
        Question::ReadLine { line } | Question::LineParts { line } | Question::OfficialCheck { line } => add("line", line),
        Question::OfficialSheet { name } => add("name", name),
        Question::Caption { line, fallback } => {
            add("line", line);
            add("fallback", fallback);
        }
        Question::SameName { a, b } => {
            add("a", a);
            add("b", b);
        }
        _ => {}
    }
    text
}

const BLOCK: usize = 1 << 18;
const MOST_TOLD: usize = 20;
const MOST_TOLD_OF_A_KIND: usize = 3;

struct Asked {
    question: Question,
    salt: u32,
    /// The end of the paper's answer in those of its block.
    end: usize,
}

/// Gathers questions to blocks. While the box is at a block, the paper answers the same one and the next is gathered.
pub struct Asker<'a> {
    division: &'a Division,
    child: Child,
    to_box: Option<ChildStdin>,
    from_box: BufReader<ChildStdout>,
    salt: u32,
    block: Vec<u8>,
    gathered: Vec<Asked>,
    under_way: Vec<Asked>,
    expected: Vec<u8>,
    said: Vec<u8>,
    told: [usize; KINDS.len()],
    different: u64,
    counts: [[u64; RESULTS]; KINDS.len()],
}

fn stop(what: &str) -> ! {
    eprintln!("against: {what}");
    exit(2)
}

impl<'a> Asker<'a> {
    pub fn start(division: &'a Division, command: &[String]) -> Asker<'a> {
        let started = Command::new(&command[0]).args(&command[1..]).stdin(Stdio::piped()).stdout(Stdio::piped()).spawn();
        let mut child = match started {
            Ok(child) => child,
            Err(error) => stop(&format!("cannot start {}: {error}", command[0])),
        };
        let to_box = child.stdin.take();
        let from_box = BufReader::with_capacity(1 << 16, child.stdout.take().expect("a pipe"));
        Asker {
            division,
            child,
            to_box,
            from_box,
            salt: 0,
            block: Vec::new(),
            gathered: Vec::new(),
            under_way: Vec::new(),
            expected: Vec::new(),
            said: Vec::new(),
            told: [0; KINDS.len()],
            different: 0,
            counts: [[0; RESULTS]; KINDS.len()],
        }
    }

    pub fn ask(&mut self, question: Question) {
        self.salt = self.salt.wrapping_add(0x6D2B_79F5);
        question.put(self.salt, &mut self.block);
        self.gathered.push(Asked { question, salt: self.salt, end: 0 });
        if self.block.len() >= BLOCK {
            self.send();
        }
    }

    fn send(&mut self) {
        self.receive();
        let to_box = self.to_box.as_mut().expect("a pipe");
        let length = (self.block.len() as u32).to_le_bytes();
        if let Err(error) = to_box.write_all(&length).and_then(|()| to_box.write_all(&self.block)) {
            stop(&format!("the box takes no more questions: {error}"));
        }
        self.block.clear();
        std::mem::swap(&mut self.gathered, &mut self.under_way);
        self.expected.clear();
        for asked in &mut self.under_way {
            asked.question.answer(self.division, asked.salt, &mut self.expected);
            asked.end = self.expected.len();
        }
    }

    /// Takes the box's answers to the block that is under way.
    fn receive(&mut self) {
        let mut from = 0;
        for (place, asked) in self.under_way.iter().enumerate() {
            let mut length = [0; 4];
            let mut got = self.from_box.read_exact(&mut length);
            self.said.resize(u32::from_le_bytes(length) as usize, 0);
            got = got.and_then(|()| self.from_box.read_exact(&mut self.said));
            if let Err(error) = got {
                let more = self.under_way.len() - place - 1;
                let question = spell(&asked.question);
                stop(&format!("the box has stopped ({error}) at this question or one of the {more} after it: {question}"));
            }
            let expected = &self.expected[from..asked.end];
            from = asked.end;
            let kind = asked.question.kind() as usize - 1;
            let result = u32::from_le_bytes([expected[2], expected[3], expected[4], expected[5]]) as usize;
            self.counts[kind][result] += 1;
            if expected != self.said {
                self.different += 1;
                if self.told[kind] < MOST_TOLD_OF_A_KIND && self.told.iter().sum::<usize>() < MOST_TOLD {
                    self.told[kind] += 1;
                    eprintln!("different: {}", KINDS[kind].0);
                    eprintln!("    {}", spell(&asked.question));
                    eprintln!("    paper:   {}", tell(expected));
                    eprintln!("    library: {}", tell(&self.said));
                }
            }
        }
        self.under_way.clear();
    }

    /// Waits for what is left, and gives the status to end with.
    pub fn finish(mut self, count: bool) -> i32 {
        self.send();
        self.receive();
        drop(self.to_box.take());
        let mut rest = Vec::new();
        if self.from_box.read_to_end(&mut rest).is_err() || !rest.is_empty() {
            stop("the box says more than it was asked");
        }
        match self.child.wait() {
            Ok(status) if status.success() => {}
            Ok(status) => stop(&format!("the box ended with {status}")),
            Err(error) => stop(&format!("the box: {error}")),
        }
        if count {
            self.tell_counts();
        }
        if self.different > 0 {
            eprintln!("against: {} answers differ", self.different);
            return 1;
        }
        0
    }

    /// A line for each kind of question: how many, and how many with each result.
    fn tell_counts(&self) {
        let mut all = 0;
        for (kind, results) in self.counts.iter().enumerate() {
            let sum: u64 = results.iter().sum();
            all += sum;
            let mut text = format!("{sum:>10} {}:", KINDS[kind].0);
            for (result, &count) in results.iter().enumerate().filter(|(_, &count)| count > 0) {
                let _ = write!(text, " {result}×{count}");
            }
            println!("{text}");
        }
        println!("{all:>10} in all");
    }
}
