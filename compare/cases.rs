//! Writes down what compare/paper.rs answers: to the questions of crates/cases, and for the catalogues of samples/. compare/cases builds
//! and runs it, in the repository's folder.
//!
//!     cases                      writes crates/cases/stdout, the rows beside each catalogue in samples/, and tk250.official there, anew
//!     cases check                says which of them are not so
//!     cases ask                  the questions on standard input with their answers
//!     cases rows                 the rows of the catalogue on standard input
//!     cases lines COUNT SEED     a catalogue of so many lines, nine in ten of them good (compare/lines.rs)
//!
//! A line of crates/cases/stdin is a question: a word, of which crates/cases reads the first letter, a small one or a capital, and what
//! follows. Sheets are told by their numbers, points and edges in millimetres, and bytes in hexadecimal. A float, of `quad` and `under`
//! alone, is told by its bits: those below the sign as a whole number, with a minus in front where the sign is set, so that
//! 4692333547057315840 is 500 000.0 and -0 is -0.0. The line of crates/cases/stdout is the question, a colon and the answer. A refusal is
//! told by its number, and what it carries, also where that is 0: 10 the room needed; 4, 19, 20, 21 and 5 the place in the label; 25 and 26
//! the place in the delivery; and 27 the sheet that is missing. Of more than forty bytes or sheets only the sum is told, and a sum is always
//! one over the bytes that would be written. Holdings are told by their numbers, too; a question about lists of them has the form of that
//! about lists of sheets, with a capital.
//!
//!     table 3                   of the scale: width and height in metres, first and last sheet; and the last scale and
//!                               the last sheet of all
//!     number 344                of the sheet: scale, row and column, and the sheet found there; west, east, south and
//!                               north, and the sheet found at the upper left corner; parent; and the neighbours by rows
//!                               from the north, a hyphen for none
//!     quad 344                  the frame of the sheet in metres, as floats: west, east, south and north, and the middle,
//!                               east and north
//!     at 3 500000000 5000000000 the scale's sheet that owns the point E, N
//!     under 3 E N               the scale's sheet that owns the point in metres, E and N floats; and the frame in metres
//!                               of that sheet
//!     on 3 8 10                 the scale's sheet in a row and a column
//!     down 344 4 3              the sheet's child at a scale, by its number
//!     step 344 1 -1             the sheet so many columns east and rows south
//!     from 344 364              how many columns east and rows south the second sheet lies from the first
//!     cover 8 4 w e s n         in room for so many sheets, those of the scale that cover the window: the count, the
//!                               sheets, and how many places keep their mark
//!     every 0 23 1              of the sheets from the first to the last by so many, a sum over what `number`, but for
//!                               the neighbours, and `write` in room of 20 bytes tell of each
//!     label 50-109-11           the sheet of the label, which is all of the line after the first space
//!     write 344 9               the length of the sheet's label; in room of so many bytes the length written, the label,
//!                               how many bytes keep their mark, and the sheet read back from what was written
//!     groups 344                the groups that the number takes in a list
//!     pack 8 3 0 344 7953173    the length of the list of so many sheets; in room of so many bytes the length written,
//!                               the list, and how many bytes keep their mark; where it was written, what is read in room
//!                               for just these sheets: from the list, from the list without its last byte, from the list
//!                               and the byte behind it in the room, and from the list in room for a sheet less
//!     rule 9000 0 1 4096        the same for sheets by a rule, told by the first, the step and the count; beyond 32 bits
//!                               they start again from 0
//!     rule 9000 0 1 4096 7 5    the same with another number in a place, here 5 in the seventh
//!     many 0 1 60               of the sets of 0 to 59 sheets by a rule, told by the first and the step, a sum over what
//!                               `rule` in room of 200 bytes tells of each
//!     heads 3 0300d702bc        what is read in room for so many sheets from every beginning of the list, from no byte
//!                               to all: how it ended, how many sheets were placed, these, and how many places keep their
//!                               mark
//!     bytes 3 0300d702bc        what is read from the bytes as a label, and as a list in room for so many sheets
//!     vary 3 0300d702bc         a sum over what `bytes` tells when each byte in turn is changed to each of the 256
//!     joined 3 63cc8cc48d       of the bytes, cut behind so many, whether the first part and the rest are the same name:
//!                               same or different
//!     known 19 8                the official name of the sheet in room of so many bytes, at most 40: the length written or
//!                               not listed, the name, how many bytes keep their mark, and what `identify` tells of the
//!                               bytes written, which are none where it is not listed or refused
//!     identify 0 566973         the sheet that has the bytes as its official name, or not listed; the number is always 0
//!     yours 0 35302d3130312d31  what the official names say of the bytes as a catalogue line: agrees, differs or not
//!                               listed; the number is always 0
//!     Local 2 4 0 78199 3 78198 78199 78799
//!                               in the municipality of so many sheets, here three, the sheet that has the three local
//!                               numbers, absent ones 0; and the local numbers of the sheet behind them, here 78199,
//!                               only those that are there
//!     Municipality 2 4 0 78199 78174 25 400
//!                               the same in the municipality of sheets by a rule, as in `rule`, told by the first, the
//!                               step and the count
//!     Municipality 2 4 0 78199 78174 25 400 7 5
//!                               the same with another number in a place, as in `rule`
//!     Together 344 1            the number of the sheet with the product
//!     Apart 1033                the sheet and the product of the holding
//!     Pack 8 3 0 1033 23859519  what `pack` tells, of holdings: of the new list, read by the new reader
//!     Rule 9000 0 3 4096 7 5    what `rule` tells, of holdings
//!     Heads 3 83400088          what `heads` tells, read by the new reader
//!     Bytes 3 0300d702bc        what is read from the bytes as a list of sheets, by the old reader, and as a list of
//!                               holdings, by the new one, in room for so many each
//!     Vary 3 0300d702bc         a sum over what `Bytes` tells when each byte in turn is changed to each of the 256
//!     Deliver 4 w e s n 2 774 775
//!                               of a delivery of so many numbers, here two, for the scale's cover of the window: the count
//!                               of the cover where it is accepted
//!     Supply 4 w e s n 0 3 8    the same for a delivery from the cover itself: of its sheets, in its order and counted from
//!                               0, those at the places by a rule, as in `rule`, told by the first, the step and the count;
//!                               behind the last sheet it starts again. Where there is no cover, each number is 0
//!     Supply 4 w e s n 0 3 8 7 5
//!                               the same with another number in a place, as in `rule`
//!
//! The questions that are stored there try, beside the examples: every border by one before, on and behind it (the area's and the sheets'
//! edges by a millimetre and in metres by a float, the grids' ends, each scale's first and last sheet, each field's range, each length of a
//! number in a list, room that just is enough, 4 096 and 4 097); extremes of 32 and 64 bits, and numbers that would look right if they lost
//! their upper bits; the smallest and the largest floats, infinite ones and those that are no number; numbers that are no scale or no
//! sheet; labels as the sources print them, with each kind of fault at each place, and with strange bytes; lists that are cut, badly
//! written, too long or wrongly counted; two faults at once, for the order of refusals; names in both spellings and in a mixture, letters
//! and marks that are not joined, marks that stand alone, twice, apart or broken, and names of unequal length that are the same; the
//! fifteen official names, each with its sheet, with others and with slips, and lines of every scale and with every kind of fault;
//! municipalities of 1 to 400 sheets and of none or too many, within a 1:50 000 sheet and across several, with each kind of fault at each
//! place, and sheets and local numbers beside theirs; each product at either end of each scale, holdings of one sheet side by side, lists
//! of both kinds read by both readers, and first numbers about the counts of each kind; deliveries of 1 to 4 096 sheets in many orders, of
//! none and of too many, with each kind of fault at either end and in the middle and two at once, several sheets missing at once, and for
//! windows that have no cover; and some by chance.
//!
//! The lines of compare/examples.txt are document 01's examples and cases of document 02, question and answer written out by hand: these
//! answers are not asked of the paper, but must be its own.

mod lines;
mod numbers;
mod paper;

use numbers::Numbers;
use paper::{scale_facts, scale_of, Answer, Division, Frame, LAST_SHEET};
use std::collections::{HashMap, HashSet};
use std::fmt::Display;
use std::fs;
use std::io::{self, Read, Write};
use std::process::exit;

const QUESTIONS: &str = "crates/cases/stdin";
const ANSWERS: &str = "crates/cases/stdout";
const EXAMPLES: &str = "compare/examples.txt";
const SAMPLES: &str = "samples";

/// As much as crates/cases reads.
const MOST: usize = 256 * 1024;
/// What stands in every byte of lent room before a question.
const MARK: u8 = 238;
/// Of more bytes or sheets than this only the sum is told.
const LISTED: usize = 40;
/// Room for each label, and for each list, in a sum over many.
const LABEL_ROOM: usize = 20;
const LIST_ROOM: usize = 200;
/// The most room for an official name.
const NAME_ROOM: i64 = 40;

fn stop(what: impl Display) -> ! {
    eprintln!("compare/cases: {what}");
    exit(1)
}

// ---- Answers in writing ----

fn told<T: Display>(answer: Answer<T>) -> String {
    answer.map_or_else(|refusal| refusal.to_string(), |value| value.to_string())
}

fn spaced<T: Display>(parts: impl IntoIterator<Item = T>) -> String {
    parts.into_iter().map(|part| part.to_string()).collect::<Vec<_>>().join(" ")
}

/// A sum over the bytes of some texts, in which every byte and its place count.
fn summed(texts: impl IntoIterator<Item = String>) -> u64 {
    const MODULUS: u64 = 1_000_000_007;
    texts.into_iter().fold(1, |sum, text| text.bytes().fold(sum, |sum, byte| (sum % MODULUS * 31 + byte as u64) % MODULUS + 1))
}

/// The sheets in room for so many, and how many places keep their mark.
fn listed(sheets: &[u32], room: usize) -> String {
    let text: String = sheets.iter().map(|sheet| format!(" {sheet}")).collect();
    let shown = if sheets.len() > LISTED { format!(" sum {}", summed([text])) } else { text };
    format!("{shown} kept {}", room - sheets.len())
}

fn hexadecimal(bytes: &[u8]) -> String {
    bytes.iter().map(|byte| format!("{byte:02x}")).collect()
}

/// A float told by its bits, those below the sign and a minus for that; none where it is not told so.
fn float(text: &str) -> Option<u64> {
    let (below, sign) = text.strip_prefix('-').map_or((text, 0), |below| (below, 1 << 63));
    Some(below.parse::<i64>().ok().filter(|&below| below >= 0)? as u64 | sign)
}

fn told_float(bits: u64) -> String {
    format!("{}{}", if bits >> 63 == 0 { "" } else { "-" }, bits & (u64::MAX >> 1))
}

fn told_floats(answer: Answer<[u64; 6]>) -> String {
    told(answer.map(|floats| spaced(floats.map(told_float))))
}

/// The sheets of a rule: the first, and each later one so far from the one before, in 32 bits.
fn ruled(first: u32, step: u32, count: usize) -> Vec<u32> {
    (0..count as u32).map(|k| first.wrapping_add(step.wrapping_mul(k))).collect()
}

/// Some sheets, with another number in a place counted from 1 where one is told; none where it is not told so.
fn but(mut sheets: Vec<u32>, other: &[i64]) -> Option<Vec<u32>> {
    match *other {
        [] => {}
        [place, number] => *sheets.get_mut((place as usize).checked_sub(1)?)? = number as u32,
        _ => return None,
    }
    Some(sheets)
}

/// Those of a rule.
fn ruled_but(first: i64, step: i64, count: i64, other: &[i64]) -> Option<Vec<u32>> {
    but(ruled(first as u32, step as u32, count as usize), other)
}

/// Numbers in 32 bits.
fn narrow(numbers: &[i64]) -> Vec<u32> {
    numbers.iter().map(|&number| number as u32).collect()
}

/// What a list is of: sheets, with the old writer and reader, or holdings, with the new ones.
#[derive(Clone, Copy)]
enum Of {
    Sheets,
    Holdings,
}

fn alike(one: &[u8], other: &[u8]) -> String {
    if paper::same_name(one, other) { "same" } else { "different" }.to_string()
}

struct Paper(Division);

impl Paper {
    fn table(&self, scale: u32) -> String {
        let row = scale_facts(scale).map(|facts| [facts.width as u32, facts.height as u32, facts.first, facts.first + facts.sheets - 1]);
        format!("{} 9 {LAST_SHEET}", spaced(row.unwrap_or([0; 4])))
    }

    /// Place and the sheet found there, edges and the sheet found at the upper left corner, and parent.
    fn sheet(&self, sheet: u32) -> String {
        let place = self.0.place(sheet).map(|place| {
            let found = self.0.sheet_on(place.scale, place.row as i128, place.column as i128);
            format!("{} {} {} {}", place.scale, place.row, place.column, told(found))
        });
        let edges = self.0.frame(sheet).map(|frame| {
            let found = scale_of(sheet).and_then(|scale| self.0.sheet_of_point(scale, frame.west, frame.north));
            format!("{} {} {} {} {}", frame.west, frame.east, frame.south, frame.north, told(found))
        });
        format!("{}, {}, {}", told(place), told(edges), told(self.0.parent(sheet)))
    }

    /// The same, and the three rows of neighbours.
    fn number(&self, sheet: u32) -> String {
        let row = |row: &[Option<u32>; 3]| spaced(row.map(|place| place.map_or("-".to_string(), |sheet| sheet.to_string())));
        let [north, middle, south] = self.0.neighbours(sheet);
        format!("{}, {}, {}, {}", self.sheet(sheet), row(&north), row(&middle), row(&south))
    }

    fn under(&self, scale: u32, e: u64, n: u64) -> String {
        format!("{}, {}", told(self.0.sheet_at_metres(scale, e, n)), told_floats(self.0.frame_at_metres(scale, e, n)))
    }

    fn cover(&self, room: usize, scale: u32, window: Frame) -> String {
        match self.0.cover(scale, window, room) {
            Ok(sheets) => format!("{}{}", sheets.len(), listed(&sheets, room)),
            Err(refusal) => format!("{refusal} kept {room}"),
        }
    }

    fn label(&self, label: &[u8]) -> String {
        told(self.0.read_label(label))
    }

    fn write_label(&self, sheet: u32, room: usize) -> String {
        let length = told(self.0.label_length(sheet));
        match self.0.write_label(sheet, room) {
            Ok(label) => {
                let text = String::from_utf8_lossy(label.text());
                format!("{length}, {} {text} kept {} {}", text.len(), room - text.len(), self.label(label.text()))
            }
            Err(refusal) => format!("{length}, {refusal}  kept {room} {}", self.label(b"")),
        }
    }

    fn every(&self, first: u32, last: u32, far: u32) -> String {
        let sheets = (first as u64..=last as u64).step_by(far as usize);
        let text = |sheet: u64| format!(" {} {}", self.sheet(sheet as u32), self.write_label(sheet as u32, LABEL_ROOM));
        summed(sheets.map(text)).to_string()
    }

    fn read_list(&self, of: Of, list: &[u8], room: usize) -> String {
        let (placed, ended) = match of {
            Of::Sheets => self.0.read_list(list, room),
            Of::Holdings => self.0.read_holdings(list, room),
        };
        let ended = told(ended.map(|()| "whole"));
        format!("from {} in {room} {ended} placed {}{}", list.len(), placed.len(), listed(&placed, room))
    }

    fn write_list(&self, of: Of, numbers: &[u32], room: usize) -> String {
        let (length, written) = match of {
            Of::Sheets => (self.0.list_length(numbers), self.0.write_list(numbers, room)),
            Of::Holdings => (self.0.holdings_length(numbers), self.0.write_holdings(numbers, room)),
        };
        let length = told(length);
        let list = match written {
            Ok(list) => list,
            Err(refusal) => return format!("{length}, {refusal}  kept {room}"),
        };
        let (count, long) = (numbers.len(), list.len());
        let shown = if long > LISTED { format!("sum {}", summed([hexadecimal(&list)])) } else { hexadecimal(&list) };
        let mut parts = vec![format!("{length}, {long} {shown} kept {}", room - long)];
        parts.push(self.read_list(of, &list, count));
        parts.push(self.read_list(of, &list[..long - 1], count));
        if long < room {
            parts.push(self.read_list(of, &[&list[..], &[MARK]].concat(), count));
        }
        if count > 0 {
            parts.push(self.read_list(of, &list, count - 1));
        }
        parts.join(" ")
    }

    fn many(&self, first: u32, step: u32, below: usize) -> String {
        summed((0..below).map(|count| format!(" {}", self.write_list(Of::Sheets, &ruled(first, step, count), LIST_ROOM)))).to_string()
    }

    fn heads(&self, of: Of, room: usize, list: &[u8]) -> String {
        spaced((0..=list.len()).map(|cut| self.read_list(of, &list[..cut], room)))
    }

    fn bytes(&self, of: Of, room: usize, bytes: &[u8]) -> String {
        let before = match of {
            Of::Sheets => self.label(bytes),
            Of::Holdings => self.read_list(Of::Sheets, bytes, room),
        };
        format!("{before}, {}", self.read_list(of, bytes, room))
    }

    fn vary(&self, of: Of, room: usize, bytes: &[u8]) -> String {
        let changed = |k: usize| {
            let mut bytes = bytes.to_vec();
            bytes[k / 256] = (k % 256) as u8;
            format!(" {}", self.bytes(of, room, &bytes))
        };
        summed((0..256 * bytes.len()).map(changed)).to_string()
    }

    fn known(&self, sheet: u32, room: usize) -> String {
        let answer = self.0.official_name(sheet, room);
        let name = answer.unwrap_or(None).unwrap_or("");
        let length = told(answer.map(|name| name.map_or("not listed".to_string(), |name| name.len().to_string())));
        format!("{length} {name} kept {} {}", room - name.len(), self.identify(name.as_bytes()))
    }

    fn identify(&self, name: &[u8]) -> String {
        self.0.official_sheet(name).map_or("not listed".to_string(), |sheet| sheet.to_string())
    }

    fn local(&self, asked: [i64; 4], municipality: &[u32]) -> String {
        let [n, a, b, sheet] = asked.map(|number| number as u32);
        let local = self.0.sheet_to_local(municipality, sheet);
        format!("{}, {}", told(self.0.local_to_sheet(municipality, n, a, b)), told(local.map(spaced)))
    }

    fn deliver(&self, scale: u32, window: Frame, delivery: &[u32]) -> String {
        told(self.0.check_delivery(scale, window, delivery))
    }

    /// The sheets at some places of a cover, from its end on again from its start.
    fn supply(&self, scale: u32, window: Frame, places: &[u32]) -> Vec<u32> {
        let cover = self.0.cover(scale, window, paper::MOST).unwrap_or_default();
        places.iter().map(|&place| (place as usize).checked_rem(cover.len()).map_or(0, |place| cover[place])).collect()
    }

    /// The answer to a question; none where it is no question.
    fn answer(&self, question: &str) -> Option<String> {
        let (word, rest) = question.split_once(' ')?;
        if word == "label" {
            return Some(self.label(rest.as_bytes()));
        }
        if word == "under" {
            let [scale, e, n] = rest.split(' ').collect::<Vec<_>>()[..] else { return None };
            return Some(self.under(scale.parse().ok()?, float(e)?, float(n)?));
        }
        if let "heads" | "Heads" | "bytes" | "Bytes" | "vary" | "Vary" | "joined" | "identify" | "yours" = word {
            let (number, digits) = rest.split_once(' ')?;
            let number = number.parse().ok()?;
            let places = (0..digits.len()).step_by(2);
            let bytes: Vec<u8> = places.map(|k| u8::from_str_radix(digits.get(k..k + 2)?, 16).ok()).collect::<Option<_>>()?;
            return Some(match word {
                "heads" => self.heads(Of::Sheets, number, &bytes),
                "Heads" => self.heads(Of::Holdings, number, &bytes),
                "bytes" => self.bytes(Of::Sheets, number, &bytes),
                "Bytes" => self.bytes(Of::Holdings, number, &bytes),
                "vary" => self.vary(Of::Sheets, number, &bytes),
                "Vary" => self.vary(Of::Holdings, number, &bytes),
                "joined" => alike(bytes.get(..number)?, &bytes[number..]),
                _ if number != 0 => return None,
                "identify" => self.identify(&bytes),
                _ => told(self.0.official_check(&bytes)),
            });
        }
        let numbers: Vec<i64> = rest.split(' ').map(|number| number.parse().ok()).collect::<Option<_>>()?;
        Some(match (word, &numbers[..]) {
            ("table", &[scale]) => self.table(scale as u32),
            ("number", &[sheet]) => self.number(sheet as u32),
            ("quad", &[sheet]) => told_floats(self.0.frame_in_metres(sheet as u32)),
            ("at", &[scale, e, n]) => told(self.0.sheet_of_point(scale as u32, e, n)),
            ("on", &[scale, row, column]) => told(self.0.sheet_on(scale as u32, row as i128, column as i128)),
            ("down", &[sheet, scale, number]) => told(self.0.child(sheet as u32, scale as u32, number as u32)),
            ("step", &[sheet, east, south]) => told(self.0.step(sheet as u32, east, south)),
            ("from", &[a, b]) => told(self.0.offset(a as u32, b as u32).map(|(east, south)| spaced([east, south]))),
            ("cover", &[room, scale, west, east, south, north]) => {
                self.cover(room as usize, scale as u32, Frame { west, east, south, north })
            }
            ("every", &[first, last, far]) => self.every(first as u32, last as u32, far as u32),
            ("write", &[sheet, room]) => self.write_label(sheet as u32, room as usize),
            ("groups", &[number]) => paper::groups(number as u32).to_string(),
            ("pack", &[room, count, ref sheets @ ..]) if sheets.len() == count as usize => {
                self.write_list(Of::Sheets, &narrow(sheets), room as usize)
            }
            ("Pack", &[room, count, ref holdings @ ..]) if holdings.len() == count as usize => {
                self.write_list(Of::Holdings, &narrow(holdings), room as usize)
            }
            ("rule", &[room, first, step, count, ref other @ ..]) => {
                self.write_list(Of::Sheets, &ruled_but(first, step, count, other)?, room as usize)
            }
            ("Rule", &[room, first, step, count, ref other @ ..]) => {
                self.write_list(Of::Holdings, &ruled_but(first, step, count, other)?, room as usize)
            }
            ("many", &[first, step, below]) => self.many(first as u32, step as u32, below as usize),
            ("known", &[sheet, room @ 0..=NAME_ROOM]) => self.known(sheet as u32, room as usize),
            ("Local", &[n, a, b, sheet, count, ref sheets @ ..]) if sheets.len() == count as usize => {
                self.local([n, a, b, sheet], &narrow(sheets))
            }
            ("Municipality", &[n, a, b, sheet, first, step, count, ref other @ ..]) => {
                self.local([n, a, b, sheet], &ruled_but(first, step, count, other)?)
            }
            ("Together", &[sheet, product]) => told(paper::holding(sheet as u32, product as u32)),
            ("Apart", &[holding]) => told(paper::holding_parts(holding as u32).map(|(sheet, product)| spaced([sheet, product]))),
            ("Deliver", &[scale, west, east, south, north, count, ref sheets @ ..]) if sheets.len() == count as usize => {
                self.deliver(scale as u32, Frame { west, east, south, north }, &narrow(sheets))
            }
            ("Supply", &[scale, west, east, south, north, first, step, count, ref other @ ..]) => {
                let window = Frame { west, east, south, north };
                let sheets = self.supply(scale as u32, window, &ruled(first as u32, step as u32, count as usize));
                self.deliver(scale as u32, window, &but(sheets, other)?)
            }
            _ => return None,
        })
    }

    // ---- The files ----

    /// What crates/cases must print: each question with its answer.
    fn answers(&self) -> String {
        let (questions, examples) = (text_of(QUESTIONS), text_of(EXAMPLES));
        if questions.len() > MOST {
            stop(format!("{QUESTIONS} has more than {MOST} bytes"));
        }
        let mut by_hand: HashMap<&str, &str> = HashMap::new();
        for line in examples.lines().filter(|line| !line.is_empty() && !line.starts_with('#')) {
            let Some((question, answer)) = line.split_once(": ") else { stop(format!("{EXAMPLES}: no answer: {line}")) };
            by_hand.insert(question, answer);
        }
        let mut asked = HashSet::new();
        let mut lines = String::new();
        for question in questions.lines() {
            if !asked.insert(question) {
                stop(format!("{QUESTIONS}: asked twice: {question}"));
            }
            let Some(own) = self.answer(question) else { stop(format!("{QUESTIONS}: no question: {question}")) };
            let answer = by_hand.remove(question).unwrap_or(&own);
            if answer != own {
                stop(format!("{EXAMPLES} has {question}: {answer}\nbut the paper says {own}"));
            }
            lines += &format!("{question}: {answer}\n");
        }
        if let Some(question) = by_hand.keys().next() {
            stop(format!("{EXAMPLES}: not asked in {QUESTIONS}: {question}"));
        }
        lines
    }

    /// What the official names say of a catalogue, line by line: its number, the answer, the label, the name and, where it differs, the
    /// official one, with tabs between. Only for lines of 1:250 000 sheets.
    fn official(&self, catalogue: &str) -> String {
        let row = |(place, line): (usize, &str)| {
            let said = self.0.official_check(line.as_bytes()).unwrap_or_else(|refusal| stop(format!("{line}: {refusal}")));
            let (label, name) = line.split_once(' ').unwrap_or((line, ""));
            let sheet = self.0.read_label(label.as_bytes()).expect("a label");
            let other = self.0.official_name(sheet, usize::MAX).expect("a sheet").filter(|_| said == paper::Checked::Differs);
            format!("{}\t{said}\t{label}\t{name}{}\n", place + 1, other.map_or(String::new(), |name| format!("\t{name}")))
        };
        catalogue.lines().enumerate().map(row).collect()
    }

    /// Each file that is written, and what it must have in it.
    fn files(&self) -> Vec<(String, String)> {
        let mut files = vec![(ANSWERS.to_string(), self.answers())];
        let listed = fs::read_dir(SAMPLES).unwrap_or_else(|error| stop(format!("{SAMPLES}: {error}")));
        let mut names: Vec<String> = listed.flatten().map(|entry| entry.file_name().to_string_lossy().into_owned()).collect();
        names.sort();
        for name in names.iter().filter_map(|name| name.strip_suffix(".txt")) {
            let catalogue = bytes_of(&format!("{SAMPLES}/{name}.txt"));
            files.push((format!("{SAMPLES}/{name}.rows"), self.0.rows(&catalogue)));
        }
        files.push((format!("{SAMPLES}/tk250.official"), self.official(&text_of(&format!("{SAMPLES}/tk250.txt")))));
        files
    }
}

fn bytes_of(path: &str) -> Vec<u8> {
    fs::read(path).unwrap_or_else(|error| stop(format!("{path}: {error}")))
}

fn text_of(path: &str) -> String {
    String::from_utf8(bytes_of(path)).unwrap_or_else(|_| stop(format!("{path}: no UTF-8")))
}

fn input() -> Vec<u8> {
    let mut bytes = Vec::new();
    io::stdin().read_to_end(&mut bytes).unwrap_or_else(|error| stop(error));
    bytes
}

fn put(bytes: &[u8]) {
    io::stdout().write_all(bytes).unwrap_or_else(|error| stop(error));
}

fn main() {
    let words: Vec<String> = std::env::args().skip(1).collect();
    let paper = || Paper(Division::lay_out());
    match words.iter().map(String::as_str).collect::<Vec<_>>()[..] {
        [] => {
            for (path, text) in paper().files() {
                fs::write(&path, text).unwrap_or_else(|error| stop(format!("{path}: {error}")));
            }
        }
        ["check"] => {
            for (path, text) in paper().files() {
                if bytes_of(&path) != text.as_bytes() {
                    stop(format!("{path} is not as compare/cases writes it"));
                }
            }
        }
        ["ask"] => {
            let questions = String::from_utf8(input()).unwrap_or_else(|_| stop("no UTF-8"));
            let paper = paper();
            for question in questions.lines() {
                put(format!("{question}: {}\n", paper.answer(question).unwrap_or("no such question".to_string())).as_bytes());
            }
        }
        ["rows"] => put(paper().0.rows(&input()).as_bytes()),
        ["lines", count, seed] => {
            let (Ok(count), Ok(seed)) = (count.parse::<usize>(), seed.parse()) else { stop("lines COUNT SEED") };
            let mut numbers = Numbers(seed);
            let lines: String = (0..count).map(|_| lines::any_line(&mut numbers) + "\n").collect();
            put(lines.as_bytes());
        }
        _ => stop("it takes nothing, or check, ask, rows, or lines COUNT SEED"),
    }
}
