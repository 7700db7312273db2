// What is asked: from every kind of question the plain cases, the borders by one, the extremes, and what is damaged.

use crate::ask::{Asker, Question};
use crate::paper::{
    self, Answer, Division, Frame, Made, Refusal, Scale, AREA_EAST, AREA_NORTH, AREA_SOUTH, AREA_WEST, JOINED, LAST_HOLDING, LAST_SHEET,
    MOST, MOST_OF_MUNICIPALITY, NEW_LIST, OFFICIAL, SCALES,
};
use std::collections::BTreeSet;

/// Numbers by chance, the same for the same seed.
struct Chance(u64);

impl Chance {
    fn next(&mut self) -> u64 {
        self.0 = self.0.wrapping_add(0x9E37_79B9_7F4A_7C15);
        let mut mixed = self.0;
        mixed = (mixed ^ (mixed >> 30)).wrapping_mul(0xBF58_476D_1CE4_E5B9);
        mixed = (mixed ^ (mixed >> 27)).wrapping_mul(0x94D0_49BB_1331_11EB);
        mixed ^ (mixed >> 31)
    }
    /// From 0 up to the number, without it.
    fn below(&mut self, number: usize) -> usize {
        ((self.next() >> 32) * number as u64 >> 32) as usize
    }
    /// From the one up to the other, with both.
    fn from_to(&mut self, low: i64, high: i64) -> i64 {
        low + self.next().checked_rem((high - low) as u64 + 1).unwrap_or(0) as i64
    }
    fn one_in(&mut self, number: usize) -> bool {
        self.below(number) == 0
    }
    fn of<T: Copy>(&mut self, choices: &[T]) -> T {
        choices[self.below(choices.len())]
    }
    fn bytes(&mut self, count: usize) -> Vec<u8> {
        (0..count).map(|_| self.next() as u8).collect()
    }
    /// A number of any size: its highest bit is by chance, too.
    fn any_u32(&mut self) -> u32 {
        (self.next() as u32) >> self.below(32)
    }
    fn any_i64(&mut self) -> i64 {
        (self.next() as i64) >> self.below(64)
    }
}

const EXTREME_U32: [u32; 20] = [
    0,
    1,
    9,
    10,
    127,
    128,
    255,
    256,
    65_535,
    65_536,
    LAST_SHEET - 1,
    LAST_SHEET,
    LAST_SHEET + 1,
    (1 << 23) - 1,
    1 << 23,
    (1 << 28) - 1,
    (1 << 31) - 1,
    1 << 31,
    u32::MAX - 1,
    u32::MAX,
];

const EXTREME_I64: [i64; 20] = [
    i64::MIN,
    i64::MIN + 1,
    i64::MIN + AREA_WEST,
    i64::MIN + AREA_NORTH,
    -(1 << 53),
    -(1 << 32) - 1,
    -(1 << 32),
    -(1 << 31) - 1,
    -(1 << 31),
    -1,
    0,
    1,
    (1 << 31) - 1,
    1 << 31,
    (1 << 32) - 1,
    1 << 32,
    i64::MAX - AREA_NORTH,
    i64::MAX - AREA_WEST,
    i64::MAX - 1,
    i64::MAX,
];

const BORDERS: [i64; 4] = [AREA_WEST, AREA_EAST, AREA_SOUTH, AREA_NORTH];

/// The bit of a float that is its sign, and the bits of the infinite one; beyond these are those that are no number.
const MINUS: u64 = 1 << 63;
const INFINITE: u64 = 0x7FF << 52;

/// The float nearest to so many half millimetres, by its bits; where these have more than 53 bits it may be the one beside.
fn metres_of(half_millimetres: i128) -> u64 {
    (half_millimetres as f64 / 2000.0).to_bits()
}

/// Floats that are hard to take apart, by their bits, of both signs.
fn extreme_metres() -> Vec<u64> {
    // Good ones and the area's borders; metres and millimetres mixed up; and where metres or millimetres come to the end of 31, 32, 53, 63
    // and 64 bits.
    let numbers = [
        500_000.0,
        5_000_000.0,
        200_000.0,
        800_000.0,
        4_570_000.0,
        5_170_000.0,
        500.0,
        5_000.0,
        500_000_000.0,
        5_000_000_000.0,
        0.0005,
        0.001,
        1.0,
        2_147_483.648,
        4_294_967.296,
        4_294_967_296.0,
        4_503_599_627_370_496.0,
        9_007_199_254_740_991.0,
        9_007_199_254_740_992.0,
        9_223_372_036_854_772.0,
        9_223_372_036_854_774.0,
        9_223_372_036_854_776.0,
        9_223_372_036_854_778.0,
        18_446_744_073_709_548.0,
        18_446_744_073_709_552.0,
        18_446_744_073_709_556.0,
        9_223_372_036_854_775_808.0,
        18_446_744_073_709_551_616.0,
        1e300,
    ];
    let mut floats: Vec<u64> = numbers.iter().map(|number: &f64| number.to_bits()).collect();
    // The smallest, subnormal and not; the largest; and the infinite one.
    floats.extend([0, 1, 2, 1 << 51, (1 << 52) - 1, 1 << 52, (1 << 52) + 1, INFINITE - 2, INFINITE - 1, INFINITE]);
    // Those that are no number, of both kinds, with little behind the exponent, or much, or a good number's fraction.
    let good = 500_000f64.to_bits() % (1 << 52);
    floats.extend([1, 2, good, (1 << 51) - 1, 1 << 51, (1 << 51) + 1, (1 << 51) | good, (1 << 52) - 1].map(|payload| INFINITE + payload));
    floats.iter().flat_map(|&bits| [bits, bits | MINUS]).collect()
}

/// First numbers of labels, known ones and others, some of which are a known one where digits wrap.
const FIRSTS: [&str; 30] = [
    "250", "100", "50", "25", "10", "5", "2", "1", "5", "0", "00", "05", "3", "4", "6", "20", "51", "101", "200", "251", "500", "1000",
    "2500", "306", "261", "65586", "65541", "4294967346", "4294967297", "0,5",
];

/// Fields of labels: what the ranges end at, and what wraps to a number within them.
const FIELDS: [&str; 60] = [
    "0", "1", "2", "3", "4", "5", "6", "7", "9", "10", "11", "15", "16", "19", "20", "21", "24", "25", "26", "30", "31", "99", "100", "101",
    "102", "104", "105", "106", "107", "109", "110", "114", "115", "116", "120", "125", "129", "130", "131", "132", "200", "201", "231",
    "257", "301", "357", "600", "624", "625", "626", "627", "1000", "1101", "6250", "65537", "65637", "4294967297", "4294967397", "00",
    "01",
];

/// Beginnings of labels of every scale, and of some that soon have 16 bytes.
const BEGINNINGS: [&str; 12] =
    ["", "250-", "100-", "50-", "25-1-", "10-1-", "5-1-1-", "2-1-", "1-1-1-", "5-1-1-1-", "5-1-1-115-1", "5-4-4-625-13"];

/// What may stand behind the label of a line: nothing, names good and bad, and what belongs to the label still.
const TAILS: [&str; 12] = [
    "", " ", "  ", " Rab", "  Rab", " Rab ", " a\u{7f}", " 50-101-1", "\r", "\tRab", " nnnnnnnnnnnnnnnnnnnnnnnnnnnnnnnnnnnnnnnnnnnnnnnn",
    " nnnnnnnnnnnnnnnnnnnnnnnnnnnnnnnnnnnnnnnnnnnnnnnnn",
];

/// What looks like a letter that is joined: other letters with its marks, other marks, marks alone or broken, and single letters that are
/// others or broken.
const NEARLY_JOINED: [&[u8]; 30] = [
    b"s\xCC\x81", b"z\xCC\x81", b"S\xCC\x81", b"Z\xCC\x81", b"d\xCC\x8C", b"D\xCC\x8C", b"e\xCC\x8C", b"n\xCC\x81", b"c\xCC\x80",
    b"c\xCC\x82", b"s\xCC\x8B", b"z\xCC\x8D", b"c\xCD\x8C", b"\xCC\x8C", b"\xCC\x81", b"\xCC", b"\x8C", b"\x81", b"c\xCC", b"Z\xCC",
    b"c\x8C", b"C\x81", b"\xC4", b"\xC5", b"\x8D", b"\xA1", b"\xC4\x8F", b"\xC4\x91", b"\xC5\x9B", b"\xC5\x8D",
];

/// Two letters that are joined and one that is not, the bytes of the marks, and those of a single letter.
const BYTES_OF_NAMES: &[u8] = b"czd\xCC\x8C\x81\xC4\x8D";

/// What is no official name: none at all, the sources' misprints, names of other scales, parts of the fifteen, two at once, letters without
/// their marks, with another mark or in capitals, and what else a line has.
const OTHER_NAMES: [&str; 40] = [
    "", "Prevlasta", "Prevaska", "Čakovec", "Koprivnica", "Požega", "Županja", "Gospic", "Gospić", "Krk", "Rab", "Pula", "Zagreb (sjever)",
    "Dubrovnik (jug)", "Mali Lošinj", "Lošinj", "Otok", "Beli", "Manastir", "Slavonski", "Brod", "BeliManastir", "Slavonski-Brod",
    "VisVis", "Zagreb Zadar", "Split, Vis", "Jancag", "Janćag", "JANČAG", "jančag", "Otok Losinj", "Otok Lośinj", "Otok Lozinj",
    "OTOK LOŠINJ", "Žagreb", "Šplit", "Karlovač", "250-105-4", "250-105-4 Prevlaka", "19",
];

/// First numbers that are 250 when they lose their upper bits, and others.
const NEARLY_250: [&str; 9] = ["506", "65786", "4294967546", "0250", "2500", "25", "100", "50", "2"];

/// What is put into a name at each place, and in place of each of its bytes.
const FEW_BYTES: &[u8] = b"\0 c\xCC\x8C";

/// The sheets of scale 1.
const OF_SCALE_1: std::ops::Range<u32> = 0..SCALES[0].sheets;

/// The row of 1:2 000 in the table, and into how many rows of as many sheets a 1:50 000 sheet is cut there.
const OF_SCALE_7: &Scale = &SCALES[6];
const SIDE_OF_SCALE_7: u64 = 25;

/// What short municipalities are made of: the first and the last 1:2 000 sheet, two that follow one another by number, and one of the next
/// 1:50 000 sheet that lies between these by rows; sheets of other scales, the next ones to 1:2 000 and those furthest off; and numbers
/// that are no sheet.
const OF_MUNICIPALITIES: [u32; 11] = [78_174, 78_198, 78_199, 78_799, 453_173, 0, 78_173, 453_174, LAST_SHEET, LAST_SHEET + 1, u32::MAX];

/// What is asked of each sheet of a municipality: the sheet and all its parts at scales 8 and 9, the sheet and a part at each scale, or one
/// of these three.
#[derive(Clone, Copy)]
enum Parts {
    All,
    OneOfEach,
    One,
}

/// First numbers of lists: about the counts of both kinds, about each length in groups, and the largest.
const FIRST_NUMBERS: [u32; 26] = [
    0,
    1,
    2,
    3,
    127,
    128,
    129,
    4_094,
    4_095,
    4_096,
    4_097,
    8_191,
    8_192,
    8_193,
    8_194,
    8_320,
    12_287,
    12_288,
    12_289,
    16_383,
    16_384,
    (1 << 21) - 1,
    1 << 21,
    (1 << 28) - 1,
    1 << 28,
    u32::MAX,
];

/// The first number from which on every number is a holding for a long way: that of the first 1:5 000 sheet.
const ALL_HELD: u32 = 3 * SCALES[5].first;

/// What short sets of holdings are made of: those of a sheet that has both products, and the last such one; the first and the last of all;
/// products 2 that are not had, of the first sheet, the last, and those next to the two scales; and numbers that are no holding.
const OF_HOLDINGS: [u32; 14] = [
    ALL_HELD,
    ALL_HELD + 1,
    ALL_HELD + 2,
    3 * SCALES[7].first - 1,
    0,
    1,
    LAST_HOLDING - 2,
    LAST_HOLDING - 1,
    2,
    LAST_HOLDING,
    ALL_HELD - 1,
    3 * SCALES[7].first + 2,
    LAST_HOLDING + 1,
    u32::MAX,
];

/// The two kinds of list: of sheets and of holdings.
#[derive(Clone, Copy)]
enum Kind {
    Old,
    New,
}

const BOTH: [Kind; 2] = [Kind::Old, Kind::New];

impl Kind {
    /// What the first number of a list has beside the count.
    fn more(self) -> u32 {
        match self {
            Kind::Old => 0,
            Kind::New => NEW_LIST,
        }
    }
    /// The last number that an entry may lead to.
    fn last(self) -> u32 {
        match self {
            Kind::Old => LAST_SHEET,
            Kind::New => LAST_HOLDING,
        }
    }
    /// The list of some rising numbers, good or not.
    fn list_of(self, numbers: &[u32]) -> Vec<u8> {
        let first = self.more() + numbers.len() as u32;
        let mut list = in_groups(first, paper::groups(first));
        let mut least = 0;
        for &number in numbers {
            list.extend(in_groups(number - least, paper::groups(number - least)));
            least = number + 1;
        }
        list
    }
}

/// A number in so many groups, which may be more than it takes.
fn in_groups(number: u32, groups: usize) -> Vec<u8> {
    let group = |k: usize| (number as u64 >> (7 * k) & 127) as u8 | if k + 1 < groups { 128 } else { 0 };
    (0..groups).map(group).collect()
}

/// So many holdings, or as many as there are, of the sheets from one on by so many, each with all its products.
fn holdings_from(first: u32, step: usize, count: usize) -> Vec<u32> {
    let products = |sheet: u32| (0..3).filter_map(move |product| paper::holding(sheet, product).ok());
    (first..=LAST_SHEET).step_by(step).flat_map(products).take(count).collect()
}

/// The orders in which a cover is delivered: its own and the other way round, by the numbers, and any.
#[derive(Clone, Copy)]
enum Order {
    Cover,
    Back,
    Rising,
    Any,
}

const ORDERS: [Order; 4] = [Order::Cover, Order::Back, Order::Rising, Order::Any];

/// Rows and columns of about as many sheets as a cover may have, and of more than that, some by one sheet.
const MANY_SHEETS: [(u64, u64); 9] = [(64, 64), (2_999, 1), (2_048, 2), (4, 1_024), (32, 128), (65, 63), (132, 31), (2, 2_000), (15, 273)];
const TOO_MANY_SHEETS: [(u64, u64); 6] = [(65, 64), (64, 65), (241, 17), (17, 241), (2_049, 2), (3, 2_000)];

/// All texts over some letters, of no letter up to so many.
fn texts(letters: &[u8], most: u32) -> impl Iterator<Item = Vec<u8>> + '_ {
    let text = move |length: u32, choice: usize| (0..length).map(|k| letters[choice / letters.len().pow(k) % letters.len()]).collect();
    (0..=most).flat_map(move |length| (0..letters.len().pow(length)).map(move |choice| text(length, choice)))
}

/// Every label that comes of another by one slip: a byte changed, put in, dropped, doubled or changed with the next one, so that hyphens
/// move, or a field changed.
fn damaged(label: &[u8]) -> Vec<Vec<u8>> {
    let with = |from: usize, to: usize, other: &[u8]| [&label[..from], other, &label[to..]].concat();
    let mut all = Vec::new();
    for place in 0..=label.len() {
        for byte in *b"x-0" {
            all.push(with(place, place, &[byte]));
            if place < label.len() {
                all.push(with(place, place + 1, &[byte]));
            }
        }
        if let [byte, ref behind @ ..] = label[place..] {
            all.push(with(place, place + 1, &[]));
            all.push(with(place, place + 1, &[byte, byte]));
            if let [next, ..] = *behind {
                all.push(with(place, place + 2, &[next, byte]));
            }
        }
    }
    let mut from = 0;
    for field in label.split(|&byte| byte == b'-') {
        for other in ["", "0", "00", "7", "132", "627"] {
            all.push(with(from, from + field.len(), other.as_bytes()));
        }
        from += field.len() + 1;
    }
    all
}

/// A name, and the same with its letters and marks apart where it has single letters that are joined.
fn spellings(name: &str) -> Vec<String> {
    let text = |bytes| std::str::from_utf8(bytes).expect("a letter");
    let apart = JOINED.iter().fold(name.to_string(), |name, (marked, single)| name.replace(text(single), text(marked)));
    let mut both = vec![name.to_string(), apart];
    both.dedup();
    both
}

/// Every name that comes of another by one slip: a byte with a bit changed, changed to each of some, dropped, doubled or changed with the
/// next one, each of some put in, and every beginning and end.
fn misspelt(name: &[u8], bytes: &[u8]) -> Vec<Vec<u8>> {
    let with = |from: usize, to: usize, other: &[u8]| [&name[..from], other, &name[to..]].concat();
    let mut all = Vec::new();
    for place in 0..=name.len() {
        for &byte in bytes {
            all.push(with(place, place, &[byte]));
        }
        if let [byte, ref behind @ ..] = name[place..] {
            for other in (0..8).map(|bit| byte ^ 1 << bit).chain(bytes.iter().copied()) {
                all.push(with(place, place + 1, &[other]));
            }
            all.push(with(place, place + 1, &[]));
            all.push(with(place, place + 1, &[byte, byte]));
            if let [next, ..] = *behind {
                all.push(with(place, place + 2, &[next, byte]));
            }
            all.push(name[..place].to_vec());
            all.push(behind.to_vec());
        }
    }
    all
}

/// Every name that comes of another by a letter with a mark, in either spelling, or by what looks like one: in place of each of its
/// letters, and put in between them, in front and at the end.
fn with_marks(name: &str) -> Vec<Vec<u8>> {
    let letters: Vec<&[u8]> = JOINED.iter().flat_map(|(marked, single)| [&marked[..], &single[..]]).chain(NEARLY_JOINED).collect();
    let mut all = Vec::new();
    let ends = name.char_indices().map(|(from, letter)| (from, from + letter.len_utf8()));
    for (from, to) in ends.chain([(name.len(), name.len())]) {
        for letter in &letters {
            all.push([&name.as_bytes()[..from], letter, &name.as_bytes()[to..]].concat());
            if from < to {
                all.push([&name.as_bytes()[..from], letter, &name.as_bytes()[from..]].concat());
            }
        }
    }
    all
}

/// Every delivery that comes of another by one slip at some places: what stands there dropped, and each of some numbers in its stead, or in
/// front of it.
fn slips(delivery: &[u32], places: impl IntoIterator<Item = usize>, numbers: &[u32]) -> Vec<Vec<u32>> {
    let with = |from: usize, to: usize, other: &[u32]| [&delivery[..from], other, &delivery[to..]].concat();
    let mut all = Vec::new();
    for place in places {
        all.extend(numbers.iter().map(|&number| with(place, place, &[number])));
        if place < delivery.len() {
            all.push(with(place, place + 1, &[]));
            all.extend(numbers.iter().map(|&number| with(place, place + 1, &[number])));
        }
    }
    all
}

struct Asking<'a, 'b> {
    division: &'a Division,
    chance: Chance,
    asker: &'a mut Asker<'b>,
}

/// All questions of the short or the long form. In the long form every sheet there is has its turn.
pub fn ask_all(division: &Division, asker: &mut Asker, seed: u64, long: bool) {
    let times = if long { 20 } else { 1 };
    let mut asking = Asking { division, chance: Chance(seed), asker };
    asking.scales();
    asking.ends_of_scales();
    asking.each_exponent(if long { 40 } else { 0 });
    asking.each_edge_in_metres(long);
    asking.extremes_in_metres();
    asking.each_label_damaged(if long { 8 } else { 1 });
    asking.each_field();
    asking.short_texts(if long { 6 } else { 4 });
    asking.short_endings(if long { 8 } else { 6 });
    asking.two_slips(if long { 8 } else { 1 });
    asking.ends_of_fields();
    asking.about_16_bytes();
    asking.short_names(if long { 4 } else { 3 });
    asking.short_names_joined(if long { 6 } else { 4 });
    asking.official_sheets(if long { 200 } else { 20 });
    asking.official_names(long);
    asking.nearly_vis(if long { 7 } else { 4 });
    asking.official_lines();
    asking.short_municipalities(if long { 5 } else { 4 });
    asking.each_shape(long);
    asking.long_municipalities();
    asking.short_lists();
    asking.long_sets();
    asking.ends_of_products();
    asking.short_sets_of_holdings(if long { 4 } else { 3 });
    asking.long_sets_of_holdings();
    asking.first_numbers();
    asking.ends_of_lists();
    asking.short_lists_of_holdings(if long { 5 } else { 4 });
    asking.each_byte();
    asking.each_cut(if long { 2_000 } else { 100 });
    asking.short_deliveries(if long { 5 } else { 4 });
    asking.small_deliveries(long);
    asking.large_deliveries(if long { 12 } else { 1 });
    asking.deliveries_refused();
    if long {
        asking.each_sheet();
        asking.each_local_number();
        asking.each_sheet_delivered();
    }
    for _ in 0..times {
        // In turns, so that a fault of any kind is soon seen.
        for _ in 0..100 {
            for _ in 0..300 {
                asking.about_a_sheet();
                asking.about_a_place();
                asking.about_a_point();
                asking.about_a_point_in_metres();
                asking.about_a_child();
                asking.about_a_step();
                asking.about_an_offset();
                asking.about_neighbours();
                asking.about_writing_a_label();
            }
            for _ in 0..150 {
                asking.about_a_cover();
            }
            for _ in 0..100 {
                asking.about_a_frame();
            }
            for _ in 0..600 {
                asking.about_a_label();
            }
            for _ in 0..300 {
                asking.about_a_line();
                asking.about_names();
            }
            for _ in 0..200 {
                asking.about_official_names();
                asking.about_a_set();
                asking.about_a_list();
            }
            for _ in 0..60 {
                asking.about_a_holding();
                asking.about_holdings();
                asking.about_both_readers();
            }
            for _ in 0..20 {
                asking.about_a_municipality();
                asking.about_a_delivery();
            }
        }
    }
}

impl Asking<'_, '_> {
    fn ask(&mut self, question: Question) {
        self.asker.ask(question);
    }

    // ---- Scales and sheets ----

    fn scales(&mut self) {
        for scale in 0..600 {
            self.ask_of_scale(scale);
        }
        for bit in 4..32 {
            for low in 0..10 {
                self.ask_of_scale((1 << bit) | low);
                self.ask_of_scale(u32::MAX - (1 << bit) - low);
            }
        }
        for scale in EXTREME_U32 {
            self.ask_of_scale(scale);
        }
    }

    /// What the table has of it, and its sheet at points in metres, good and bad.
    fn ask_of_scale(&mut self, scale: u32) {
        self.ask(Question::Facts { scale });
        let (e, n) = (self.inside(true), self.inside(false));
        self.ask(Question::SheetAtMetres { scale, e, n });
        self.ask(Question::FrameAtMetres { scale, e, n });
        self.ask_at_metres(scale, INFINITE, n);
        self.ask_at_metres(scale, e, INFINITE + 1);
        self.ask_at_metres(scale, n, e);
    }

    fn scale(&mut self) -> u32 {
        match self.chance.below(40) {
            0 => 0,
            1 => 10,
            2 => self.chance.any_u32(),
            3 => self.chance.of(&EXTREME_U32),
            4 => (1 + self.chance.below(9) as u32) | (1 << (4 + self.chance.below(28))),
            _ => 1 + self.chance.below(9) as u32,
        }
    }

    fn sheet_of(&mut self, scale: u32) -> u32 {
        let facts = &SCALES[scale as usize - 1];
        match self.chance.below(8) {
            0 => facts.first,
            1 => facts.first + facts.sheets - 1,
            // On the border of the grid.
            2 | 3 => {
                let (rows, columns) = self.division.grid_size(scale);
                let near = |chance: &mut Chance, all: u64| match chance.below(5) {
                    0 => 0,
                    1 => 1,
                    2 => all as i128 - 2,
                    3 => all as i128 - 1,
                    _ => chance.below(all as usize) as i128,
                };
                let (row, column) = (near(&mut self.chance, rows), near(&mut self.chance, columns));
                self.division.sheet_on(scale, row, column).expect("a sheet")
            }
            _ => facts.first + self.chance.below(facts.sheets as usize) as u32,
        }
    }

    fn good_sheet(&mut self) -> u32 {
        let scale = 1 + self.chance.below(9) as u32;
        self.sheet_of(scale)
    }

    fn sheet(&mut self) -> u32 {
        match self.chance.below(24) {
            0 => self.chance.of(&EXTREME_U32),
            1 => self.chance.any_u32(),
            2 => self.good_sheet().wrapping_sub(1),
            3 => self.good_sheet() + 1,
            4 => self.good_sheet() | (1 << (23 + self.chance.below(9))),
            _ => self.good_sheet(),
        }
    }

    fn about_a_sheet(&mut self) {
        let sheet = self.sheet();
        self.ask_of_sheet(sheet);
    }

    fn ask_of_sheet(&mut self, sheet: u32) {
        self.ask(Question::ScaleOf { sheet });
        self.ask(Question::Locate { sheet });
        self.ask(Question::Corners { sheet });
        self.ask(Question::Parent { sheet });
        self.ask(Question::LabelLength { sheet });
        self.ask(Question::Frame { sheet });
    }

    /// The first and the last sheet of each scale.
    fn ends_of_scales(&mut self) {
        for facts in &SCALES {
            self.ask_of_sheet(facts.first);
            self.ask_of_sheet(facts.first + facts.sheets - 1);
        }
    }

    /// Every sheet, its neighbours, its label, what the list of official names says of it, its holdings, and the ways back: by the place,
    /// the corner points, also in metres, the parent, the label and the holding.
    fn each_sheet(&mut self) {
        for sheet in 0..=LAST_SHEET {
            self.ask_of_sheet(sheet);
            self.ask(Question::Neighbours { sheet, room: 9 });
            self.ask(Question::WriteLabel { sheet, room: 16 });
            let place = self.division.place(sheet).expect("a sheet");
            self.ask(Question::SheetOn { scale: place.scale, row: place.row, column: place.column });
            let frame = self.division.frame(sheet).expect("a sheet");
            self.ask(Question::SheetAt { scale: place.scale, e: frame.west, n: frame.north });
            self.ask(Question::SheetAt { scale: place.scale, e: frame.east - 1, n: frame.south + 1 });
            self.ask_back_in_metres(sheet);
            let label = self.division.write_label(sheet, 16).expect("a sheet");
            self.ask(Question::ReadLabel { label: label.text().to_vec() });
            self.ask(Question::OfficialName { sheet, room: 16 });
            self.ask(Question::OfficialCheck { line: label.text().to_vec() });
            if let Ok(parent) = self.division.parent(sheet) {
                let number = self.division.number(sheet);
                self.ask(Question::Child { sheet: parent, scale: place.scale, number });
            }
            for product in 0..3 {
                self.ask(Question::Holding { sheet, product });
                self.ask(Question::HoldingParts { holding: 3 * sheet + product });
            }
        }
    }

    // ---- Places and points ----

    fn about_a_place(&mut self) {
        let scale = self.scale();
        let (rows, columns) = self.division.grid_size(if (1..=9).contains(&scale) { scale } else { 3 });
        let chance = &mut self.chance;
        let mut near = |all: u64, other: u64| match chance.below(12) {
            0 => 0,
            1 => all as u32 - 1,
            2 => all as u32,
            3 => chance.of(&EXTREME_U32),
            4 => chance.any_u32(),
            // Where a product with the other side wraps.
            5 => (((1u64 << 32) / other) as u32).wrapping_add(chance.below(3) as u32).wrapping_sub(1),
            6 => chance.below(all as usize) as u32 | (1 << (12 + chance.below(20))),
            _ => chance.below(all as usize) as u32,
        };
        let (row, column) = (near(rows, columns), near(columns, rows));
        self.ask(Question::SheetOn { scale, row, column });
    }

    /// A number of millimetres to the east (or else north), mostly of the area, often at an edge of a grid.
    fn coordinate(&mut self, east: bool) -> i64 {
        let (low, high) = if east { (AREA_WEST, AREA_EAST) } else { (AREA_SOUTH, AREA_NORTH) };
        match self.chance.below(20) {
            0 => self.chance.of(&EXTREME_I64),
            1 => self.chance.any_i64(),
            2 => self.chance.of(&BORDERS) + self.chance.from_to(-1, 1),
            3 => low + self.chance.from_to(-1, 1),
            4 => high + self.chance.from_to(-1, 1),
            // In metres, in the wrong sense, or on the wrong side of a wrap.
            5 => match self.chance.below(4) {
                0 => self.chance.from_to(low / 1000, high / 1000),
                1 => -self.chance.from_to(low, high),
                2 => self.chance.from_to(low, high) + (1 << (32 + self.chance.below(31))),
                _ => self.chance.from_to(low, high) - (1 << (32 + self.chance.below(31))),
            },
            6..=12 => {
                let facts = &SCALES[self.chance.below(9)];
                let side = 1000 * if east { facts.width } else { facts.height };
                low + self.chance.from_to(0, (high - low) / side) * side + self.chance.from_to(-1, 1)
            }
            _ => self.chance.from_to(low, high),
        }
    }

    fn about_a_point(&mut self) {
        let (e, n) = (self.coordinate(true), self.coordinate(false));
        if self.chance.one_in(3) {
            for scale in 1..=9 {
                self.ask(Question::SheetAt { scale, e, n });
            }
        } else {
            let scale = self.scale();
            self.ask(Question::SheetAt { scale, e, n });
        }
    }

    // ---- Metres ----

    /// A float within the area, east (or else north).
    fn inside(&mut self, east: bool) -> u64 {
        let borders = if east { [AREA_WEST, AREA_EAST] } else { [AREA_SOUTH, AREA_NORTH] };
        let [low, high] = borders.map(|edge| metres_of(2 * edge as i128) as i64);
        (if east { self.chance.from_to(low, high - 1) } else { self.chance.from_to(low + 1, high) }) as u64
    }

    /// The sheet of a point, and for some its frame.
    fn ask_at_metres(&mut self, scale: u32, e: u64, n: u64) {
        self.ask(Question::SheetAtMetres { scale, e, n });
        if self.chance.one_in(4) {
            self.ask(Question::FrameAtMetres { scale, e, n });
        }
    }

    /// A float as the east (or else north) of a point that otherwise is good.
    fn ask_one_way(&mut self, scale: u32, east: bool, bits: u64) {
        let other = self.inside(!east);
        let (e, n) = if east { (bits, other) } else { (other, bits) };
        self.ask_at_metres(scale, e, n);
    }

    /// Floats of every exponent and of both signs, with fractions at both ends and in the middle, and so many more by chance.
    fn each_exponent(&mut self, more: usize) {
        for high in 0..4096 {
            let mut fractions = vec![0, 1, 2, 1 << 51, (1 << 52) - 2, (1 << 52) - 1];
            fractions.extend((0..more).map(|_| self.chance.next() >> 12));
            for fraction in fractions {
                for east in [true, false] {
                    let scale = self.scale();
                    self.ask_one_way(scale, east, high << 52 | fraction);
                }
            }
        }
    }

    /// Every edge of every scale, and two floats to either side of it; of the first edges and the last, and in the long form of all, also
    /// half a millimetre and a whole one beside.
    fn each_edge_in_metres(&mut self, long: bool) {
        for (scale, facts) in (1..).zip(&SCALES) {
            let (rows, columns) = self.division.grid_size(scale);
            for (east, first, side, last) in [(true, AREA_WEST, facts.width, columns), (false, AREA_NORTH, -facts.height, rows)] {
                for k in 0..=last {
                    let edge = 2 * (first + k as i64 * side * 1000);
                    let beside = if long || k < 2 || k > last - 2 { 2 } else { 0 };
                    for half_millimetres in edge - beside..=edge + beside {
                        for step in -2..=2 {
                            self.ask_one_way(scale, east, metres_of(half_millimetres as i128).wrapping_add_signed(step));
                        }
                    }
                }
            }
        }
    }

    /// All pairs of extremes: 18 beside all that would be 1, and 2 before both.
    fn extremes_in_metres(&mut self) {
        let extremes = extreme_metres();
        for &e in &extremes {
            for &n in &extremes {
                let scale = self.scale();
                self.ask_at_metres(scale, e, n);
            }
        }
    }

    /// A float to the east (or else north), mostly of the area, often a hair beside an edge of a grid.
    fn metres(&mut self, east: bool) -> u64 {
        let (low, high) = if east { (AREA_WEST, AREA_EAST) } else { (AREA_SOUTH, AREA_NORTH) };
        let step = self.chance.from_to(-2, 2);
        match self.chance.below(24) {
            0 => self.chance.of(&extreme_metres()),
            1 => self.chance.next(),
            // A good one with another bit, or with another exponent.
            2 => self.inside(east) ^ (1 << self.chance.below(64)),
            3 => self.inside(east).wrapping_add(1 << (52 + self.chance.below(12))),
            4 => self.inside(east).wrapping_sub(1 << (52 + self.chance.below(12))),
            // On the wrong side of a wrap.
            5 => {
                let far = 1i128 << (32 + self.chance.below(60));
                metres_of(2 * self.chance.from_to(low, high) as i128 + if self.chance.one_in(2) { far } else { -far })
            }
            // Where whole numbers would be taken for metres, or for millimetres.
            6 => (self.coordinate(east) as f64).to_bits(),
            7 => metres_of(2 * self.coordinate(east) as i128),
            8 => metres_of(2 * self.chance.of(&BORDERS) as i128).wrapping_add_signed(step),
            9..=14 => {
                let facts = &SCALES[self.chance.below(9)];
                let side = 1000 * if east { facts.width } else { facts.height };
                let edge = low + self.chance.from_to(0, (high - low) / side) * side;
                metres_of(2 * edge as i128 + self.chance.from_to(-2, 2) as i128).wrapping_add_signed(step)
            }
            15 | 16 => metres_of(2 * self.chance.from_to(low, high) as i128).wrapping_add_signed(step),
            _ => self.inside(east),
        }
    }

    fn about_a_point_in_metres(&mut self) {
        let (e, n) = (self.metres(true), self.metres(false));
        if self.chance.one_in(3) {
            for scale in 1..=9 {
                self.ask_at_metres(scale, e, n);
            }
        } else {
            let scale = self.scale();
            self.ask_at_metres(scale, e, n);
        }
    }

    /// The way back from a sheet's frame: by its upper left corner, by the last point before its lower right one, and by its middle.
    fn ask_back_in_metres(&mut self, sheet: u32) {
        let scale = paper::scale_of(sheet).expect("a sheet");
        let [west, east, south, north, e, n] = self.division.frame_in_metres(sheet).expect("a sheet");
        self.ask(Question::SheetAtMetres { scale, e: west, n: north });
        self.ask(Question::SheetAtMetres { scale, e: east - 1, n: south + 1 });
        self.ask(Question::FrameAtMetres { scale, e, n });
    }

    fn about_a_frame(&mut self) {
        let sheet = self.good_sheet();
        self.ask(Question::Frame { sheet });
        self.ask_back_in_metres(sheet);
    }

    // ---- Relations ----

    fn about_a_child(&mut self) {
        let sheet = self.sheet();
        let own = paper::scale_of(sheet).unwrap_or(3);
        let made = |from: u32| (1..=9).filter(move |&scale| matches!(SCALES[scale - 1].made, Made::Scale(of, _) if of == from));
        let made: Vec<u32> = made(own).map(|scale| scale as u32).collect();
        let scale = if !made.is_empty() && !self.chance.one_in(4) { self.chance.of(&made) } else { self.scale() };
        let parts = match SCALES.get((scale as usize).wrapping_sub(1)).map(|facts| facts.made) {
            Some(Made::Scale(_, side)) => side * side,
            _ => 25,
        };
        let number = match self.chance.below(12) {
            0 => 0,
            1 => 1,
            2 => parts,
            3 => parts + 1,
            4 => self.chance.of(&EXTREME_U32),
            5 => self.chance.any_u32(),
            6 => (1 + self.chance.below(parts as usize) as u32) | (1 << (10 + self.chance.below(22))),
            _ => 1 + self.chance.below(parts as usize) as u32,
        };
        self.ask(Question::Child { sheet, scale, number });
    }

    fn about_a_step(&mut self) {
        let sheet = self.sheet();
        let place = self.division.place(sheet).unwrap_or(paper::Place { scale: 3, row: 5, column: 5 });
        let (rows, columns) = self.division.grid_size(place.scale);
        let chance = &mut self.chance;
        let mut amount = |at: u32, all: u64| {
            let (back, on) = (-(at as i64), all as i64 - 1 - at as i64);
            match chance.below(14) {
                0 => chance.of(&EXTREME_I64),
                1 => chance.any_i64(),
                2 => back - 1,
                3 => back,
                4 => on,
                5 => on + 1,
                6 => chance.from_to(back, on) + (1 << (16 + chance.below(47))),
                7 => chance.from_to(back, on) - (1 << (16 + chance.below(47))),
                8 => chance.from_to(-1, 1),
                // Where a sum of the two wraps, or just does not.
                9 => i64::MAX - at as i64,
                10 => i64::MAX - at as i64 + 1.min(at as i64),
                _ => chance.from_to(back, on),
            }
        };
        let (east, south) = (amount(place.column, columns), amount(place.row, rows));
        self.ask(Question::Step { sheet, east, south });
    }

    fn about_an_offset(&mut self) {
        let a = self.sheet();
        let b = match paper::scale_of(a) {
            Ok(scale) if !self.chance.one_in(6) => self.sheet_of(scale),
            _ => self.sheet(),
        };
        self.ask(Question::Offset { a, b });
    }

    fn about_neighbours(&mut self) {
        let sheet = self.sheet();
        let room = match self.chance.below(8) {
            0 => self.chance.below(9),
            1 => 8,
            2 => 10,
            3 => 10 + self.chance.below(90),
            _ => 9,
        };
        self.ask(Question::Neighbours { sheet, room });
    }

    /// A window of so many columns and rows of a scale, its edges at the sheets' or a little off them, or within a sheet.
    fn window_of(&mut self, scale: u32, columns: i64, rows: i64) -> Frame {
        let facts = &SCALES[scale as usize - 1];
        let (all_rows, all_columns) = self.division.grid_size(scale);
        let (width, height) = (facts.width * 1000, facts.height * 1000);
        let chance = &mut self.chance;
        let column = chance.from_to(0, (all_columns as i64 - columns).max(0));
        let row = chance.from_to(0, (all_rows as i64 - rows).max(0));
        let mut off = |side: i64| match chance.below(10) {
            0 => -1,
            1 => 1,
            2 => chance.from_to(-side, side),
            3 => side - 1,
            4 => 1 - side,
            _ => 0,
        };
        Frame {
            west: AREA_WEST + column * width + off(width),
            east: AREA_WEST + (column + columns) * width + off(width),
            south: AREA_NORTH - (row + rows) * height + off(height),
            north: AREA_NORTH - row * height + off(height),
        }
    }

    fn window(&mut self, scale: u32) -> Frame {
        match self.chance.below(40) {
            // As it comes.
            0 | 1 => Frame {
                west: self.coordinate(true),
                east: self.coordinate(true),
                south: self.coordinate(false),
                north: self.coordinate(false),
            },
            // The whole area, or a little more or less.
            2 => {
                let chance = &mut self.chance;
                let mut off = || if chance.one_in(2) { 0 } else { chance.from_to(-1, 1) };
                Frame { west: AREA_WEST + off(), east: AREA_EAST + off(), south: AREA_SOUTH + off(), north: AREA_NORTH + off() }
            }
            // About as many sheets as may be.
            3 | 4 => {
                let (columns, rows) = self.chance.of(&[
                    (64, 64),
                    (63, 65),
                    (65, 63),
                    (17, 241),
                    (241, 17),
                    (2, 2048),
                    (3, 1365),
                    (1366, 3),
                    (1, 3000),
                    (2000, 2),
                    (2000, 3),
                    (4, 1024),
                    (1024, 4),
                    (60, 60),
                    (128, 32),
                    (31, 132),
                ]);
                self.window_of(scale, columns, rows)
            }
            // One to three millimetres each way, often where sheets meet.
            5..=9 => {
                let (west, south) = (self.coordinate(true), self.coordinate(false));
                let (east, north) = (self.chance.from_to(0, 3), self.chance.from_to(0, 3));
                Frame { west, east: west.saturating_add(east), south, north: south.saturating_add(north) }
            }
            // Edges that meet or cross.
            10 | 11 => {
                let mut window = self.window_of(scale, 2, 2);
                match self.chance.below(4) {
                    0 => window.east = window.west,
                    1 => window.north = window.south,
                    2 => std::mem::swap(&mut window.west, &mut window.east),
                    _ => std::mem::swap(&mut window.south, &mut window.north),
                }
                window
            }
            // An edge that is extreme, or outside by a little.
            12..=14 => {
                let mut window = self.window_of(scale, 2, 2);
                let edge = if self.chance.one_in(2) { self.chance.of(&EXTREME_I64) } else { self.coordinate(true) };
                match self.chance.below(8) {
                    0 => window.west = edge,
                    1 => window.east = edge,
                    2 => window.south = edge,
                    3 => window.north = edge,
                    4 => window.west = AREA_WEST + self.chance.from_to(-1, 0),
                    5 => window.east = AREA_EAST + self.chance.from_to(0, 1),
                    6 => window.south = AREA_SOUTH + self.chance.from_to(-1, 0),
                    _ => window.north = AREA_NORTH + self.chance.from_to(0, 1),
                }
                window
            }
            15 | 16 => {
                let (columns, rows) = (self.chance.from_to(1, 40), self.chance.from_to(1, 40));
                self.window_of(scale, columns, rows)
            }
            _ => {
                let (columns, rows) = (self.chance.from_to(1, 5), self.chance.from_to(1, 5));
                self.window_of(scale, columns, rows)
            }
        }
    }

    fn about_a_cover(&mut self) {
        let scale = self.scale();
        let window = self.window(if (1..=9).contains(&scale) { scale } else { 4 });
        let needed = match self.division.cover(scale, window, 0) {
            Err(Refusal { number: 10, carries: Some(needed) }) => needed as usize,
            _ => 5,
        };
        let room = match self.chance.below(12) {
            0 => 0,
            1 => needed - 1,
            2 => self.chance.below(needed),
            3 => needed + 1,
            4 => needed + self.chance.below(100),
            5 => MOST,
            _ => needed,
        };
        self.ask(Question::Cover { scale, window, room });
    }

    // ---- Labels ----

    fn label_of(&self, sheet: u32) -> Vec<u8> {
        self.division.write_label(sheet, 16).expect("a sheet").text().to_vec()
    }

    fn about_writing_a_label(&mut self) {
        let sheet = self.sheet();
        let needed = self.division.label_length(sheet).unwrap_or(8) as usize;
        let room = match self.chance.below(12) {
            0 => 0,
            1 => needed - 1,
            2 => self.chance.below(needed),
            3 => needed + 1,
            4 => 16,
            5 => 17 + self.chance.below(40),
            _ => needed,
        };
        self.ask(Question::WriteLabel { sheet, room });
    }

    /// Of some labels of each scale: every byte changed to every other, every byte put in at every place, every byte dropped,
    /// every beginning and end.
    fn each_label_damaged(&mut self, times: usize) {
        for _ in 0..times {
            for scale in 1..=9 {
                let sheet = self.sheet_of(scale);
                let good = self.label_of(sheet);
                for place in 0..=good.len() {
                    for byte in 0..=255 {
                        let mut label = good.clone();
                        label.insert(place, byte);
                        self.ask(Question::ReadLabel { label });
                        if place < good.len() {
                            let mut label = good.clone();
                            label[place] = byte;
                            self.ask(Question::ReadLabel { label });
                        }
                    }
                    if place < good.len() {
                        let mut label = good.clone();
                        label.remove(place);
                        self.ask(Question::ReadLabel { label });
                    }
                    self.ask(Question::ReadLabel { label: good[..place].to_vec() });
                    self.ask(Question::ReadLabel { label: good[place..].to_vec() });
                }
            }
        }
    }

    /// Of a label of each scale: every field through all numbers that may be in range and well beyond.
    fn each_field(&mut self) {
        for scale in 1..=9 {
            let sheet = self.sheet_of(scale);
            let good = self.label_of(sheet);
            let fields: Vec<&[u8]> = good.split(|&byte| byte == b'-').collect();
            for place in 0..fields.len() {
                for number in 0..=1100u64 {
                    let text = match number {
                        1001.. => (number - 1001) + (1 << (8 * (1 + number % 4))),
                        _ => number,
                    }
                    .to_string();
                    let mut fields = fields.clone();
                    fields[place] = text.as_bytes();
                    self.ask(Question::ReadLabel { label: fields.join(&b'-') });
                }
            }
        }
    }

    /// All texts of a few bytes over a few letters.
    fn short_texts(&mut self, most: u32) {
        for label in texts(b"-0125/: ", most) {
            self.ask(Question::ReadLabel { label: label.clone() });
            self.ask(Question::ReadLine { line: label });
        }
    }

    /// A label, and for some a line that begins with it.
    fn ask_of_label(&mut self, label: Vec<u8>) {
        if self.chance.one_in(8) {
            let line = [&label, self.chance.of(&TAILS).as_bytes()].concat();
            self.ask(Question::ReadLine { line });
        }
        self.ask(Question::ReadLabel { label });
    }

    /// All texts of a few bytes over a zero, two other digits, a hyphen and what is neither: alone, and behind beginnings of labels.
    fn short_endings(&mut self, most: u32) {
        for beginning in BEGINNINGS {
            for text in texts(b"015-x", most) {
                self.ask_of_label([beginning.as_bytes(), &text].concat());
            }
        }
    }

    /// Of each scale's first label, which is its shortest, and of some others: every slip after every slip, so that faults of all kinds
    /// meet, in either order and as far apart as they can be.
    fn two_slips(&mut self, times: usize) {
        for scale in 1..=9 {
            for time in 0..=times {
                let sheet = if time == 0 { SCALES[scale as usize - 1].first } else { self.sheet_of(scale) };
                for once in damaged(&self.label_of(sheet)) {
                    for twice in damaged(&once) {
                        self.ask_of_label(twice);
                    }
                    self.ask_of_label(once);
                }
            }
        }
    }

    /// Of each scale: every field at both ends of its range and one beyond, and far out, in all ways together.
    fn ends_of_fields(&mut self) {
        for facts in &SCALES {
            let mut labels = vec![facts.mark.to_string()];
            let mut made = facts.made;
            let mut put = |low: u32, high: u32| {
                let numbers = [low - 1, low, high, high + 1, low + 256, 999];
                labels = labels.iter().flat_map(|label| numbers.map(|number| format!("{label}-{number}"))).collect();
            };
            while let Made::Scale(parents, side) = made {
                put(1, side * side);
                made = SCALES[parents as usize - 1].made;
            }
            if let Made::Area(rows, columns) = made {
                put(101, 100 + rows);
                put(1, columns);
            }
            for label in labels {
                self.ask_of_label(label.into_bytes());
            }
        }
    }

    /// Labels of about 16 bytes with two bytes changed, at any places, or one; and labels that are too long by so much that their length
    /// looks right when it loses its upper bits.
    fn about_16_bytes(&mut self) {
        const PAIRS: [&[u8; 2]; 9] = [b"xx", b"x-", b"x0", b"-x", b"--", b"-0", b"0x", b"0-", b"00"];
        for text in ["5-4-4-625-130-20131", "5-1-1-101-101-1-101", "1-1-1-1-1-1-1-1-1-1", "9999999999999999999"] {
            for length in 14..=text.len() {
                for (one, other) in (0..length).flat_map(|one| (one..length).map(move |other| (one, other))) {
                    for pair in PAIRS {
                        let mut label = text.as_bytes()[..length].to_vec();
                        [label[one], label[other]] = *pair;
                        self.ask_of_label(label);
                    }
                }
            }
        }
        for scale in 1..=9 {
            let sheet = self.sheet_of(scale);
            let good = self.label_of(sheet);
            for more in [256, 65_536] {
                for byte in *b"0-x" {
                    self.ask_of_label([&good[..], &vec![byte; more]].concat());
                    self.ask_of_label([&vec![byte; more], &good[..]].concat());
                }
            }
        }
    }

    fn damage_label(&mut self, label: &mut Vec<u8>) {
        const NEAR: &[u8] = b"0123456789-0-/: ,.+";
        let mut fields: Vec<Vec<u8>> = label.split(|&byte| byte == b'-').map(|field| field.to_vec()).collect();
        let chance = &mut self.chance;
        let place = chance.below(label.len() + 1);
        let within = chance.below(label.len().max(1));
        let (one, other) = (chance.below(fields.len()), chance.below(fields.len()));
        match chance.below(16) {
            0 if !label.is_empty() => label[within] = chance.next() as u8,
            1 if !label.is_empty() => label[within] = chance.of(NEAR),
            2 => label.insert(place, chance.next() as u8),
            3 => label.insert(place, chance.of(NEAR)),
            4 if !label.is_empty() => {
                label.remove(within);
            }
            5 => label.truncate(within),
            6 => label.extend(fields[one].clone()),
            7 => {
                let more = 1 + chance.below(8);
                label.extend(chance.bytes(more));
            }
            kind => {
                match kind {
                    8 => fields[one].insert(0, b'0'),
                    9 => fields.swap(one, other),
                    10 => fields[0] = chance.of(&FIRSTS).as_bytes().to_vec(),
                    11 | 12 => fields[one] = chance.of(&FIELDS).as_bytes().to_vec(),
                    13 => fields.insert(one, chance.of(&FIELDS).as_bytes().to_vec()),
                    14 if fields.len() > 1 => {
                        fields.remove(one);
                    }
                    _ => fields[one] = Vec::new(),
                }
                *label = fields.join(&b'-');
            }
        }
    }

    fn label(&mut self) -> Vec<u8> {
        match self.chance.below(10) {
            0 => {
                let length = self.chance.below(20);
                self.chance.bytes(length)
            }
            1 => {
                let length = self.chance.below(19);
                (0..length).map(|_| self.chance.of(b"0123456789-----")).collect()
            }
            // A known first number with its count of fields, or another.
            2 | 3 => {
                let scale = self.chance.of(&SCALES);
                let first = if self.chance.one_in(4) { self.chance.of(&FIRSTS) } else { scale.mark };
                let count = if self.chance.one_in(4) { 1 + self.chance.below(8) } else { scale.fields };
                let mut fields = vec![first];
                while fields.len() < count {
                    fields.push(self.chance.of(&FIELDS));
                }
                fields.join("-").into_bytes()
            }
            4 | 5 => {
                let sheet = self.good_sheet();
                self.label_of(sheet)
            }
            _ => {
                let sheet = self.good_sheet();
                let mut label = self.label_of(sheet);
                for _ in 0..1 + self.chance.below(2) {
                    self.damage_label(&mut label);
                }
                label
            }
        }
    }

    fn about_a_label(&mut self) {
        let label = self.label();
        self.ask(Question::ReadLabel { label });
    }

    // ---- Catalogue lines ----

    fn name(&mut self) -> Vec<u8> {
        let length = match self.chance.below(16) {
            0 => 0,
            1 => 1,
            2 => 2,
            3 => 47,
            4 => 48,
            5 => 49,
            6 => 50 + self.chance.below(10),
            7 if self.chance.one_in(400) => 50 + self.chance.below(100_000),
            7 if self.chance.one_in(20) => 50 + self.chance.below(1_000),
            _ => 1 + self.chance.below(48),
        };
        let chance = &mut self.chance;
        let mut name: Vec<u8> = match chance.below(3) {
            0 => (0..length).map(|_| 33 + chance.below(94) as u8).collect(),
            1 => (0..length).map(|_| chance.of("Crikvenica Šibenik (sjever) Žumberak".as_bytes())).collect(),
            _ => chance.bytes(length).into_iter().map(|byte| if byte < 33 || byte == 127 { byte | 128 } else { byte }).collect(),
        };
        if !name.is_empty() && chance.one_in(3) {
            // A byte that may be wrong, first, last or anywhere.
            let byte = match chance.below(8) {
                0 => 32,
                1 => 31,
                2 => 127,
                3 => 128,
                4 => 126,
                5 => chance.below(33) as u8,
                6 => chance.of(b"\0\t\n\r\x1b\xff"),
                _ => chance.next() as u8,
            };
            let place = match chance.below(4) {
                0 => 0,
                1 => length - 1,
                2 => length.min(48) - 1,
                _ => chance.below(length),
            };
            name[place] = byte;
        }
        name
    }

    fn line(&mut self) -> Vec<u8> {
        let mut line = if self.chance.one_in(5) {
            self.label()
        } else {
            let scale = if self.chance.one_in(5) { 7 + self.chance.below(3) } else { 1 + self.chance.below(6) };
            let sheet = self.sheet_of(scale as u32);
            self.label_of(sheet)
        };
        match self.chance.below(16) {
            0 => {}
            1 => line.push(b' '),
            2 => line.extend(b"  "),
            3 => line.push(b'\r'),
            4 => line.insert(0, b' '),
            5 => {
                line.push(self.chance.of(b"\t\n\r\x0b\xa0,;"));
                line.extend(self.name());
            }
            6 => {
                let length = self.chance.below(120);
                line = self.chance.bytes(length);
            }
            7 => {
                line.push(b' ');
                line.extend(self.name());
                line.push(self.chance.of(b"\r\n "));
            }
            _ => {
                line.push(b' ');
                line.extend(self.name());
            }
        }
        line
    }

    fn about_a_line(&mut self) {
        let line = self.line();
        let length = match self.chance.below(6) {
            0 => 0,
            1 => 1,
            2 => 1_000,
            _ => self.chance.below(60),
        };
        let fallback = self.chance.bytes(length);
        self.ask(Question::ReadLine { line: line.clone() });
        self.ask(Question::LineParts { line: line.clone() });
        self.ask(Question::Caption { line, fallback });
    }

    /// A name of plain letters, of those that are joined, in both spellings, and of what looks like these.
    fn name_of_letters(&mut self) -> Vec<u8> {
        let chance = &mut self.chance;
        let count = match chance.below(12) {
            0 => chance.below(3),
            // About as long as the name of a line may be.
            1 => 16 + chance.below(9),
            2 => chance.below(100),
            _ => 1 + chance.below(10),
        };
        let strange = chance.below(4);
        let mut name = Vec::new();
        for _ in 0..count {
            let (marked, single) = chance.of(&JOINED);
            match chance.below(12) {
                0..=2 => name.extend(marked),
                3..=5 => name.extend(single),
                6..=8 if chance.below(3) < strange => name.extend(chance.of(&NEARLY_JOINED)),
                _ => name.push(chance.of(b"cszCSZdaeikno (")),
            }
        }
        name
    }

    /// The same name with some of its letters spelt the other way, or all, or none.
    fn respelt(&mut self, name: &[u8]) -> Vec<u8> {
        let often = self.chance.below(5);
        let mut other = Vec::new();
        let mut rest = name;
        while let Some((&byte, behind)) = rest.split_first() {
            let mut ways = JOINED.iter().flat_map(|(marked, single)| [(&marked[..], &single[..]), (&single[..], &marked[..])]);
            match ways.find(|(from, _)| rest.starts_with(from)) {
                Some((from, to)) if self.chance.below(4) < often => {
                    other.extend(to);
                    rest = &rest[from.len()..];
                }
                _ => {
                    other.push(byte);
                    rest = behind;
                }
            }
        }
        other
    }

    /// Puts a slip into a name, or makes it another; in one case of three it stays.
    fn misspell(&mut self, name: &mut Vec<u8>) {
        let end = name.len();
        let place = self.chance.below(end.max(1));
        match self.chance.below(16) {
            0 => name.push(self.chance.next() as u8),
            1 => name.extend(self.chance.of(&NEARLY_JOINED)),
            2 => name.truncate(end.saturating_sub(1 + self.chance.below(3))),
            3 => drop(name.splice(place..place, self.chance.of(&NEARLY_JOINED).iter().copied())),
            4 => *name = self.name(),
            5 | 6 if end > 0 => name[place] ^= 1 << self.chance.below(8),
            7 | 8 if end > 0 => name[place] = self.chance.of(BYTES_OF_NAMES),
            9 if end > 0 => name[end - 1] = name[end - 1].wrapping_add(1),
            10 if end > 0 => drop(name.remove(place)),
            _ => {}
        }
    }

    fn about_names(&mut self) {
        let a = if self.chance.one_in(3) { self.name() } else { self.name_of_letters() };
        let mut b = self.respelt(&a);
        self.misspell(&mut b);
        let (a, b) = if self.chance.one_in(2) { (a, b) } else { (b, a) };
        self.ask(Question::SameName { a, b });
    }

    /// Every pair of a name of up to three bytes and one of up to so many, in either order.
    fn short_names(&mut self, most: u32) {
        for one in texts(BYTES_OF_NAMES, 3) {
            for other in texts(BYTES_OF_NAMES, most) {
                self.ask(Question::SameName { a: one.clone(), b: other.clone() });
                if other.len() > 3 {
                    self.ask(Question::SameName { a: other, b: one.clone() });
                }
            }
        }
    }

    /// Every name of a few bytes with what it is joined into, whole and without each of its bytes, in either order.
    fn short_names_joined(&mut self, most: u32) {
        for one in texts(BYTES_OF_NAMES, most) {
            let whole = paper::joined(&one);
            for dropped in 0..=whole.len() {
                let mut other = whole.clone();
                if dropped < whole.len() {
                    other.remove(dropped);
                }
                self.ask(Question::SameName { a: one.clone(), b: other.clone() });
                self.ask(Question::SameName { a: other, b: one.clone() });
            }
        }
    }

    // ---- Official names ----

    /// The sheets of scale 1, in room of each length up to so many bytes; the ends of all scales, numbers that are no sheet, and those that
    /// are a sheet of scale 1 when they lose their upper bits.
    fn official_sheets(&mut self, most: usize) {
        for sheet in OF_SCALE_1 {
            for room in 0..=most {
                self.ask(Question::OfficialName { sheet, room });
            }
        }
        let ends = SCALES.iter().flat_map(|facts| [facts.first, facts.first + 1, facts.first + facts.sheets - 1]);
        let beyond = OF_SCALE_1.flat_map(|sheet| (5..32).map(move |bit| sheet | 1 << bit));
        for sheet in ends.chain(EXTREME_U32).chain(beyond) {
            for room in [0, 1, 20] {
                self.ask(Question::OfficialName { sheet, room });
            }
        }
    }

    /// What is said of a line with a name.
    fn ask_to_check(&mut self, label: &[u8], name: &[u8]) {
        self.ask(Question::OfficialCheck { line: [label, b" ", name].concat() });
    }

    /// The sheet of a name, and what is said of the name in a line of each of some sheets.
    fn ask_of_name(&mut self, name: &[u8], sheets: impl IntoIterator<Item = u32>) {
        self.ask(Question::OfficialSheet { name: name.to_vec() });
        for sheet in sheets {
            self.ask_to_check(&self.label_of(sheet), name);
        }
    }

    /// A sheet, and any of scale 1.
    fn with_another(&mut self, sheet: u32) -> [u32; 2] {
        [sheet, self.chance.below(OF_SCALE_1.len()) as u32]
    }

    /// Every official name in its spellings, with every slip, and every name that is none, at each sheet of scale 1; at its own sheet and
    /// at another one also with letters and marks that it does not have, and with more behind it.
    fn official_names(&mut self, long: bool) {
        let bytes: Vec<u8> = if long { (0..=255).collect() } else { FEW_BYTES.to_vec() };
        for (label, name) in OFFICIAL {
            let own = self.division.read_label(label.as_bytes()).expect("a sheet");
            for name in spellings(name) {
                self.ask_of_name(name.as_bytes(), OF_SCALE_1);
                for other in misspelt(name.as_bytes(), &bytes) {
                    self.ask_of_name(&other, OF_SCALE_1);
                }
                for other in with_marks(&name) {
                    let sheets = self.with_another(own);
                    self.ask_of_name(&other, sheets);
                }
                // Each letter that has C4 or C5 for its first byte, in place of the one that has, or of the mark.
                for (place, _) in name.char_indices().filter(|(_, letter)| !letter.is_ascii()) {
                    for letter in '\u{100}'..='\u{17F}' {
                        let other = [&name[..place], &letter.to_string(), &name[place + 2..]].concat();
                        let sheets = self.with_another(own);
                        self.ask_of_name(other.as_bytes(), sheets);
                    }
                }
                for other in [name.to_lowercase(), name.to_uppercase()] {
                    self.ask_of_name(other.as_bytes(), [own]);
                }
                // Filled up to 8, 16 and 48 bytes, beyond what a line may have, and by so much that the length looks right when it loses
                // its upper bits.
                for byte in *b"\0 x\xCC" {
                    for end in [8, 16, 48, name.len() + 40, name.len() + 256] {
                        let mut other = name.clone().into_bytes();
                        other.resize(end.max(name.len() + 1), byte);
                        let sheets = self.with_another(own);
                        self.ask_of_name(&other, sheets);
                    }
                }
            }
        }
        for name in OTHER_NAMES.into_iter().flat_map(spellings) {
            self.ask_of_name(name.as_bytes(), OF_SCALE_1);
        }
        for more in [65_536, 131_072] {
            self.ask_of_name(&[b"Vis", &vec![0; more][..]].concat(), [17]);
        }
    }

    /// All names of a few bytes over those of Vis and of a mark.
    fn nearly_vis(&mut self, most: u32) {
        for name in texts(b"Vis\xCC\x8C", most) {
            let sheets = self.with_another(17);
            self.ask_of_name(&name, sheets);
        }
    }

    /// Lines without a name, with one, and with a bad one, at sheets of all scales and behind labels that are damaged.
    fn official_lines(&mut self) {
        for sheet in OF_SCALE_1 {
            let label = self.label_of(sheet);
            let own = self.division.official_name(sheet, MOST).expect("of scale 1").unwrap_or("Zagreb");
            for tail in TAILS {
                self.ask(Question::OfficialCheck { line: [&label, tail.as_bytes()].concat() });
            }
            for byte in 0..=255 {
                self.ask_to_check(&label, &[own.as_bytes(), &[byte]].concat());
                self.ask_to_check(&label, &[&[byte], own.as_bytes()].concat());
                self.ask(Question::OfficialCheck { line: [&label, &[byte][..], own.as_bytes()].concat() });
            }
            for label in damaged(&label) {
                self.ask_to_check(&label, own.as_bytes());
                self.ask_to_check(&label, &[own.as_bytes(), b" "].concat());
                self.ask(Question::OfficialCheck { line: label });
            }
            for first in NEARLY_250 {
                let label = [first.as_bytes(), &label[3..]].concat();
                self.ask_to_check(&label, own.as_bytes());
                self.ask(Question::OfficialCheck { line: label });
            }
        }
        for (row, column) in FIELDS.iter().flat_map(|row| FIELDS.map(|column| (row, column))) {
            let (_, name) = self.chance.of(&OFFICIAL);
            self.ask_to_check(format!("250-{row}-{column}").as_bytes(), name.as_bytes());
        }
        for (scale, facts) in (2..).zip(&SCALES[1..]) {
            for sheet in [facts.first, facts.first + facts.sheets - 1, self.sheet_of(scale), self.sheet_of(scale)] {
                let label = self.label_of(sheet);
                for tail in TAILS {
                    self.ask(Question::OfficialCheck { line: [&label, tail.as_bytes()].concat() });
                }
                for (_, name) in OFFICIAL {
                    self.ask_to_check(&label, name.as_bytes());
                    self.ask_to_check(&label, &[name.as_bytes(), b" "].concat());
                }
            }
        }
    }

    fn about_official_names(&mut self) {
        let sheet = if self.chance.one_in(4) { self.sheet() } else { self.chance.below(OF_SCALE_1.len()) as u32 };
        let needed = match self.division.official_name(sheet, 0) {
            Err(Refusal { number: 10, carries: Some(needed) }) => needed as usize,
            _ => 8,
        };
        let room = match self.chance.below(10) {
            0 => 0,
            1 => needed - 1,
            2 => self.chance.below(needed),
            3 => needed + 1,
            4 => needed + self.chance.below(60),
            _ => needed,
        };
        self.ask(Question::OfficialName { sheet, room });
        let (label, name) = self.chance.of(&OFFICIAL);
        let mut label = label.as_bytes().to_vec();
        let mut name = match self.chance.below(8) {
            0 => self.chance.of(&OTHER_NAMES).as_bytes().to_vec(),
            1 => self.name_of_letters(),
            _ => self.respelt(name.as_bytes()),
        };
        if self.chance.one_in(3) {
            self.misspell(&mut name);
        }
        match self.chance.below(12) {
            0 => label = self.label(),
            1 => self.damage_label(&mut label),
            2 => {
                let sheet = self.good_sheet();
                label = self.label_of(sheet);
            }
            3..=5 => {
                let sheet = self.chance.below(OF_SCALE_1.len()) as u32;
                label = self.label_of(sheet);
            }
            _ => {}
        }
        match self.chance.below(12) {
            0 => self.ask(Question::OfficialCheck { line: label }),
            1 => {
                let line = self.line();
                self.ask(Question::OfficialCheck { line });
            }
            _ => self.ask_to_check(&label, &name),
        }
        self.ask(Question::OfficialSheet { name });
    }

    // ---- Local numbers ----

    fn ask_to_sheet(&mut self, municipality: &[u32], n: u32, a: u32, b: u32) {
        self.ask(Question::LocalToSheet { municipality: municipality.to_vec(), n, a, b });
    }

    fn ask_to_local(&mut self, municipality: &[u32], sheet: u32) {
        self.ask(Question::SheetToLocal { municipality: municipality.to_vec(), sheet });
    }

    /// The part of a 1:2 000 sheet with these numbers at scales 8 and 9, absent ones 0; none where it has none, or is no such sheet.
    fn part(&self, sheet: u32, a: u32, b: u32) -> Option<u32> {
        self.division.local_to_sheet(&[sheet], 1, a, b).ok()
    }

    /// No part, one at scale 8 and one at scale 9.
    fn any_parts(&mut self) -> [(u32, u32); 3] {
        let [a, b, c] = [(); 3].map(|()| 1 + self.chance.below(4) as u32);
        [(0, 0), (a, 0), (b, c)]
    }

    /// The 1:2 000 sheets of so many rows and columns of the whole grid, from a row and a column on, as far as it goes.
    fn block(&self, row: u64, column: u64, rows: u64, columns: u64) -> Vec<u32> {
        let places = (row..row + rows).flat_map(|row| (column..column + columns).map(move |column| (row, column)));
        let sheet = |(row, column): (u64, u64)| self.division.sheet_on(7, row as i128, column as i128).ok();
        places.filter_map(sheet).collect::<BTreeSet<u32>>().into_iter().collect()
    }

    /// A municipality of so many sheets, close together or with holes, in one row or column, in two rows, or all over the grid; often at
    /// the grid's border or across that of a 1:50 000 sheet.
    fn municipality(&mut self, count: usize) -> Vec<u32> {
        let all = self.division.grid_size(7);
        let chance = &mut self.chance;
        let many = count as u64;
        let side = 1 + (many as f64).sqrt() as u64;
        let mut sides = match chance.below(8) {
            0 => (1, many),
            1 => (many, 1),
            2 => (2, many),
            3 => all,
            4 => (side, side),
            _ => (side + chance.below(side as usize) as u64, side + chance.below(side as usize) as u64),
        };
        if sides.0 > all.0 || sides.1 > all.1 {
            sides = all;
        }
        let mut from = |side: u64, all: u64| {
            let last = all - side;
            match chance.below(6) {
                0 => 0,
                1 => last,
                2..=3 => {
                    let border = SIDE_OF_SCALE_7 * (1 + chance.below((all / SIDE_OF_SCALE_7) as usize - 1) as u64);
                    border.saturating_sub(1 + chance.below(side as usize) as u64).min(last)
                }
                _ => chance.below(last as usize + 1) as u64,
            }
        };
        let (row, column) = (from(sides.0, all.0), from(sides.1, all.1));
        let mut sheets = BTreeSet::new();
        while sheets.len() < count {
            let down = self.chance.below(sides.0 as usize) as u64;
            let right = self.chance.below(sides.1 as usize) as u64;
            sheets.extend(self.division.sheet_on(7, (row + down) as i128, (column + right) as i128));
        }
        sheets.into_iter().collect()
    }

    /// Every sheet of a municipality in both directions, by itself or by parts.
    fn ask_each_local(&mut self, municipality: &[u32], parts: Parts) {
        for (n, &sheet) in (1..).zip(municipality) {
            let numbers = match parts {
                Parts::All => (0..25).map(|k| (k / 5, k % 5)).collect(),
                Parts::OneOfEach => self.any_parts().to_vec(),
                Parts::One => vec![self.any_parts()[self.chance.below(3)]],
            };
            for (a, b) in numbers {
                self.ask_to_sheet(municipality, n, a, b);
                if let Some(part) = self.part(sheet, a, b) {
                    self.ask_to_local(municipality, part);
                }
            }
        }
    }

    /// What lies about a sheet of a municipality, and mostly outside: its neighbours and parts of these; the sheets of scales 1 to 6 at its
    /// corner; those of each scale that have its place in the scale's own order; and numbers that are the sheet when they lose their
    /// upper bits.
    fn ask_about_local(&mut self, municipality: &[u32], sheet: u32) {
        for near in self.division.neighbours(sheet).concat().into_iter().flatten() {
            for (a, b) in self.any_parts() {
                let part = self.part(near, a, b).expect("a part");
                self.ask_to_local(municipality, part);
            }
        }
        let corner = self.division.frame(sheet).expect("a sheet");
        for scale in 1..=6 {
            let whole = self.division.sheet_of_point(scale, corner.west, corner.north).expect("a sheet");
            self.ask_to_local(municipality, whole);
        }
        for facts in &SCALES {
            self.ask_to_local(municipality, facts.first + (sheet - OF_SCALE_7.first) % facts.sheets);
        }
        for bit in 19..32 {
            self.ask_to_local(municipality, sheet | 1 << bit);
        }
    }

    /// Local numbers beside good ones: each of the three at its borders, far out, and so that it is a good one when it loses its upper
    /// bits.
    fn ask_beside_local(&mut self, municipality: &[u32]) {
        let count = municipality.len() as u32;
        let far = |good: usize| EXTREME_U32.into_iter().chain((3..32).map(move |bit| good as u32 | 1 << bit));
        let good = 1 + self.chance.below(municipality.len());
        for n in [0, 1, count - 1, count, count + 1, count + 2, 399, 400, 401].into_iter().chain(far(good)) {
            for (a, b) in [(0, 0), (4, 0), (1, 4), (0, 1), (5, 0)] {
                self.ask_to_sheet(municipality, n, a, b);
            }
        }
        for part in (0..=6).chain(far(1 + self.chance.below(4))) {
            for other in [0, 1, 4, 5] {
                self.ask_to_sheet(municipality, good as u32, part, other);
                self.ask_to_sheet(municipality, good as u32, other, part);
            }
        }
    }

    /// All lists of up to so many numbers over a few, so that every kind of fault stands at every place, alone, beside others and before
    /// others, with what is asked good or not.
    fn short_municipalities(&mut self, most: u32) {
        let places: Vec<u8> = (0..OF_MUNICIPALITIES.len() as u8).collect();
        for list in texts(&places, most) {
            let municipality: Vec<u32> = list.iter().map(|&place| OF_MUNICIPALITIES[place as usize]).collect();
            self.ask_to_sheet(&municipality, 1, 0, 0);
            let [n, a, b] = [list.len() + 2, 6, 6].map(|end| self.chance.below(end) as u32);
            self.ask_to_sheet(&municipality, n, a, b);
            for (a, b) in [(0, 0), self.any_parts()[self.chance.below(3)]] {
                let sheet = self.chance.of(&OF_MUNICIPALITIES);
                self.ask_to_local(&municipality, self.part(sheet, a, b).unwrap_or(sheet));
            }
        }
    }

    /// Municipalities of all shapes. Of small ones every sheet and all its parts, with all that is asked beside; of large ones every sheet,
    /// in the long form with its parts.
    fn each_shape(&mut self, long: bool) {
        let (rows, columns) = self.division.grid_size(7);
        let (first, last) = (OF_SCALE_7.first, OF_SCALE_7.first + OF_SCALE_7.sheets - 1);
        let shapes = [
            // The corners of the grid; the first and the last sheet of the scale are there.
            (0, 0, 1, 1),
            (0, columns - 3, 2, 3),
            (rows - 2, 0, 2, 3),
            (rows - 1, columns - 1, 1, 1),
            // Within a 1:50 000 sheet, across two from west to east and from north to south, and where four of them meet.
            (5, 5, 3, 4),
            (30, 24, 1, 2),
            (30, 23, 4, 3),
            (24, 30, 2, 1),
            (23, 30, 3, 4),
            (24, 24, 2, 2),
            (373, 248, 4, 4),
        ];
        let mut small: Vec<Vec<u32>> = shapes.iter().map(|&(row, column, rows, columns)| self.block(row, column, rows, columns)).collect();
        small.extend([1, 2, 2, 3, 5, 8, 15, 16, 17].map(|count| self.municipality(count)));
        small.push(vec![first, last]);
        for municipality in small {
            self.ask_each_local(&municipality, Parts::All);
            self.ask_beside_local(&municipality);
            for &sheet in &municipality {
                self.ask_about_local(&municipality, sheet);
            }
        }
        let mut large = vec![
            self.block(90, 90, 20, 20),
            self.block(rows - 400, columns - 1, 400, 1),
            self.block(20, 60, 1, 399),
            (first..first + 400).collect(),
            (last - 398..=last).collect(),
            (first..=last).step_by(937).take(400).collect(),
        ];
        for _ in 0..if long { 20 } else { 2 } {
            let count = 399 + self.chance.below(2);
            large.push(self.municipality(count));
        }
        for municipality in large {
            self.ask_each_local(&municipality, if long { Parts::All } else { Parts::One });
            self.ask_beside_local(&municipality);
            for _ in 0..if long { 40 } else { 4 } {
                let sheet = self.chance.of(&municipality);
                self.ask_about_local(&municipality, sheet);
            }
        }
    }

    /// Municipalities of about the most sheets and of far too many, good and with each kind of fault at either end and in the middle,
    /// alone and with another one behind it.
    fn long_municipalities(&mut self) {
        for count in [398, 399, 400, 401, 402, 513, 4_096] {
            let good = self.municipality(count);
            for place in [0, 1, 2, count / 2, count - 2, count - 1] {
                let before = if place > 0 { good[place - 1] } else { good[1] };
                let behind = if place + 1 < count { good[place + 1] } else { good[0] };
                for number in [good[place], before, before - 1, behind].into_iter().chain(OF_MUNICIPALITIES) {
                    let mut municipality = good.clone();
                    municipality[place] = number;
                    if self.chance.one_in(2) {
                        let later = place + self.chance.below(count - place);
                        municipality[later] = self.chance.of(&OF_MUNICIPALITIES);
                    }
                    let n = self.chance.of(&[0, 1, count as u32, count as u32 + 1, u32::MAX]);
                    self.ask_to_sheet(&municipality, n, 0, 0);
                    self.ask_to_local(&municipality, good[place]);
                    let sheet = self.sheet();
                    self.ask_to_local(&municipality, sheet);
                }
            }
        }
    }

    /// Every 1:2 000 sheet there is, with a part of it at each scale, in municipalities of seven rows and six columns side by side.
    fn each_local_number(&mut self) {
        let (rows, columns) = self.division.grid_size(7);
        for row in (0..rows).step_by(7) {
            for column in (0..columns).step_by(6) {
                let municipality = self.block(row, column, 7, 6);
                self.ask_each_local(&municipality, Parts::OneOfEach);
            }
        }
    }

    fn about_a_municipality(&mut self) {
        let count = match self.chance.below(60) {
            0 => MOST_OF_MUNICIPALITY - 3 + self.chance.below(6),
            1 => self.chance.below(MOST_OF_MUNICIPALITY),
            2 => 0,
            3..=8 => 17 + self.chance.below(80),
            _ => 1 + self.chance.below(16),
        };
        let mut municipality = self.municipality(count);
        if count > 0 && self.chance.one_in(4) {
            self.put_faults(&mut municipality);
        }
        for _ in 0..3 {
            let n = match self.chance.below(12) {
                0 => 0,
                1 => count as u32 + 1,
                2 => self.chance.of(&EXTREME_U32),
                3 => self.chance.any_u32(),
                _ => 1 + self.chance.below(count.max(1)) as u32,
            };
            let [a, b] = [(); 2].map(|()| match self.chance.below(10) {
                0 => 5,
                1 => self.chance.of(&EXTREME_U32),
                2 => self.chance.any_u32(),
                3..=4 => 0,
                _ => 1 + self.chance.below(4) as u32,
            });
            self.ask_to_sheet(&municipality, n, a, b);
            let sheet = match self.chance.below(12) {
                _ if municipality.is_empty() => self.sheet(),
                0 => self.sheet(),
                1 => self.sheet_of(7),
                2 => self.chance.of(&municipality).wrapping_add(1),
                3 => self.chance.of(&municipality).wrapping_sub(1),
                _ => self.chance.of(&municipality),
            };
            let (a, b) = self.any_parts()[self.chance.below(3)];
            self.ask_to_local(&municipality, self.part(sheet, a, b).unwrap_or(sheet));
        }
    }

    // ---- Shelf lists ----

    /// A rising set of about so many numbers up to a last one, by gaps; the gaps are of each length in bytes.
    fn rising(&mut self, count: usize, last: u32) -> Vec<u32> {
        let mut numbers = Vec::with_capacity(count);
        let wide = self.chance.below(4);
        let mut next: u64 = if self.chance.one_in(2) { 0 } else { self.chance.below(last as usize) as u64 };
        if count > 100 {
            next %= 100_000;
        }
        while numbers.len() < count {
            let gap = match (wide, self.chance.below(20)) {
                (_, 0) => self.chance.of(&[0, 1, 126, 127, 128, 129]),
                (_, 1) if count < 1000 => self.chance.of(&[16_382, 16_383, 16_384, 16_385]),
                (_, 2) if count < 20 => self.chance.of(&[2_097_150, 2_097_151, 2_097_152, 2_097_153]),
                (0, _) => 0,
                (1, _) => self.chance.below(200) as u64,
                (2, _) => self.chance.below(3 * last as usize / 2 / count) as u64,
                _ => self.chance.below(20) as u64,
            };
            if next + gap > last as u64 {
                break;
            }
            numbers.push((next + gap) as u32);
            next += gap + 1;
        }
        if self.chance.one_in(12) && numbers.len() < MOST && numbers.last() != Some(&last) {
            numbers.push(last);
        }
        numbers
    }

    fn count_of_set(&mut self) -> usize {
        match self.chance.below(60) {
            0 => 0,
            1 => 4_094 + self.chance.below(6),
            2 => self.chance.below(5_000),
            3 => 100 + self.chance.below(400),
            4 => 126 + self.chance.below(5),
            _ => 1 + self.chance.below(12),
        }
    }

    fn set(&mut self) -> Vec<u32> {
        let count = self.count_of_set();
        let mut sheets = self.rising(count, LAST_SHEET);
        if !sheets.is_empty() && self.chance.one_in(3) {
            self.put_faults(&mut sheets);
        }
        sheets
    }

    /// One fault or two, of a kind each.
    fn put_faults(&mut self, sheets: &mut Vec<u32>) {
        for _ in 0..1 + self.chance.below(2) {
            let place = self.chance.below(sheets.len());
            match self.chance.below(9) {
                0 => sheets[place] = LAST_SHEET + 1,
                1 => sheets[place] = self.chance.of(&EXTREME_U32),
                2 => sheets[place] = self.chance.any_u32(),
                3 if place > 0 => sheets[place] = sheets[place - 1],
                4 if place > 0 => sheets.swap(place, place - 1),
                5 if place > 0 => sheets[place] = sheets[place - 1].wrapping_sub(1),
                6 => sheets[place] = sheets[place].wrapping_add(1),
                7 => sheets[place] = self.good_sheet(),
                _ => sheets.push(self.chance.of(&[LAST_SHEET, LAST_SHEET + 1, u32::MAX, 0])),
            }
        }
    }

    fn about_a_set(&mut self) {
        let sheets = self.set();
        self.ask_of_set(sheets);
    }

    /// Room for the bytes of a list that has so many, or would have some.
    fn room_to_write(&mut self, length: Answer<usize>) -> usize {
        let needed = length.unwrap_or(20);
        match self.chance.below(10) {
            0 => 0,
            1 => needed - 1,
            2 => self.chance.below(needed),
            3 => needed + 1,
            4 => needed + self.chance.below(60),
            _ => needed,
        }
    }

    fn ask_of_set(&mut self, sheets: Vec<u32>) {
        let room = self.room_to_write(self.division.list_length(&sheets));
        self.ask(Question::ListLength { sheets: sheets.clone() });
        self.ask(Question::WriteList { sheets, room });
    }

    /// Sets of about the most sheets, good and faulty at either end.
    fn long_sets(&mut self) {
        for count in [4_094, 4_095, 4_096, 4_097, 4_098, 8_192] {
            for fault in 0..6 {
                let first = self.chance.below(1000) as u32;
                let step = 1 + self.chance.below(900) as u32;
                let mut sheets: Vec<u32> = (0..count).map(|k| first + k * step).collect();
                match fault {
                    1 => sheets[0] = u32::MAX,
                    2 => sheets[count as usize - 1] = LAST_SHEET + 1,
                    3 => sheets[1] = sheets[0],
                    4 => sheets[count as usize - 1] = sheets[count as usize - 2],
                    5 => sheets[count as usize - 1] = LAST_SHEET,
                    _ => {}
                }
                self.ask_of_set(sheets.clone());
                if let Ok(list) = self.division.write_list(&sheets, usize::MAX) {
                    for room in [0, sheets.len() - 1, sheets.len(), sheets.len() + 1, 4_096, 5_000] {
                        self.ask(Question::ReadList { list: list.clone(), room });
                        let cut = self.chance.below(list.len());
                        self.ask(Question::ReadList { list: list[..cut].to_vec(), room });
                        let mut more = list.clone();
                        more.push(self.chance.next() as u8);
                        self.ask(Question::ReadList { list: more, room });
                    }
                }
            }
        }
    }

    /// All lists of up to three bytes over a few, and of up to five over fewer, mostly with room enough.
    fn short_lists(&mut self) {
        const MANY: &[u8] = &[0, 1, 2, 3, 4, 31, 32, 33, 64, 127, 128, 129, 130, 131, 160, 255];
        const FEW: &[u8] = &[0, 1, 2, 127, 128, 129, 255];
        for list in texts(MANY, 3).chain(texts(FEW, 5)) {
            let room = if self.chance.one_in(4) { self.chance.below(4) } else { 200 };
            self.ask(Question::ReadList { list, room });
        }
    }

    /// A number as a list has it, or in more groups than needed.
    fn put_number(&mut self, list: &mut Vec<u8>, number: u32) {
        let mut groups = paper::groups(number);
        if self.chance.one_in(30) {
            groups += 1 + self.chance.below(2);
        }
        list.extend(in_groups(number, groups));
    }

    /// The list of about so many sheets or holdings.
    fn good_list(&mut self, kind: Kind, count: usize) -> Vec<u8> {
        let list = match kind {
            Kind::Old => self.division.write_list(&self.rising(count, LAST_SHEET), usize::MAX),
            Kind::New => self.division.write_holdings(&self.rising_holdings(count), usize::MAX),
        };
        list.expect("a set")
    }

    fn list(&mut self, kind: Kind) -> Vec<u8> {
        if self.chance.one_in(3) {
            // By numbers: a count, right or not, and entries that may run past the last one.
            let count = self.chance.below(6);
            let told = match self.chance.below(12) {
                0 => kind.more() + count as u32 + 1,
                1 => kind.more() + count.saturating_sub(1) as u32,
                2 => self.chance.of(&FIRST_NUMBERS),
                _ => kind.more() + count as u32,
            };
            let mut list = Vec::new();
            self.put_number(&mut list, told);
            let mut next = 0u32;
            for _ in 0..count {
                let number = match self.chance.below(10) {
                    0 => kind.last().wrapping_sub(next),
                    1 => kind.last().wrapping_sub(next).wrapping_add(1),
                    2 => self.chance.any_u32(),
                    3 => (1 << 28) - 1,
                    4 => self.chance.of(&[127, 128, 16_383, 16_384, 2_097_151, 2_097_152]),
                    _ => self.chance.any_u32() % 100_000,
                };
                self.put_number(&mut list, number);
                next = next.wrapping_add(number).wrapping_add(1);
            }
            return list;
        }
        if self.chance.one_in(8) {
            let length = self.chance.below(16);
            let mut list = self.chance.bytes(length);
            if length > 0 && self.chance.one_in(2) {
                list[0] %= 8;
            }
            return list;
        }
        let count = match self.chance.below(60) {
            0 => 4_095 + self.chance.below(2),
            1 => self.chance.below(4_097),
            2 => 120 + self.chance.below(20),
            3 => 0,
            _ => 1 + self.chance.below(10),
        };
        let mut list = self.good_list(kind, count);
        let place = self.chance.below(list.len());
        match self.chance.below(12) {
            0 | 1 => list.truncate(place),
            2 => list[place] = self.chance.next() as u8,
            3 => list[place] ^= 128,
            4 => list.insert(place, self.chance.next() as u8),
            5 => {
                list.remove(place);
            }
            6 => list.push(self.chance.of(&[0, 1, 127, 128, 255])),
            7 => list[place] = self.chance.of(&[0, 128, 255, 127]),
            _ => {}
        }
        list
    }

    /// Room for what a list has, by what its reader has said of it with none.
    fn room_to_read(&mut self, (_, said): (Vec<u32>, Answer<()>)) -> usize {
        let told = match said {
            Err(Refusal { number: 10, carries: Some(needed) }) => needed as usize,
            _ => 2,
        };
        match self.chance.below(10) {
            0 => 0,
            1 => told - 1,
            2 => self.chance.below(told),
            3 => told + 1,
            4 => told + self.chance.below(50),
            5 => MOST,
            _ => told,
        }
    }

    fn about_a_list(&mut self) {
        let list = self.list(Kind::Old);
        let room = self.room_to_read(self.division.read_list(&list, 0));
        self.ask(Question::ReadList { list, room });
    }

    // ---- Holdings ----

    /// Each product and beyond at the first and the last sheet of each scale, beside them and at numbers that are no sheet, with some whose
    /// triple is small in 32 bits; and the numbers about all these.
    fn ends_of_products(&mut self) {
        let ends = SCALES.iter().flat_map(|facts| [facts.first, facts.first + facts.sheets]);
        let near = ends.flat_map(|end| end.saturating_sub(2)..=end + 1);
        let far = EXTREME_U32.into_iter().chain([u32::MAX / 3, u32::MAX / 3 + 1, u32::MAX / 3 * 2, u32::MAX / 3 * 2 + 1]);
        for sheet in near.chain(far).collect::<BTreeSet<u32>>() {
            let triple = sheet.wrapping_mul(3);
            // Products that are small when they lose their upper bits, and those that make up for the sheet.
            let wide = (2..32).map(|bit| 1 << bit | bit % 3).chain((0..3).map(|k| triple.wrapping_neg().wrapping_add(k)));
            for product in (0..5).chain(EXTREME_U32).chain(wide) {
                self.ask(Question::Holding { sheet, product });
            }
            for far in 0..9 {
                self.ask(Question::HoldingParts { holding: triple.wrapping_add(far).wrapping_sub(3) });
            }
            for bit in 24..32 {
                self.ask(Question::HoldingParts { holding: triple ^ 1 << bit });
            }
        }
        for holding in EXTREME_U32 {
            self.ask(Question::HoldingParts { holding });
        }
    }

    fn about_a_holding(&mut self) {
        let product = match self.chance.below(12) {
            0 => self.chance.of(&EXTREME_U32),
            1 => self.chance.any_u32(),
            _ => self.chance.below(4) as u32,
        };
        let sheet = self.sheet();
        self.ask(Question::Holding { sheet, product });
        let holding = match self.chance.below(6) {
            0 => self.chance.any_u32(),
            1 => LAST_HOLDING - 4 + self.chance.below(9) as u32,
            2 => self.chance.below(LAST_HOLDING as usize + 1) as u32,
            _ => self.sheet().wrapping_mul(3).wrapping_add(self.chance.below(3) as u32),
        };
        self.ask(Question::HoldingParts { holding });
    }

    /// A rising set of about so many holdings, by gaps, or of some or all products of sheets that follow one another or lie just so far
    /// apart that a gap takes a byte more.
    fn rising_holdings(&mut self, count: usize) -> Vec<u32> {
        if self.chance.one_in(2) {
            // A second product that is not had becomes the first.
            let had = |number: u32| if paper::holding_parts(number).is_ok() { number } else { number - 1 };
            let mut holdings: Vec<u32> = self.rising(count, LAST_HOLDING).into_iter().map(had).collect();
            holdings.dedup();
            return holdings;
        }
        let first = self.good_sheet();
        let step = self.chance.of(&[1, 1, 1, 2, 42, 43, 44, 5_461, 5_462]);
        let mut holdings = holdings_from(first, step, 2 * count);
        if self.chance.one_in(2) {
            holdings.retain(|_| self.chance.one_in(2));
        }
        holdings.truncate(count);
        holdings
    }

    /// One fault or two, of a kind each, which may meet at one place.
    fn put_faults_of_holdings(&mut self, holdings: &mut Vec<u32>) {
        for _ in 0..1 + self.chance.below(2) {
            let place = self.chance.below(holdings.len());
            match self.chance.below(9) {
                0 => holdings[place] = self.chance.of(&OF_HOLDINGS),
                1 => holdings[place] = self.chance.of(&EXTREME_U32),
                2 => holdings[place] = LAST_HOLDING + self.chance.below(2) as u32,
                3 if place > 0 => holdings[place] = holdings[place - 1],
                4 if place > 0 => holdings.swap(place, place - 1),
                5 if place > 0 => holdings[place] = holdings[place - 1].wrapping_sub(1),
                6 => holdings[place] = 3 * self.good_sheet() + 2,
                7 => holdings.push(self.chance.of(&OF_HOLDINGS)),
                _ => holdings[place] = holdings[place] / 3 * 3 + 2,
            }
        }
    }

    fn ask_of_holdings(&mut self, holdings: Vec<u32>) {
        let room = self.room_to_write(self.division.holdings_length(&holdings));
        self.ask(Question::HoldingsLength { holdings: holdings.clone() });
        self.ask(Question::WriteHoldings { holdings, room });
    }

    fn about_holdings(&mut self) {
        let count = self.count_of_set();
        let mut holdings = self.rising_holdings(count);
        if !holdings.is_empty() && self.chance.one_in(3) {
            self.put_faults_of_holdings(&mut holdings);
        }
        self.ask_of_holdings(holdings);
    }

    /// All sets of up to so many numbers over a few, so that every kind of fault stands at every place, alone, beside others and before
    /// others.
    fn short_sets_of_holdings(&mut self, most: u32) {
        let places: Vec<u8> = (0..OF_HOLDINGS.len() as u8).collect();
        for set in texts(&places, most) {
            let holdings = set.iter().map(|&place| OF_HOLDINGS[place as usize]).collect();
            self.ask_of_holdings(holdings);
        }
    }

    /// Sets about each length of a count and about the most holdings: within one scale, from scale 5 to 6, from 7 to 8, and with long gaps;
    /// and the set whose list has the most bytes, with as many gaps of three bytes as there can be, and otherwise of two.
    fn long_sets_of_holdings(&mut self) {
        for count in [0, 1, 2, 3, 126, 127, 128, 129, 4_094, 4_095, 4_096, 4_097, 4_098, 8_192] {
            for (first, step) in [(20_000, 1), (18_100, 1), (453_100, 43), (2_000_000, 1_450)] {
                let holdings = holdings_from(first, step, count);
                assert_eq!(holdings.len(), count);
                self.ask_about_holdings(&holdings);
            }
        }
        let steps = [16_384].into_iter().chain([16_386; 1_434]).chain([129; 2_661]);
        let add = |sum: &mut u32, step: u32| {
            *sum += step;
            Some(*sum)
        };
        let longest: Vec<u32> = steps.scan(0, add).collect();
        assert_eq!(self.division.holdings_length(&longest), Ok(9_629));
        self.ask_about_holdings(&longest);
    }

    /// A good set, but perhaps for its count, in all kinds of room; with each kind of fault at either end and in the middle; and its list.
    fn ask_about_holdings(&mut self, good: &[u32]) {
        let needed = self.division.holdings_length(good).unwrap_or(2);
        self.ask(Question::HoldingsLength { holdings: good.to_vec() });
        for room in [0, needed - 1, needed, needed + 1, 10_000] {
            self.ask(Question::WriteHoldings { holdings: good.to_vec(), room });
        }
        for place in BTreeSet::from([0, good.len() / 2, good.len().saturating_sub(1)]) {
            let Some(&before) = good.get(place.saturating_sub(1)) else { continue };
            for number in [before, before - 1, before / 3 * 3 + 2, good[place] / 3 * 3 + 2].into_iter().chain(OF_HOLDINGS) {
                let mut holdings = good.to_vec();
                holdings[place] = number;
                self.ask_of_holdings(holdings);
            }
        }
        if let Ok(list) = self.division.write_holdings(good, usize::MAX) {
            self.ask_to_read_about(&list, good.len());
        }
    }

    /// A list to both readers: the old one is to give 12 to every new list.
    fn ask_to_read(&mut self, list: &[u8], room: usize) {
        self.ask(Question::ReadHoldings { list: list.to_vec(), room });
        self.ask(Question::ReadList { list: list.to_vec(), room });
    }

    /// A list of so many in all kinds of room, cut and with a byte behind it.
    fn ask_to_read_about(&mut self, list: &[u8], count: usize) {
        for room in [0, count.saturating_sub(1), count, count + 1, 5_000] {
            self.ask_to_read(list, room);
        }
        let cut = self.chance.below(list.len());
        for cut in [cut, list.len() - 1] {
            self.ask_to_read(&list[..cut], count);
        }
        for byte in [0, 1, 127, 128, 255] {
            self.ask_to_read(&[list, &[byte]].concat(), count);
        }
    }

    /// First numbers about every border, as they are written, in more groups than they take and cut short, with no entry behind them, some,
    /// as many as they count, and one less and one more.
    fn first_numbers(&mut self) {
        for first in FIRST_NUMBERS {
            let count = (if first < NEW_LIST { first } else { first - NEW_LIST }).min(5_000) as usize;
            let least = paper::groups(first);
            for groups in least..=5 {
                let head = in_groups(first, groups);
                for cut in 0..groups {
                    self.ask_to_read(&head[..cut], count);
                }
                for entries in BTreeSet::from([0, 1, 2, count.saturating_sub(1), count, count + 1]) {
                    // All of them, in lists of both kinds: one to the first 1:5 000 sheet, or its number, and each other one to the next.
                    let mut list = head.clone();
                    if entries > 0 {
                        list.extend(in_groups(ALL_HELD, 3));
                        list.resize(head.len() + 3 + entries - 1, 0);
                    }
                    let rooms = if groups == least { vec![0, count.saturating_sub(1), count, MOST, 5_000] } else { vec![0, count] };
                    for room in BTreeSet::from_iter(rooms) {
                        self.ask_to_read(&list, room);
                    }
                }
            }
        }
    }

    /// Entries that lead to the ends of the scales, of the sheets and of the holdings, and beside them, in lists of both kinds: alone,
    /// behind others and before another.
    fn ends_of_lists(&mut self) {
        let ends = SCALES.iter().flat_map(|facts| [facts.first, facts.first + facts.sheets]).collect::<BTreeSet<u32>>();
        let near = ends.iter().flat_map(|end| [*end, 3 * end]).flat_map(|end| end.saturating_sub(4)..end + 4);
        let far = [1 << 23, 1 << 24, 1 << 25, (1 << 28) - 2, (1 << 28) - 1];
        for number in near.chain(far).collect::<BTreeSet<u32>>() {
            for before in [vec![], vec![0], vec![number.saturating_sub(1)], vec![0, 1, number.saturating_sub(3)]] {
                for behind in [vec![], vec![number + 1]] {
                    let numbers = [before.clone(), vec![number], behind].concat();
                    if numbers.windows(2).all(|two| two[0] < two[1]) {
                        for kind in BOTH {
                            self.ask_to_read(&kind.list_of(&numbers), numbers.len());
                        }
                    }
                }
            }
        }
    }

    /// All beginnings of up to so many bytes over a few behind the first number of new lists, with room enough or not.
    fn short_lists_of_holdings(&mut self, most: u32) {
        const FEW: &[u8] = &[0, 1, 2, 127, 128, 129, 255];
        for first in [&[0x80, 0x40][..], &[0x81, 0x40], &[0x82, 0x40], &[0x83, 0x40], &[0x82, 0x40, 0xFA, 0xA9, 0x03]] {
            for entries in texts(FEW, most) {
                let room = if self.chance.one_in(4) { self.chance.below(4) } else { 5 };
                self.ask_to_read(&[first, &entries].concat(), room);
            }
        }
    }

    /// Each byte of some short lists of both kinds changed to every other.
    fn each_byte(&mut self) {
        let sets: [&[u32]; 6] = [&[], &[1], &[0, 344, LAST_SHEET], &[0, 1_033, LAST_HOLDING - 1], &[ALL_HELD, ALL_HELD + 2], &[127, 256]];
        for (kind, set) in BOTH.into_iter().flat_map(|kind| sets.map(|set| (kind, set))) {
            let list = kind.list_of(set);
            for (place, byte) in (0..list.len()).flat_map(|place| (0..=255).map(move |byte| (place, byte))) {
                let mut list = list.clone();
                list[place] = byte;
                self.ask_to_read(&list, set.len());
            }
        }
    }

    /// So many lists of both kinds: every cut of each, and each byte of it changed, with room for all that it has.
    fn each_cut(&mut self, times: usize) {
        for _ in 0..times {
            for kind in BOTH {
                let count = if self.chance.one_in(50) { 126 + self.chance.below(5) } else { self.chance.below(9) };
                let list = self.good_list(kind, count);
                let (placed, _) = self.division.read_holdings(&list, MOST);
                self.ask_to_read_about(&list, placed.len());
                for place in 0..list.len() {
                    self.ask_to_read(&list[..place], placed.len());
                    for byte in [list[place] ^ 128, list[place].wrapping_add(1), self.chance.next() as u8] {
                        let mut list = list.clone();
                        list[place] = byte;
                        self.ask_to_read(&list, placed.len());
                    }
                }
            }
        }
    }

    fn about_both_readers(&mut self) {
        let kind = self.chance.of(&[Kind::Old, Kind::New, Kind::New]);
        let list = self.list(kind);
        let room = self.room_to_read(self.division.read_holdings(&list, 0));
        self.ask_to_read(&list, room);
    }

    // ---- Deliveries ----

    fn ask_of_delivery(&mut self, scale: u32, window: Frame, delivery: &[u32]) {
        self.ask(Question::CheckDelivery { scale, window, delivery: delivery.to_vec() });
    }

    /// How far the two edges of a window about so many sheets, of this side, are moved inwards, so that it still has a part of each.
    fn inwards(&mut self, sheets: u64, side: i64) -> (i64, i64) {
        let [one, other] = [(); 2].map(|()| match self.chance.below(6) {
            0 => 1,
            1 => side - 1,
            2 => self.chance.from_to(0, side - 1),
            _ => 0,
        });
        if sheets == 1 && one + other >= side { (one, 0) } else { (one, other) }
    }

    /// A window of so many rows and columns of a scale, from a row and a column on: to the sheets' edges, or only into these sheets.
    fn window_on(&mut self, scale: u32, (row, column): (u64, u64), (rows, columns): (u64, u64)) -> Frame {
        let facts = &SCALES[scale as usize - 1];
        let (width, height) = (facts.width * 1000, facts.height * 1000);
        let (from_west, from_east) = self.inwards(columns, width);
        let (from_south, from_north) = self.inwards(rows, height);
        Frame {
            west: AREA_WEST + column as i64 * width + from_west,
            east: AREA_WEST + (column + columns) as i64 * width - from_east,
            south: AREA_NORTH - (row + rows) as i64 * height + from_south,
            north: AREA_NORTH - row as i64 * height - from_north,
        }
    }

    /// A row and a column of a scale at which four 1:50 000 sheets meet, or at scales 1 and 2 four of its own. There are two rows and two
    /// columns at least on either side.
    fn meeting(&mut self, scale: u32) -> (u64, u64) {
        let (rows, columns) = self.division.grid_size(scale);
        let mut border = |all: u64, of_50_000: u64| {
            let side = (all / of_50_000).max(1);
            let least = if side > 1 { 1 } else { 2 };
            side * (least + self.chance.below((all / side + 1 - 2 * least) as usize) as u64)
        };
        (border(rows, 30), border(columns, 20))
    }

    /// A window of so many rows and columns of a scale, or as many as there are: anywhere, often at the area's border or across that of a
    /// 1:50 000 sheet.
    fn window_across(&mut self, scale: u32, (rows, columns): (u64, u64)) -> Frame {
        let all = self.division.grid_size(scale);
        let (rows, columns) = (rows.min(all.0), columns.min(all.1));
        let meeting = self.meeting(scale);
        let mut from = |border: u64, sheets: u64, all: u64| match self.chance.below(6) {
            0 => 0,
            1 => all - sheets,
            2 => self.chance.below((all - sheets) as usize + 1) as u64,
            _ => border.saturating_sub(1 + self.chance.below(sheets as usize) as u64).min(all - sheets),
        };
        let (row, column) = (from(meeting.0, rows, all.0), from(meeting.1, columns, all.1));
        self.window_on(scale, (row, column), (rows, columns))
    }

    fn cover(&self, scale: u32, window: Frame) -> Vec<u32> {
        self.division.cover(scale, window, MOST).expect("a cover")
    }

    fn ordered(&mut self, cover: &[u32], order: Order) -> Vec<u32> {
        let mut delivery = cover.to_vec();
        match order {
            Order::Cover => {}
            Order::Back => delivery.reverse(),
            Order::Rising => delivery.sort_unstable(),
            Order::Any => {
                for place in 1..delivery.len() {
                    delivery.swap(place, self.chance.below(place + 1));
                }
            }
        }
        delivery
    }

    /// What is not of the cover of a window: the sheets about its corners; of each scale those at the corners, those in the same row and
    /// column, and those with the same place in the scale's own order; the numbers next to those of the cover; and numbers that are no
    /// sheet, some of which are of the cover when they lose their upper bits.
    fn strange_to(&self, scale: u32, window: Frame, cover: &[u32]) -> Vec<u32> {
        let mut numbers: Vec<u32> = EXTREME_U32.to_vec();
        for (e, n) in [window.west, window.east - 1].into_iter().flat_map(|e| [window.north, window.south + 1].map(|n| (e, n))) {
            let corner = self.division.sheet_of_point(scale, e, n).expect("a sheet");
            let place = self.division.place(corner).expect("a sheet");
            numbers.extend(self.division.neighbours(corner).concat().into_iter().flatten());
            for (other, facts) in (1..).zip(&SCALES) {
                numbers.extend(self.division.sheet_of_point(other, e, n));
                numbers.extend(self.division.sheet_on(other, place.row as i128, place.column as i128));
                numbers.push(facts.first + (corner - SCALES[scale as usize - 1].first) % facts.sheets);
            }
            numbers.extend((23..32).map(|bit| corner | 1 << bit));
        }
        let least = cover.iter().min().expect("a sheet");
        let most = cover.iter().max().expect("a sheet");
        numbers.extend([least.wrapping_sub(1), most + 1]);
        numbers.retain(|number| !cover.contains(number));
        numbers.sort_unstable();
        numbers.dedup();
        numbers
    }

    /// All deliveries of up to so many numbers over a few, so that every kind of fault stands at every place, alone, beside others and
    /// before others: over four others and the four sheets of a window across two 1:50 000 sheets side by side, where the cover's order is
    /// not that of the numbers.
    fn short_deliveries(&mut self, most: u32) {
        for scale in 1..=9 {
            let (row, column) = self.meeting(scale);
            let window = self.window_on(scale, (row, column - 1), (2, 2));
            let cover = self.cover(scale, window);
            let strange = self.strange_to(scale, window, &cover);
            let others = [self.chance.of(&strange), self.chance.of(&strange), LAST_SHEET + 1, u32::MAX];
            let numbers = [&cover[..], &others].concat();
            let places: Vec<u8> = (0..numbers.len() as u8).collect();
            for text in texts(&places, most) {
                let delivery: Vec<u32> = text.iter().map(|&place| numbers[place as usize]).collect();
                self.ask_of_delivery(scale, window, &delivery);
            }
        }
    }

    /// What is delivered of a small cover: each slip with each of its sheets and some others, in each order; and of one order every slip
    /// after every slip where they are wanted, so that faults of all kinds meet, in either order and with sheets missing or not.
    fn ask_of_small_cover(&mut self, scale: u32, window: Frame, twice: bool) {
        let cover = self.cover(scale, window);
        let strange = self.strange_to(scale, window, &cover);
        for number in &strange {
            self.ask_of_delivery(scale, window, &[*number]);
            self.ask_of_delivery(scale, window, &[&cover[..], &[*number]].concat());
        }
        for order in ORDERS {
            let good = self.ordered(&cover, order);
            let numbers = [&cover[..], &[self.chance.of(&strange), self.chance.of(&strange)]].concat();
            self.ask_of_delivery(scale, window, &good);
            for once in slips(&good, 0..=good.len(), &numbers) {
                self.ask_of_delivery(scale, window, &once);
                if twice && matches!(order, Order::Any) {
                    for again in slips(&once, 0..=once.len(), &numbers) {
                        self.ask_of_delivery(scale, window, &again);
                    }
                }
            }
        }
        self.ask_of_parts(scale, window, &cover, 10);
    }

    /// Beginnings and ends of deliveries, each right behind the whole, so that what is missing still stands behind it where the box has it;
    /// and so many times some of the sheets, so that several are missing, and all but two, of which the one that comes first in the cover has
    /// the higher number, where such two are soon found.
    fn ask_of_parts(&mut self, scale: u32, window: Frame, cover: &[u32], times: usize) {
        for order in ORDERS {
            let good = self.ordered(cover, order);
            for cut in BTreeSet::from([0, 1, good.len() / 2, good.len() - 1]) {
                self.ask_of_delivery(scale, window, &good);
                self.ask_of_delivery(scale, window, &good[..cut]);
                self.ask_of_delivery(scale, window, &good[cut..]);
            }
        }
        for _ in 0..times {
            let often = self.chance.of(&[2, 5, cover.len() / 3 + 2, cover.len() + 1]);
            let mut some = self.ordered(cover, Order::Any);
            if self.chance.one_in(2) {
                some.retain(|_| self.chance.one_in(often));
            } else {
                some.retain(|_| !self.chance.one_in(often));
            }
            self.ask_of_delivery(scale, window, &some);
            let mut pairs = (0..20).map(|_| [(); 2].map(|()| self.chance.below(cover.len())));
            if let Some([one, other]) = pairs.find(|&[one, other]| one < other && cover[one] > cover[other]) {
                let mut some = self.ordered(cover, Order::Any);
                some.retain(|&sheet| sheet != cover[one] && sheet != cover[other]);
                self.ask_of_delivery(scale, window, &some);
            }
        }
    }

    /// Windows of a sheet, of a row and of a column at the area's corners, and of some rows and columns there and where 1:50 000 sheets
    /// meet.
    fn small_deliveries(&mut self, long: bool) {
        let two_slips = 4 + self.chance.below(6) as u32;
        for scale in 1..=9 {
            let (rows, columns) = self.division.grid_size(scale);
            let (row, column) = self.meeting(scale);
            let shapes = [
                ((0, 0), (1, 1)),
                ((0, columns - 1), (1, 1)),
                ((rows - 1, 0), (1, 1)),
                ((rows - 1, columns - 1), (1, 1)),
                ((0, columns - 4), (1, 4)),
                ((rows - 1, 0), (1, 4)),
                ((0, 0), (5, 1)),
                ((rows - 5, columns - 1), (5, 1)),
                ((rows - 2, columns - 2), (2, 2)),
                ((row, column - 1), (1, 2)),
                ((row - 1, column), (2, 1)),
                ((row - 1, column - 1), (2, 2)),
                ((row, column - 2), (1, 4)),
                ((row, column - 2), (2, 3)),
            ];
            for (from, sides) in shapes {
                let window = self.window_on(scale, from, sides);
                self.ask_of_small_cover(scale, window, sides == (2, 3) && (long || scale == two_slips));
            }
            for _ in 0..if long { 20 } else { 1 } {
                let sides = (1 + self.chance.below(6) as u64, 1 + self.chance.below(6) as u64);
                let window = self.window_across(scale, sides);
                self.ask_of_small_cover(scale, window, false);
            }
        }
    }

    /// So many windows of each scale with about as many sheets as a cover may have, or with the whole area where that has no more: 64 rows of
    /// 64, and other rows and columns, some from border to border.
    fn large_deliveries(&mut self, times: usize) {
        for scale in 1..=9 {
            let (rows, columns) = self.division.grid_size(scale);
            for time in 0..times {
                let sides = if rows * columns <= MOST as u64 { (rows, columns) } else { (64, 64) };
                let window = self.window_across(scale, sides);
                self.ask_of_large_cover(scale, window, time > 0);
                if scale > 4 && (time > 0 || scale == 9) {
                    let sides = self.chance.of(&MANY_SHEETS);
                    let window = self.window_across(scale, sides);
                    self.ask_of_large_cover(scale, window, time > 0);
                }
            }
        }
    }

    /// What is delivered of a large cover, in one order or in each: each slip at either end and in the middle; two slips anywhere; and the
    /// whole with more behind it or before it, up to thousands.
    fn ask_of_large_cover(&mut self, scale: u32, window: Frame, each_order: bool) {
        let cover = self.cover(scale, window);
        let strange = self.strange_to(scale, window, &cover);
        let count = cover.len();
        self.ask_of_parts(scale, window, &cover, 6);
        let one = self.chance.below(ORDERS.len());
        for (place, order) in ORDERS.into_iter().enumerate() {
            if !each_order && place != one {
                continue;
            }
            let good = self.ordered(&cover, order);
            let ends = BTreeSet::from([0, count / 2, count - 1, count]);
            let mut numbers = vec![good[0], good[count / 2], good[count - 1], cover[0], cover[count - 1]];
            numbers.extend([(); 2].map(|()| self.chance.of(&strange)));
            for once in slips(&good, ends.iter().copied(), &numbers) {
                self.ask_of_delivery(scale, window, &once);
            }
            for _ in 0..20 {
                let mut delivery = good.clone();
                for _ in 0..2 {
                    self.put_slip(&mut delivery, &strange);
                }
                self.ask_of_delivery(scale, window, &delivery);
            }
            // The cover twice over; a sheet of it, or a strange number, thousands of times; and all that is strange.
            for more in [good.clone(), vec![self.chance.of(&cover); 4_000], vec![self.chance.of(&strange); 4_000], strange.clone()] {
                self.ask_of_delivery(scale, window, &[&good[..], &more].concat());
                self.ask_of_delivery(scale, window, &[&good[1..], &more].concat());
                self.ask_of_delivery(scale, window, &[&more[..], &good].concat());
            }
        }
    }

    /// One slip of any kind at any place: a number dropped, another one put in or in its stead, one of the delivery again, beside itself or
    /// far off, two numbers exchanged, or all from a place on dropped.
    fn put_slip(&mut self, delivery: &mut Vec<u32>, strange: &[u32]) {
        let place = self.chance.below(delivery.len() + 1);
        let other = if self.chance.one_in(2) { self.chance.of(strange) } else { self.sheet() };
        if place == delivery.len() {
            delivery.push(delivery.first().copied().filter(|_| self.chance.one_in(2)).unwrap_or(other));
            return;
        }
        let far = self.chance.below(delivery.len());
        match self.chance.below(10) {
            0 | 1 => drop(delivery.remove(place)),
            2 => delivery.insert(place, other),
            3 => delivery[place] = other,
            4 => delivery.insert(place, delivery[place]),
            5 => delivery.insert(place, delivery[far]),
            6 => delivery[place] = delivery[far],
            7 => delivery.swap(place, far),
            8 => delivery.push(delivery[place]),
            _ => delivery.truncate(place),
        }
    }

    /// What has no cover, with all kinds of deliveries: numbers that are no scale; each edge of a window at the area's borders, at the other
    /// edge, beside them and at the extremes; two faults at once; and windows with too many sheets.
    fn deliveries_refused(&mut self) {
        let area = Frame { west: AREA_WEST, east: AREA_EAST, south: AREA_SOUTH, north: AREA_NORTH };
        for scale in 1..=9 {
            let good = self.window_across(scale, (2, 2));
            let cover = self.cover(scale, good);
            let none = (4..32).map(|bit| scale | 1 << bit).chain(EXTREME_U32).chain([0, 10, 11]);
            for scale in none.filter(|scale| !(1..=9).contains(scale)) {
                for window in [good, area, Frame { east: good.west, ..good }, Frame { north: i64::MAX, ..good }] {
                    self.ask_of_delivery(scale, window, &cover);
                    self.ask_of_delivery(scale, window, &[]);
                }
            }
            let near = [good.west, good.east, good.south, good.north].into_iter().chain(BORDERS).flat_map(|edge| edge - 1..=edge + 1);
            for edge in near.chain(EXTREME_I64) {
                let windows = [
                    Frame { west: edge, ..good },
                    Frame { east: edge, ..good },
                    Frame { south: edge, ..good },
                    Frame { north: edge, ..good },
                    Frame { west: edge, ..area },
                    Frame { east: edge, ..area },
                    Frame { south: edge, ..area },
                    Frame { north: edge, ..area },
                    Frame { west: edge, north: good.south, ..good },
                    Frame { west: good.east, north: edge, ..good },
                ];
                for window in windows {
                    let own = self.division.cover(scale, window, MOST).unwrap_or_default();
                    self.ask_of_delivery(scale, window, &cover);
                    self.ask_of_delivery(scale, window, &own);
                    self.ask_of_delivery(scale, window, &[u32::MAX]);
                }
            }
            let (rows, columns) = self.division.grid_size(scale);
            let whole = self.window_across(scale, (64, 64));
            let most = self.cover(scale, whole);
            let fits = |sides: &(u64, u64)| sides.0 <= rows && sides.1 <= columns;
            for sides in TOO_MANY_SHEETS.into_iter().filter(fits).chain([(rows, columns)]) {
                let window = self.window_across(scale, sides);
                for delivery in [&[][..], &cover, &most, &[most[0]; 2], &[u32::MAX; 4_097]] {
                    self.ask_of_delivery(scale, window, delivery);
                }
            }
        }
    }

    /// Every sheet there is, in covers side by side, in any order; and the same with a slip or two.
    fn each_sheet_delivered(&mut self) {
        for scale in 1..=9 {
            let (rows, columns) = self.division.grid_size(scale);
            for row in (0..rows).step_by(64) {
                for column in (0..columns).step_by(64) {
                    let window = self.window_on(scale, (row, column), (64.min(rows - row), 64.min(columns - column)));
                    let cover = self.cover(scale, window);
                    let strange = self.strange_to(scale, window, &cover);
                    let mut delivery = self.ordered(&cover, Order::Any);
                    self.ask_of_delivery(scale, window, &delivery);
                    for _ in 0..2 {
                        self.put_slip(&mut delivery, &strange);
                        self.ask_of_delivery(scale, window, &delivery);
                    }
                }
            }
        }
    }

    fn about_a_delivery(&mut self) {
        let scale = self.scale();
        let window = self.window(if (1..=9).contains(&scale) { scale } else { 4 });
        let (cover, strange) = match self.division.cover(scale, window, MOST) {
            Ok(cover) => {
                let strange = self.strange_to(scale, window, &cover);
                (cover, strange)
            }
            Err(_) => (self.set(), EXTREME_U32.to_vec()),
        };
        let order = self.chance.of(&ORDERS);
        let mut delivery = self.ordered(&cover, order);
        self.ask_of_delivery(scale, window, &delivery);
        for _ in 0..3 {
            self.put_slip(&mut delivery, &strange);
            self.ask_of_delivery(scale, window, &delivery);
        }
    }
}
