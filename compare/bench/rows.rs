//! The program in Rust, for its time alone: catalogue lines on standard input, a row for each on standard output.
//!
//! Written with care for the time: buffers of 64 KiB, line ends by the C library, one pass over the bytes of a good label, no allocation, and
//! the digits of a number put where they stand, many at a time.
use std::fs::File;
use std::io::{Read, Write};
use std::mem::ManuallyDrop;
use std::os::fd::FromRawFd;

mod sheets;
use sheets::{read_label, Sheet, SCALES};

const BUFFER: usize = 65_536;
const LONGEST_ROW: usize = 64;
/// More than the longest line that is accepted: what stands behind these bytes changes nothing.
const HELD: usize = 128;

/// The sheet of a line; or the refusal, and its place where it has one.
#[inline(always)]
fn read_line(line: &[u8]) -> Result<Sheet, (u32, Option<usize>)> {
    let end = line.iter().position(|&b| b == b' ').unwrap_or(line.len());
    let sheet = read_label(&line[..end]).map_err(|(why, place)| (why, Some(place)))?;
    if end < line.len() {
        let name = &line[end + 1..];
        if sheet.scale > 5 {
            return Err((17, None));
        }
        if name.is_empty() || name.len() > 48 || name.iter().any(|&b| b < 32 || b == 127) || name[0] == b' ' || name[name.len() - 1] == b' ' {
            return Err((16, None));
        }
    }
    Ok(sheet)
}

const PAIRS: [[u8; 2]; 100] = {
    let mut pairs = [[0; 2]; 100];
    let mut i = 0;
    while i < 100 {
        pairs[i] = [b'0' + (i / 10) as u8, b'0' + (i % 10) as u8];
        i += 1;
    }
    pairs
};

/// The last two digits, four and eight of a number.
#[inline(always)]
fn two(n: u32) -> [u8; 2] {
    PAIRS[(n % 100) as usize]
}

#[inline(always)]
fn four(n: u32) -> [u8; 4] {
    let ([a, b], [c, d]) = (two(n / 100), two(n));
    [a, b, c, d]
}

#[inline(always)]
fn eight(n: u32) -> [u8; 8] {
    let ([a, b, c, d], [e, f, g, h]) = (four(n / 10_000), four(n));
    [a, b, c, d, e, f, g, h]
}

/// A number below 100 000 000: all eight digits are made, those in front that are 0 are shifted out, and eight bytes are put.
#[inline(always)]
fn put_short(n: u32, out: &mut [u8], at: usize) -> usize {
    let digits = u64::from_le_bytes(eight(n));
    let zeros = ((digits & 0x0F0F_0F0F_0F0F_0F0F) | 1 << 56).trailing_zeros() / 8;
    out[at..at + 8].copy_from_slice(&(digits >> (8 * zeros)).to_le_bytes());
    at + 8 - zeros as usize
}

fn put_number(n: u64, out: &mut [u8], at: usize) -> usize {
    if n < 100_000_000 {
        return put_short(n as u32, out, at);
    }
    let at = put_number(n / 100_000_000, out, at);
    out[at..at + 8].copy_from_slice(&eight((n % 100_000_000) as u32));
    at + 8
}

#[cold]
fn put_refusal(why: u32, place: Option<usize>, out: &mut [u8], at: usize) -> usize {
    out[at..at + 9].copy_from_slice(b" refused ");
    let mut at = put_number(why as u64, out, at + 9);
    if let Some(place) = place {
        out[at] = b' ';
        at = put_number(place as u64, out, at + 1);
    }
    out[at] = b'\n';
    at + 1
}

/// Edges are whole hundreds of metres: west and east have six digits, south and north seven.
fn row(line: &[u8], number: u64, out: &mut [u8], at: usize) -> usize {
    let at = put_number(number, out, at);
    let sheet = match read_line(line) {
        Ok(sheet) => sheet,
        Err((why, place)) => return put_refusal(why, place, out, at),
    };
    out[at] = b' ';
    let at = put_short(sheet.number, out, at + 1);
    let s = &SCALES[sheet.scale];
    let edges: &mut [u8; 31] = (&mut out[at..at + 31]).try_into().unwrap();
    edges.copy_from_slice(b" ....00 ....00 .....00 .....00\n");
    edges[1..5].copy_from_slice(&four(sheet.west / 100));
    edges[8..12].copy_from_slice(&four((sheet.west + s.width) / 100));
    for (from, metres) in [(15, sheet.north - s.height), (23, sheet.north)] {
        edges[from] = b'0' + (metres / 1_000_000) as u8;
        edges[from + 1..from + 5].copy_from_slice(&four(metres / 100));
    }
    at + 31
}

extern "C" {
    fn memchr(bytes: *const u8, byte: i32, length: usize) -> *const u8;
}

/// Where the first line ends, by the C library, which looks at many bytes at a time.
#[inline(always)]
fn line_end(bytes: &[u8]) -> Option<usize> {
    let found = unsafe { memchr(bytes.as_ptr(), b'\n' as i32, bytes.len()) };
    if found.is_null() { None } else { Some(found as usize - bytes.as_ptr() as usize) }
}

fn main() -> std::io::Result<()> {
    let mut input = ManuallyDrop::new(unsafe { File::from_raw_fd(0) });
    let mut output = ManuallyDrop::new(unsafe { File::from_raw_fd(1) });
    let mut buffer = [0u8; BUFFER];
    let mut out = [0u8; BUFFER];
    let (mut held, mut number, mut at) = (0, 1u64, 0);
    loop {
        let got = input.read(&mut buffer[held..])?;
        if got == 0 {
            break;
        }
        let end = held + got;
        let mut start = 0;
        while let Some(length) = line_end(&buffer[start..end]) {
            if BUFFER - at < LONGEST_ROW {
                output.write_all(&out[..at])?;
                at = 0;
            }
            at = row(&buffer[start..start + length], number, &mut out, at);
            number += 1;
            start += length + 1;
        }
        held = (end - start).min(HELD);
        buffer.copy_within(start..start + held, 0);
    }
    if held > 0 {
        if BUFFER - at < LONGEST_ROW {
            output.write_all(&out[..at])?;
            at = 0;
        }
        at = row(&buffer[..held], number, &mut out, at);
    }
    output.write_all(&out[..at])
}
