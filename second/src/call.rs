//! The calls and their format: a tag byte, the numbers, then the buffers, all lowest byte first.

use std::fmt;
use std::io::{self, Read, Write};

/// A buffer of a call may have so many elements, whether or not the call accepts so many.
pub const MOST_ELEMENTS: usize = 1024;

/// The arguments of a pointer write, tag 1.
#[derive(Clone, Debug, PartialEq, Eq)]
pub struct PointerWrite {
    pub n: u64,
    pub data: Vec<u8>,
    pub mask: Vec<u8>,
    pub values: Vec<u8>,
    pub cells: Vec<u8>,
    pub metadata: Vec<u8>,
}

/// The arguments of a pointer read, tag 2.
#[derive(Clone, Debug, PartialEq, Eq)]
pub struct PointerRead {
    pub n: u64,
    pub cells: Vec<u8>,
    pub metadata: Vec<u8>,
    pub output: Vec<u8>,
}

/// The arguments of a grid plan, tag 3; the numbers are rows, columns and K.
#[derive(Clone, Debug, PartialEq, Eq)]
pub struct GridPlan {
    pub numbers: [u64; 3],
    pub data: Vec<u64>,
    pub mask: Vec<u64>,
    pub values: Vec<u64>,
    pub counters: Vec<u8>,
}

/// The arguments of a grid read, tag 4; the numbers are rows, columns and K.
#[derive(Clone, Debug, PartialEq, Eq)]
pub struct GridRead {
    pub numbers: [u64; 3],
    pub cells: Vec<u64>,
    pub counters: Vec<u8>,
    pub output: Vec<u64>,
}

/// The arguments of a grid store, tag 5; the numbers are rows, columns and K.
#[derive(Clone, Debug, PartialEq, Eq)]
pub struct GridStore {
    pub numbers: [u64; 3],
    pub data: Vec<u64>,
    pub mask: Vec<u64>,
    pub values: Vec<u64>,
    pub counters: Vec<u8>,
    pub cells: Vec<u64>,
}

/// The arguments of a grid convert, tag 6; the numbers are rows, columns, K and the target.
#[derive(Clone, Debug, PartialEq, Eq)]
pub struct GridConvert {
    pub numbers: [u64; 4],
    pub counters: Vec<u8>,
    pub output: Vec<u8>,
}

/// A whole transfer of a block in lumps, tag 7; the numbers are rows, columns and K, and the script is a byte a step.
#[derive(Clone, Debug, PartialEq, Eq)]
pub struct Transfer {
    pub numbers: [u64; 3],
    pub bytes: Vec<u8>,
    pub script: Vec<u8>,
    pub output: Vec<u64>,
}

/// One call of one of the six functions of documents 01 and 02, or one whole transfer.
#[derive(Clone, Debug, PartialEq, Eq)]
pub enum Call {
    PointerWrite(PointerWrite),
    PointerRead(PointerRead),
    GridPlan(GridPlan),
    GridRead(GridRead),
    GridStore(GridStore),
    GridConvert(GridConvert),
    Transfer(Transfer),
}

/// Why a call is bad: the first of these that is met when its parts are read in order.
#[derive(Clone, Copy, Debug, PartialEq, Eq)]
pub enum Reason {
    /// The tag is none of the seven.
    Tag,
    /// A buffer says that it has more than 1,024 elements.
    Length,
    /// The input ends within the call.
    CutShort,
}

impl fmt::Display for Reason {
    fn fmt(&self, text: &mut fmt::Formatter) -> fmt::Result {
        text.write_str(match self {
            Reason::Tag => "its tag",
            Reason::Length => "a length",
            Reason::CutShort => "cut short",
        })
    }
}

/// Why no call could be taken from the input.
#[derive(Debug)]
pub enum Trouble {
    BadCall(Reason),
    Input(io::Error),
}

impl From<io::Error> for Trouble {
    /// An input that ends inside a call is a bad call; anything else is a failure of the input.
    fn from(error: io::Error) -> Trouble {
        if error.kind() == io::ErrorKind::UnexpectedEof {
            Trouble::BadCall(Reason::CutShort)
        } else {
            Trouble::Input(error)
        }
    }
}

/// The next tag byte, or nothing if the input ends here.
fn next_tag(input: &mut impl Read) -> Result<Option<u8>, Trouble> {
    let mut tag = [0];
    match input.read_exact(&mut tag) {
        Ok(()) => Ok(Some(tag[0])),
        Err(error) if error.kind() == io::ErrorKind::UnexpectedEof => Ok(None),
        Err(error) => Err(Trouble::Input(error)),
    }
}

/// The next number, eight bytes.
fn next_number(input: &mut impl Read) -> Result<u64, Trouble> {
    let mut bytes = [0; 8];
    input.read_exact(&mut bytes)?;
    Ok(u64::from_le_bytes(bytes))
}

/// The next numbers of a grid call: rows, columns, K, and of a convert the target.
fn next_numbers<const COUNT: usize>(input: &mut impl Read) -> Result<[u64; COUNT], Trouble> {
    let mut numbers = [0; COUNT];
    for number in numbers.iter_mut() {
        *number = next_number(input)?;
    }
    Ok(numbers)
}

/// The next count of elements, two bytes, at most 1,024.
fn next_count(input: &mut impl Read) -> Result<usize, Trouble> {
    let mut bytes = [0; 2];
    input.read_exact(&mut bytes)?;
    let count = usize::from(u16::from_le_bytes(bytes));
    if count > MOST_ELEMENTS {
        return Err(Trouble::BadCall(Reason::Length));
    }
    Ok(count)
}

/// The next buffer of bytes.
fn next_bytes(input: &mut impl Read) -> Result<Vec<u8>, Trouble> {
    let mut bytes = vec![0; next_count(input)?];
    input.read_exact(&mut bytes)?;
    Ok(bytes)
}

/// The next buffer of words.
fn next_words(input: &mut impl Read) -> Result<Vec<u64>, Trouble> {
    let count = next_count(input)?;
    let mut words = Vec::new();
    for _ in 0..count {
        words.push(next_number(input)?);
    }
    Ok(words)
}

/// The next call, or nothing if the input ends exactly between calls.
pub fn next_call(input: &mut impl Read) -> Result<Option<Call>, Trouble> {
    let tag = match next_tag(input)? {
        None => return Ok(None),
        Some(tag) => tag,
    };
    let call = match tag {
        1 => Call::PointerWrite(PointerWrite {
            n: next_number(input)?,
            data: next_bytes(input)?,
            mask: next_bytes(input)?,
            values: next_bytes(input)?,
            cells: next_bytes(input)?,
            metadata: next_bytes(input)?,
        }),
        2 => Call::PointerRead(PointerRead {
            n: next_number(input)?,
            cells: next_bytes(input)?,
            metadata: next_bytes(input)?,
            output: next_bytes(input)?,
        }),
        3 => Call::GridPlan(GridPlan {
            numbers: next_numbers(input)?,
            data: next_words(input)?,
            mask: next_words(input)?,
            values: next_words(input)?,
            counters: next_bytes(input)?,
        }),
        4 => Call::GridRead(GridRead {
            numbers: next_numbers(input)?,
            cells: next_words(input)?,
            counters: next_bytes(input)?,
            output: next_words(input)?,
        }),
        5 => Call::GridStore(GridStore {
            numbers: next_numbers(input)?,
            data: next_words(input)?,
            mask: next_words(input)?,
            values: next_words(input)?,
            counters: next_bytes(input)?,
            cells: next_words(input)?,
        }),
        6 => Call::GridConvert(GridConvert {
            numbers: next_numbers(input)?,
            counters: next_bytes(input)?,
            output: next_bytes(input)?,
        }),
        7 => Call::Transfer(Transfer {
            numbers: next_numbers(input)?,
            bytes: next_bytes(input)?,
            script: next_bytes(input)?,
            output: next_words(input)?,
        }),
        _ => return Err(Trouble::BadCall(Reason::Tag)),
    };
    Ok(Some(call))
}

/// Puts out numbers of eight bytes each.
fn put_numbers(output: &mut impl Write, numbers: &[u64]) -> io::Result<()> {
    for number in numbers {
        output.write_all(&number.to_le_bytes())?;
    }
    Ok(())
}

/// Puts out the count of elements of a buffer.
fn put_count(output: &mut impl Write, count: usize) -> io::Result<()> {
    assert!(count <= MOST_ELEMENTS);
    output.write_all(&(count as u16).to_le_bytes())
}

/// Puts out buffers of bytes.
fn put_bytes(output: &mut impl Write, buffers: &[&Vec<u8>]) -> io::Result<()> {
    for buffer in buffers {
        put_count(output, buffer.len())?;
        output.write_all(buffer)?;
    }
    Ok(())
}

/// Puts out buffers of words.
fn put_words(output: &mut impl Write, buffers: &[&Vec<u64>]) -> io::Result<()> {
    for buffer in buffers {
        put_count(output, buffer.len())?;
        put_numbers(output, buffer)?;
    }
    Ok(())
}

/// Puts out a call in the format that `next_call` takes.
pub fn put_call(output: &mut impl Write, call: &Call) -> io::Result<()> {
    match call {
        Call::PointerWrite(c) => {
            output.write_all(&[1])?;
            put_numbers(output, &[c.n])?;
            put_bytes(
                output,
                &[&c.data, &c.mask, &c.values, &c.cells, &c.metadata],
            )
        }
        Call::PointerRead(c) => {
            output.write_all(&[2])?;
            put_numbers(output, &[c.n])?;
            put_bytes(output, &[&c.cells, &c.metadata, &c.output])
        }
        Call::GridPlan(c) => {
            output.write_all(&[3])?;
            put_numbers(output, &c.numbers)?;
            put_words(output, &[&c.data, &c.mask, &c.values])?;
            put_bytes(output, &[&c.counters])
        }
        Call::GridRead(c) => {
            output.write_all(&[4])?;
            put_numbers(output, &c.numbers)?;
            put_words(output, &[&c.cells])?;
            put_bytes(output, &[&c.counters])?;
            put_words(output, &[&c.output])
        }
        Call::GridStore(c) => {
            output.write_all(&[5])?;
            put_numbers(output, &c.numbers)?;
            put_words(output, &[&c.data, &c.mask, &c.values])?;
            put_bytes(output, &[&c.counters])?;
            put_words(output, &[&c.cells])
        }
        Call::GridConvert(c) => {
            output.write_all(&[6])?;
            put_numbers(output, &c.numbers)?;
            put_bytes(output, &[&c.counters, &c.output])
        }
        Call::Transfer(c) => {
            output.write_all(&[7])?;
            put_numbers(output, &c.numbers)?;
            put_bytes(output, &[&c.bytes, &c.script])?;
            put_words(output, &[&c.output])
        }
    }
}
