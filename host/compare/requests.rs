//! Numbers in groups of seven bits, and requests: a kind and its arguments.

/// A request with room for the most arguments that a kind has; those after its own are zero where it is read, and count for
/// nothing where it is lent. So the library takes it too.
#[derive(Clone, Copy, Debug, PartialEq)]
#[repr(C)]
pub struct Request {
    pub kind: u64,
    pub arguments: [u64; 9],
}

/// What an argument is, and so what its limit is.
#[derive(Clone, Copy, Debug, PartialEq)]
pub enum Argument {
    ContentId,
    EntryNumber,
    Cci,
    Trigger,
    Rights,
    Permits,
    Key,
    Hash,
    Filler,
}

use Argument::{Cci, ContentId, EntryNumber, Filler, Hash, Key, Permits, Rights, Trigger};

impl Argument {
    /// The number of the refusal for a value past the limit.
    fn test(self, value: u64) -> Result<(), u64> {
        match self {
            ContentId if value == 0 || value > 999 => Err(4),
            EntryNumber if value == 0 || value > 999 => Err(5),
            Cci if value == 1 || value > 3 => Err(6),
            Trigger if value > 1 => Err(6),
            Rights | Permits if value > 15 => Err(6),
            Key if value >= 1 << 56 => Err(6),
            _ => Ok(()),
        }
    }
}

/// A kind's arguments in the order of the paper; 3 where there is no such kind.
pub fn arguments_of(kind: u64) -> Result<&'static [Argument], u64> {
    match kind {
        1 => Ok(&[ContentId, Cci, Trigger, Rights, Permits, Key, Key]),
        2 => Ok(&[ContentId, EntryNumber, Cci, Trigger, Rights, Permits, Key, Key, Hash]),
        3 => Ok(&[ContentId, EntryNumber]),
        4 => Ok(&[EntryNumber, Filler]),
        5 => Ok(&[EntryNumber, Hash, Filler, Filler, Filler, Filler]),
        6 => Ok(&[ContentId, EntryNumber, Hash]),
        7 => Ok(&[EntryNumber, Filler, Filler, Filler, Filler]),
        _ => Err(3),
    }
}

/// The number at the front of the bytes and how many bytes it has, or 1 or 2.
fn read_number(bytes: &[u8]) -> Result<(u64, usize), u64> {
    let mut value = 0;
    for place in 0..10 {
        let byte = *bytes.get(place).ok_or(1u64)?;
        // 63 bits stand in nine bytes, so the tenth has room for one bit; zero there would not be the shortest form.
        if place == 9 && byte != 1 {
            return Err(2);
        }
        value |= u64::from(byte % 128) << (7 * place);
        if byte < 128 {
            return if byte == 0 && place > 0 { Err(2) } else { Ok((value, place + 1)) };
        }
    }
    unreachable!("a tenth byte of 1 ends the number");
}

/// The request at the front of the bytes and how many bytes it has, or 1 to 6.
pub fn read(bytes: &[u8]) -> Result<(Request, usize), u64> {
    let (kind, mut used) = read_number(bytes)?;
    let mut request = Request { kind, arguments: [0; 9] };
    for (place, argument) in arguments_of(kind)?.iter().enumerate() {
        let (value, length) = read_number(&bytes[used..])?;
        argument.test(value)?;
        request.arguments[place] = value;
        used += length;
    }
    Ok((request, used))
}

/// A number in its shortest form.
pub fn append_number(bytes: &mut Vec<u8>, mut value: u64) {
    while value >= 128 {
        bytes.push((value % 128 + 128) as u8);
        value /= 128;
    }
    bytes.push(value as u8);
}

/// The bytes of a request, or 3 to 6.
pub fn form(request: &Request) -> Result<Vec<u8>, u64> {
    let arguments = arguments_of(request.kind)?;
    let mut bytes = Vec::new();
    append_number(&mut bytes, request.kind);
    for (argument, value) in arguments.iter().zip(request.arguments) {
        argument.test(value)?;
        append_number(&mut bytes, value);
    }
    Ok(bytes)
}

/// Writes the request at the front of the bytes and answers how many it has, or 3 to 6, or 1.
pub fn write(bytes: &mut [u8], request: &Request) -> Result<usize, u64> {
    let form = form(request)?;
    bytes.get_mut(..form.len()).ok_or(1u64)?.copy_from_slice(&form);
    Ok(form.len())
}
