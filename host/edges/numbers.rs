// Numbers in groups of seven bits, and requests.

// The groups of seven bits of x, low group first, top bit set in all but the last.
pub fn encode(x: u64) -> Vec<u8> {
    let digits = format!("{:b}", x);
    let count = (digits.len() + 6) / 7;
    let padded = format!("{:0>width$}", digits, width = count * 7);
    let mut out = Vec::new();
    for g in (0..count).rev() {
        let group = u8::from_str_radix(&padded[g * 7..g * 7 + 7], 2).unwrap();
        out.push(if g == 0 { group } else { group + 128 });
    }
    out
}

// The number at the start of s and its length, or the refusal.
pub fn decode(s: &[u8]) -> Result<(u64, usize), u64> {
    let head = &s[..s.len().min(10)];
    let Some(last) = head.iter().position(|b| *b < 128) else {
        return Err(if head.len() == 10 { 2 } else { 1 });
    };
    let form = &head[..=last];
    let mut value: u128 = 0;
    for (i, b) in form.iter().enumerate() {
        value += u128::from(b % 128) * 128u128.pow(i as u32);
    }
    if value < 1 << 64 && encode(value as u64) == form {
        Ok((value as u64, form.len()))
    } else {
        Err(2)
    }
}

// The arguments of each kind in the order of the paper: c content ID, j entry number, i CCI, t trigger, n rights or permits,
// k a key, x any number.
fn schema(kind: u64) -> &'static str {
    ["citnnkk", "cjitnnkkx", "cj", "jx", "jxxxxx", "cjx", "jxxxx"][kind as usize - 1]
}

// The refusal of an argument, 0 for none.
fn fault(argument: char, x: u64) -> u64 {
    let (good, number) = match argument {
        'c' => ((1..=999).contains(&x), 4),
        'j' => ((1..=999).contains(&x), 5),
        'i' => ([0, 2, 3].contains(&x), 6),
        't' => (x <= 1, 6),
        'n' => (x <= 15, 6),
        'k' => (x < 1 << 56, 6),
        _ => (true, 0),
    };
    if good { 0 } else { number }
}

pub fn form(kind: u64, arguments: &[u64]) -> Vec<u8> {
    let mut out = encode(kind);
    out.extend(arguments.iter().flat_map(|x| encode(*x)));
    out
}

// The kind, arguments and length of the request at the start of s, or the refusal.
pub fn parse(s: &[u8]) -> Result<(u64, Vec<u64>, usize), u64> {
    let (kind, mut at) = decode(s)?;
    if kind < 1 || kind > 7 {
        return Err(3);
    }
    let mut arguments = Vec::new();
    for argument in schema(kind).chars() {
        let (x, n) = decode(&s[at..])?;
        match fault(argument, x) {
            0 => arguments.push(x),
            number => return Err(number),
        }
        at += n;
    }
    Ok((kind, arguments, at))
}
