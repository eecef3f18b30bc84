//! Value change dumps (IEEE 1364, four states) to event words: a second reader, written from Wish 10 and the readings in
//! docs/DECISIONS.md. It shares no code with the proved crates.

/// What a call tells: the words, the refusal or 0, and its place.
#[derive(Debug, PartialEq, Eq, Clone)]
pub struct Answer {
    pub words: Vec<u32>,
    pub number: u8,
    pub place: usize,
}

/// A refusal: number and place.
type Refusal = (u8, usize);

struct Token<'a> {
    place: usize,
    bytes: &'a [u8],
}

struct Variable<'a> {
    code: &'a [u8],
    pin: Option<u32>,
}

fn is_white(b: u8) -> bool {
    matches!(b, 9..=13 | 32)
}

fn tokens(file: &[u8]) -> Vec<Token<'_>> {
    let mut found = Vec::new();
    let mut begin = None;
    for (place, &b) in file.iter().enumerate() {
        match (begin, is_white(b)) {
            (None, false) => begin = Some(place),
            (Some(from), true) => {
                found.push(Token { place: from, bytes: &file[from..place] });
                begin = None;
            }
            _ => {}
        }
    }
    if let Some(from) = begin {
        found.push(Token { place: from, bytes: &file[from..] });
    }
    found
}

fn graphic(t: &[u8]) -> bool {
    t.iter().all(|b| (0x21..=0x7e).contains(b))
}

fn digits(t: &[u8]) -> bool {
    !t.is_empty() && t.iter().all(u8::is_ascii_digit)
}

/// [n] or [m:n], each number with or without a minus sign.
fn is_index(t: &[u8]) -> bool {
    let Some(inside) = t.strip_prefix(b"[").and_then(|r| r.strip_suffix(b"]")) else { return false };
    let number = |n: &[u8]| digits(n.strip_prefix(b"-").unwrap_or(n));
    let parts: Vec<&[u8]> = inside.split(|&b| b == b':').collect();
    parts.len() <= 2 && parts.iter().all(|n| number(n))
}

/// What C's %.16g prints.
pub fn is_real(t: &[u8]) -> bool {
    let t = t.strip_prefix(b"+").or_else(|| t.strip_prefix(b"-")).unwrap_or(t);
    if t.eq_ignore_ascii_case(b"nan") || t.eq_ignore_ascii_case(b"inf") {
        return true;
    }
    let mut halves = t.splitn(2, |b| *b == b'e' || *b == b'E');
    let mantissa = halves.next().unwrap_or(b"");
    let exponent_right = match halves.next() {
        None => true,
        Some(x) => digits(x.strip_prefix(b"+").or_else(|| x.strip_prefix(b"-")).unwrap_or(x)),
    };
    let mut sides = mantissa.splitn(2, |b| *b == b'.');
    let whole = sides.next().unwrap_or(b"");
    exponent_right && digits(whole) && sides.next().is_none_or(digits)
}

/// A unit in ps, from the words of $timescale.
fn unit(words: &[&[u8]]) -> Option<u128> {
    let joined: Vec<u8> = words.concat();
    let cut = joined.iter().take_while(|b| b.is_ascii_digit()).count();
    let right_cut = match words {
        [_] => true,
        [count, _] => count.len() == cut,
        _ => false,
    };
    let count = match &joined[..cut] {
        b"1" => 1,
        b"10" => 10,
        b"100" => 100,
        _ => return None,
    };
    let each = match &joined[cut..] {
        b"ps" => 1,
        b"ns" => 1_000,
        b"us" => 1_000_000,
        _ => return None,
    };
    right_cut.then_some(count * each)
}

const DIGITAL: [&[u8]; 16] = [
    b"event", b"integer", b"parameter", b"reg", b"supply0", b"supply1", b"time", b"tri", b"triand", b"trior", b"trireg", b"tri0",
    b"tri1", b"wand", b"wire", b"wor",
];

struct Header<'a> {
    unit: Option<u128>,
    variables: Vec<Variable<'a>>,
    /// the number of the first token of the body
    next: usize,
}

/// The tokens of a section, after its keyword, and the number of the token after its `$end`; none where the file ends in it.
fn section<'t, 'a>(all: &'t [Token<'a>], from: usize) -> (&'t [Token<'a>], Option<usize>) {
    match all[from..].iter().position(|t| t.bytes == b"$end") {
        Some(n) => (&all[from..from + n], Some(from + n + 1)),
        None => (&all[from..], None),
    }
}

fn variable<'a>(parts: &[&'a [u8]], earlier: &[Variable<'a>]) -> Option<Variable<'a>> {
    let [sort, size, code, name, rest @ ..] = parts else { return None };
    let digital = DIGITAL.contains(sort);
    if !(digital || *sort == b"real" || *sort == b"realtime") || !digits(size) || !graphic(code) || !graphic(name) {
        return None;
    }
    if !rest.is_empty() && !is_index(&rest.concat()) {
        return None;
    }
    let one = size.iter().rposition(|b| *b != b'0').is_some_and(|n| n == size.len() - 1 && size[n] == b'1')
        && size.iter().filter(|b| **b != b'0').count() == 1;
    let pin = match *name {
        b"SDA" => Some(24),
        b"SCL" => Some(25),
        b"HSYNCI" => Some(26),
        b"VSYNCI" => Some(27),
        _ => None,
    };
    let first = !earlier.iter().any(|v| v.pin == pin);
    Some(Variable { code, pin: pin.filter(|_| digital && one && rest.is_empty() && first) })
}

fn header<'a>(all: &[Token<'a>]) -> Result<Header<'a>, Refusal> {
    let mut h = Header { unit: None, variables: Vec::new(), next: 0 };
    while h.next < all.len() {
        let keyword = &all[h.next];
        let (inside, after) = section(all, h.next + 1);
        let words: Vec<&[u8]> = inside.iter().map(|t| t.bytes).collect();
        let fault = Err((40, keyword.place));
        match keyword.bytes {
            b"$comment" | b"$date" | b"$version" => {}
            b"$timescale" => match inside.first() {
                None => return fault,
                Some(first) => match unit(&words) {
                    None => return Err((40, first.place)),
                    found => h.unit = found,
                },
            },
            b"$scope" => {
                let kinds: [&[u8]; 5] = [b"module", b"task", b"function", b"begin", b"fork"];
                if words.len() != 2 || !kinds.contains(&words[0]) || !graphic(words[1]) {
                    return fault;
                }
            }
            b"$upscope" | b"$enddefinitions" if !words.is_empty() => return fault,
            b"$upscope" | b"$enddefinitions" => {}
            b"$var" => match variable(&words, &h.variables) {
                None => return fault,
                Some(_) if after.is_none() => return fault,
                Some(_) if h.variables.len() == 32 => return Err((42, keyword.place)),
                Some(v) => h.variables.push(v),
            },
            _ => return fault,
        }
        match after {
            None => return fault,
            Some(n) => h.next = n,
        }
        if keyword.bytes == b"$enddefinitions" {
            return Ok(h);
        }
    }
    Ok(h)
}

/// A header: the unit in ps, each variable's code with the pin that it stands for, and the place where the body begins.
pub struct Head {
    pub unit: Option<u128>,
    pub variables: Vec<(Vec<u8>, Option<u32>)>,
    pub body: usize,
}

/// The header alone. Its tokens end with the first `$end` behind `$enddefinitions`; where these words are inside a comment, all
/// tokens are looked at.
pub fn head(file: &[u8]) -> Result<Head, (u8, usize)> {
    let behind = |word: &[u8], from: usize| file[from..].windows(word.len()).position(|w| w == word).map(|n| from + n + word.len());
    let near = behind(b"$enddefinitions", 0).and_then(|n| behind(b"$end", n)).unwrap_or(file.len());
    for end in [near, file.len()] {
        let all = tokens(&file[..end]);
        let whole = all.len() > 1 && all[all.len() - 2].bytes == b"$enddefinitions" && file.get(end).is_none_or(|b| is_white(*b));
        match header(&all) {
            Ok(h) if end == file.len() || (whole && h.next == all.len()) => {
                let variables = h.variables.iter().map(|v| (v.code.to_vec(), v.pin)).collect();
                return Ok(Head { unit: h.unit, variables, body: all.get(h.next).map_or(end, |t| t.place) });
            }
            Err(refusal) if end == file.len() => return Err(refusal),
            _ => {}
        }
    }
    unreachable!("the second turn is over the whole file")
}

struct Writer {
    words: Vec<u32>,
    room: usize,
    clocks: u128,
}

impl Writer {
    fn put(&mut self, word: u32, place: usize) -> Result<(), Refusal> {
        if self.words.len() == self.room {
            return Err((43, place));
        }
        self.words.push(word);
        Ok(())
    }
}

fn body(all: &[Token<'_>], h: &Header<'_>, w: &mut Writer) -> Result<(), Refusal> {
    let declared = |code: &[u8]| h.variables.iter().any(|v| v.code == code);
    let mut time: u128 = 0;
    let mut dump: Option<usize> = None;
    let mut i = h.next;
    while i < all.len() {
        let t = &all[i];
        let fault = Err((40, t.place));
        i += 1;
        match t.bytes[0] {
            state @ (b'0' | b'1' | b'x' | b'X' | b'z' | b'Z') => {
                if !declared(&t.bytes[1..]) {
                    return fault;
                }
                for v in h.variables.iter().filter(|v| v.code == &t.bytes[1..]) {
                    if let Some(pin) = v.pin {
                        w.put(0x0300_0000 | pin << 8 | u32::from(state != b'0'), t.place)?;
                    }
                }
            }
            b'b' | b'B' | b'r' | b'R' => {
                let value = &t.bytes[1..];
                let right = if t.bytes[0].eq_ignore_ascii_case(&b'b') {
                    !value.is_empty() && value.iter().all(|b| b"01xXzZ".contains(b))
                } else {
                    is_real(value)
                };
                if !right || i == all.len() || !declared(all[i].bytes) {
                    return fault;
                }
                i += 1;
            }
            b'#' => {
                let (Some(unit), None, true) = (h.unit, dump, digits(&t.bytes[1..])) else { return fault };
                let number = t.bytes[1..].iter().try_fold(0u128, |n, b| {
                    let grown = n * 10 + u128::from(b - b'0');
                    (grown < 1 << 100).then_some(grown)
                });
                if number.is_some_and(|n| n * unit < time) {
                    return Err((41, t.place));
                }
                let Some(now) = number.map(|n| n * unit).filter(|n| *n < 1 << 64) else { return Err((44, t.place)) };
                while (w.clocks + 1) * 8_000_000 <= now {
                    w.put(0x0400_0000, t.place)?;
                    w.clocks += 1;
                }
                time = now;
            }
            b'$' => match (t.bytes, dump) {
                (b"$end", Some(_)) => dump = None,
                (b"$comment", None) => match section(all, i).1 {
                    None => return fault,
                    Some(n) => i = n,
                },
                (b"$dumpvars" | b"$dumpall" | b"$dumpon" | b"$dumpoff", None) => dump = Some(t.place),
                _ => return fault,
            },
            _ => return fault,
        }
    }
    dump.map_or(Ok(()), |place| Err((40, place)))
}

/// Reads a file, with room for so many words.
pub fn read(file: &[u8], room: usize) -> Answer {
    let all = tokens(file);
    let mut w = Writer { words: Vec::new(), room, clocks: 0 };
    let done = header(&all).and_then(|h| body(&all, &h, &mut w));
    let (number, place) = done.err().unwrap_or((0, 0));
    Answer { words: w.words, number, place }
}

#[cfg(test)]
mod tests {
    use super::*;

    const HEAD: &str = "$timescale 1 us $end $var wire 1 ! SCL $end $enddefinitions $end ";

    fn told(body: &str, room: usize) -> (Vec<u32>, u8, usize) {
        let a = read(format!("{HEAD}{body}").as_bytes(), room);
        (a.words, a.number, a.place)
    }

    #[test]
    fn changes_and_clocks() {
        assert_eq!(told("1! #8 0! #16", 9), (vec![0x0300_1901, 0x0400_0000, 0x0300_1900, 0x0400_0000], 0, 0));
    }

    #[test]
    fn refusals() {
        let n = HEAD.len();
        assert_eq!(told("1? ", 9), (vec![], 40, n));
        assert_eq!(told("#9 #8", 9), (vec![0x0400_0000], 41, n + 3));
        assert_eq!(told("#20", 1), (vec![0x0400_0000], 43, n));
        assert_eq!(told("#18446744073710", 0), (vec![], 44, n));
        assert_eq!(told("$dumpvars 1!", 9), (vec![0x0300_1901], 40, n));
    }
}
