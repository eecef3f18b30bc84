//! A reader of value change dumps in plain Rust for the bench, tuned: the header by the model, the body in one pass over the bytes,
//! without a list of tokens, codes of one byte by a table. It follows the rules of the model on every file.

use nt6861_model::vcd::{head, Head};

fn is_white(b: u8) -> bool {
    matches!(b, 9..=13 | 32)
}

/// The end of the token that begins at a place.
fn token_end(file: &[u8], mut at: usize) -> usize {
    while at < file.len() && !is_white(file[at]) {
        at += 1;
    }
    at
}

fn skip_white(file: &[u8], mut at: usize) -> usize {
    while at < file.len() && is_white(file[at]) {
        at += 1;
    }
    at
}

/// The pins of each code, in the order of the file.
struct Codes {
    single: [Option<u8>; 256],
    lists: Vec<(Vec<u8>, Vec<u32>)>,
}

impl Codes {
    fn new(h: &Head) -> Codes {
        let mut lists: Vec<(Vec<u8>, Vec<u32>)> = Vec::new();
        for (code, pin) in &h.variables {
            let at = lists.iter().position(|(c, _)| c == code).unwrap_or_else(|| {
                lists.push((code.clone(), Vec::new()));
                lists.len() - 1
            });
            lists[at].1.extend(pin);
        }
        let mut single = [None; 256];
        for (at, (code, _)) in lists.iter().enumerate() {
            if let [b] = code[..] {
                single[usize::from(b)] = Some(at as u8);
            }
        }
        Codes { single, lists }
    }

    fn find(&self, code: &[u8]) -> Option<&[u32]> {
        match code {
            [b] => self.single[usize::from(*b)].map(|at| &self.lists[usize::from(at)].1[..]),
            _ => self.lists.iter().find(|(c, _)| c == code).map(|(_, pins)| &pins[..]),
        }
    }
}

/// The words of a file in the places lent: the number told, the words written, and the place of the refusal.
pub fn read(file: &[u8], words: &mut [u32]) -> (u8, usize, usize) {
    let h = match head(file) {
        Ok(h) => h,
        Err((number, place)) => return (number, 0, place),
    };
    let codes = Codes::new(&h);
    let (mut count, mut time, mut due) = (0, 0u64, 8_000_000u64);
    let mut dump = None;
    let mut at = skip_white(file, h.body);
    while at < file.len() {
        let end = token_end(file, at);
        let t = &file[at..end];
        let fault = (40, count, at);
        let mut next = end;
        match t[0] {
            state @ (b'0' | b'1' | b'x' | b'X' | b'z' | b'Z') => {
                let Some(pins) = codes.find(&t[1..]) else { return fault };
                for pin in pins {
                    if count == words.len() {
                        return (43, count, at);
                    }
                    words[count] = 0x0300_0000 | pin << 8 | u32::from(state != b'0');
                    count += 1;
                }
            }
            b'#' => {
                let (Some(unit), None, true) = (h.unit, dump, t.len() > 1) else { return fault };
                let mut number = Some(0u64);
                for b in &t[1..] {
                    if !b.is_ascii_digit() {
                        return fault;
                    }
                    number = number.and_then(|n| n.checked_mul(10)?.checked_add(u64::from(b - b'0')));
                }
                let Some(now) = number.and_then(|n| n.checked_mul(unit as u64)) else { return (44, count, at) };
                if now < time {
                    return (41, count, at);
                }
                while due <= now {
                    if count == words.len() {
                        return (43, count, at);
                    }
                    words[count] = 0x0400_0000;
                    count += 1;
                    match due.checked_add(8_000_000) {
                        Some(later) => due = later,
                        None => break,
                    }
                }
                time = now;
            }
            b'b' | b'B' | b'r' | b'R' => {
                let from = skip_white(file, end);
                let to = token_end(file, from);
                let right = if t[0] | 32 == b'b' { t.len() > 1 && t[1..].iter().all(|b| b"01xXzZ".contains(b)) } else { nt6861_model::vcd::is_real(&t[1..]) };
                if !right || codes.find(&file[from..to]).is_none() {
                    return fault;
                }
                next = to;
            }
            b'$' => match (t, dump) {
                (b"$end", Some(_)) => dump = None,
                (b"$comment", None) => loop {
                    let from = skip_white(file, next);
                    if from == file.len() {
                        return fault;
                    }
                    next = token_end(file, from);
                    if &file[from..next] == b"$end" {
                        break;
                    }
                },
                (b"$dumpvars" | b"$dumpall" | b"$dumpon" | b"$dumpoff", None) => dump = Some(at),
                _ => return fault,
            },
            _ => return fault,
        }
        at = skip_white(file, next);
    }
    match dump {
        Some(place) => (40, count, place),
        None => (0, count, 0),
    }
}
