//! The proved reader of value change dumps, linked from its static library, beside the independent one of the model: generated
//! files, every byte of a small file damaged, every cut of it, rooms from none to enough, and the words in pieces; each type, scope, unit
//! and real value by itself, and the last time that 64 bits hold, with the first that they do not, by each unit.

use nt6861_model::vcd::{read, Answer};
use std::collections::BTreeMap;
#[path = "../commands/vcd_link.rs"]
mod vcd_link;
use vcd_link::{more, whole};
#[path = "../bench/vcd.rs"]
mod tuned;

/// A small generator of pseudo-random numbers (xorshift).
struct Dice(u64);

impl Dice {
    fn below(&mut self, n: u64) -> u64 {
        self.0 ^= self.0 << 13;
        self.0 ^= self.0 >> 7;
        self.0 ^= self.0 << 17;
        self.0 % n
    }
    fn of<'a>(&mut self, choices: &[&'a str]) -> &'a str {
        choices[self.below(choices.len() as u64) as usize]
    }
}

const SENTINEL: u32 = 0xa5a5_5a5a;

/// What a file may name: the types of variables, the scopes, the units as number and letters, and the words that begin a section.
const SORTS: [&str; 18] = [
    "wire", "reg", "event", "integer", "parameter", "real", "realtime", "supply0", "supply1", "time", "tri", "triand", "trior", "trireg",
    "tri0", "tri1", "wand", "wor",
];
const SCOPES: [&str; 5] = ["module", "task", "function", "begin", "fork"];
const UNITS: [(&str, &str, u64); 9] = [
    ("1", "ps", 1),
    ("10", "ps", 10),
    ("100", "ps", 100),
    ("1", "ns", 1_000),
    ("10", "ns", 10_000),
    ("100", "ns", 100_000),
    ("1", "us", 1_000_000),
    ("10", "us", 10_000_000),
    ("100", "us", 100_000_000),
];
const SECTIONS: [&str; 12] = [
    "$comment", "$date", "$version", "$timescale", "$scope", "$upscope", "$var", "$enddefinitions", "$dumpvars", "$dumpall", "$dumpon",
    "$dumpoff",
];
/// Real values in every writing that is taken, and behind them some that are not.
const REALS: [&str; 27] = [
    "nan", "NaN", "NAN", "-nan", "+NaN", "inf", "Inf", "INF", "-inf", "+INF", "0", "-0", "+7", "1.5", "00.50", "1e9", "1E-20", "-1.5e+20",
    "", "-", "+-1", "1.", ".5", "1e", "1e+", "infinity", "nan0",
];

/// Compares one file at one room: words, number, place, places past the words, and the same in pieces.
fn compare(file: &[u8], room: usize, piece: usize) -> Answer {
    let expected = read(file, room);
    let mut plain = vec![SENTINEL; room];
    let (number, count, place) = tuned::read(file, &mut plain);
    assert_eq!((number, &plain[..count], place), (expected.number, &expected.words[..], expected.place), "the bench's reader on {file:?}");
    let mut words = vec![SENTINEL; room];
    let (number, told) = whole(file, &mut words);
    let count = told[0] as usize;
    let same = number == expected.number
        && told[1] as usize == expected.place
        && words.get(..count) == Some(&expected.words[..])
        && words[count..].iter().all(|w| *w == SENTINEL);
    assert!(same, "{}\nroom {room}: {number} at {} with {count} words, expected {expected:?}", String::from_utf8_lossy(file), told[1]);
    if room >= expected.words.len() && expected.number != 43 {
        pieces(file, &expected, piece);
    }
    expected
}

fn pieces(file: &[u8], expected: &Answer, size: usize) {
    let mut cursor = [0u64; 8];
    let mut all = Vec::new();
    loop {
        let mut words = vec![SENTINEL; size];
        let (number, told) = more(file, &mut words, &mut cursor);
        assert!(words[told[0] as usize..].iter().all(|w| *w == SENTINEL));
        all.extend_from_slice(&words[..told[0] as usize]);
        if number != 43 {
            let same = all == expected.words && number == expected.number && told[1] as usize == expected.place;
            assert!(same, "{}\npieces of {size}: {number} at {}", String::from_utf8_lossy(file), told[1]);
            return;
        }
    }
}

/// A header; where it is clean, one that is accepted. The codes that it declares are told.
fn header(d: &mut Dice, clean: bool) -> (String, Vec<&'static str>) {
    let mut text = String::new();
    let mut codes = Vec::new();
    text += d.of(&["$date today $end\n", "$version a b $end\r\n", "$comment \u{1} $enD $end\n", ""]);
    if clean || d.below(8) > 0 {
        let (count, letters, _) = UNITS[d.below(9) as usize];
        let between = d.of(&["", " ", "\n\t"]);
        let wrong = ["$timescale 2 ns $end ", "$timescale 1 $end ", "$timescale 10us ", "$timescale 1 0ns $end ", "$timescale 1ms $end "];
        text += &if clean || d.below(3) > 0 { format!("$timescale {count}{between}{letters} $end\n") } else { d.of(&wrong).to_string() };
    }
    match d.below(if clean { 3 } else { 4 }) {
        0 => text += &format!("$scope {} top $end\n", d.of(&SCOPES)),
        1 => text += "$upscope $end\n",
        2 => {}
        _ => text += d.of(&["$scope struct s $end\n", "$scope module $end ", "$scope fork a b $end ", "$upscope x $end "]),
    }
    let many = if d.below(20) == 0 { 31 + d.below(if clean { 2 } else { 3 }) } else { d.below(9) };
    // a fault among so many would hide their number
    let plain = clean || many > 30;
    for _ in 0..many {
        let sizes = ["1", "1", "1", "01", "8", "18446744073709551617", "x"];
        let sort = if d.below(3) > 0 { "wire" } else if plain || d.below(8) > 0 { d.of(&SORTS) } else { d.of(&["logic", "tri2", "wired"]) };
        let size = if d.below(2) > 0 { "1" } else { d.of(if plain { &sizes[..6] } else { &sizes }) };
        let code = d.of(&["!", "\"", "ab", "!", "\"", "ab", "#", "abc", "a-c"]);
        let name = d.of(&["SCL", "SDA", "HSYNCI", "VSYNCI", "scl", "data", "SDA"]);
        let indices = ["[0]", "[7:0]", "[-1:2]", "[3 : 1]", "[", "[a]"];
        let index = if d.below(5) > 0 { "" } else { d.of(if plain { &indices[..4] } else { &indices }) };
        text += &format!("$var {sort} {size} {code} {name} {index} $end\n");
        codes.push(code);
    }
    let ends = ["$enddefinitions $end\n", "$enddefinitions $end ", "$enddefinitions x $end", ""];
    text += d.of(if clean { &ends[..2] } else { &ends });
    (text, codes)
}

fn body(d: &mut Dice, clean: bool, codes: &[&'static str]) -> String {
    let mut text = String::new();
    let mut time = 0u64;
    for _ in 0..d.below(25) {
        let code = if clean && !codes.is_empty() { d.of(codes) } else { d.of(&["!", "\"", "ab", "#", "abc", "q"]) };
        if clean && codes.is_empty() {
            break;
        }
        match d.below(if clean { 10 } else { 12 }) {
            0..=4 => text += &format!("{}{code}\n", d.of(&["0", "1", "x", "Z", "1"])),
            5..=7 => {
                time = if clean || d.below(12) > 0 { time + d.below(40) } else { time.saturating_sub(1 + d.below(3)) };
                text += &format!("#{time}\n");
            }
            8 => {
                let values = ["b0101", "B1xz", "r1.5", "R-1e+20", "rnan", "rinf", "rNaN", "r-inf", "RINF", "b", "r1.", "b12", "r--inf"];
                text += &format!("{} {code}\n", d.of(if clean { &values[..9] } else { &values }));
            }
            9 if clean => text += &format!("{} 1{code} $end\n", d.of(&["$dumpvars", "$dumpoff", "$dumpon", "$dumpall", "$comment #1"])),
            9 => {
                let parts = ["$dumpvars 1! $end\n", "$dumpoff x! $end ", "$dumpon 0! $end ", "$dumpall\n", "$end\n", "$comment #1 $end\n", "$dumpvars #3 $end\n", "$dump $end\n"];
                text += d.of(&parts);
            }
            10 => text += d.of(&["\u{b}\u{c}", "\r\n", "1 !\n", "#\n", "#00\n", "zz "]),
            _ => text += d.of(&["", "#18446744073709551615\n", "#18446744073709551616\n", "#99999999999999999999999\n"]),
        }
    }
    text
}

/// A small file that has each sort of section, change and keyword.
const SMALL: &str = "$date d $end $timescale 1 us $end $scope module m $end $var wire 1 ! SCL $end $var reg 1 ab SDA $end $var wire 4 % v [3:0] $end $upscope $end $enddefinitions $end\n$dumpvars 0! xab b01z0 % $end #3 1! r1.5 ! #8 0ab $comment c $end #17 1ab\n";

/// How often the files name each word of the lists above, before the place of a refusal.
struct Reached {
    words: BTreeMap<String, u64>,
}

impl Reached {
    fn note(&mut self, file: &[u8], answer: &Answer) {
        let end = if answer.number == 0 { file.len() } else { answer.place };
        let text = String::from_utf8_lossy(&file[..end]);
        let mut tokens = text.split_ascii_whitespace().peekable();
        while let Some(word) = tokens.next() {
            let inside = match word {
                "$var" | "$scope" => tokens.peek().map(|t| t.to_string()),
                "$timescale" => Some(tokens.clone().take_while(|t| *t != "$end").collect::<Vec<_>>().join(" ")),
                _ => None,
            };
            for named in [Some(word.to_string()), inside].into_iter().flatten() {
                *self.words.entry(named).or_insert(0) += 1;
            }
        }
    }

    /// Each word of a list is reached; the one that is so least often is told.
    fn all(&self, what: &str, list: &[String]) {
        let count = |w: &String| self.words.get(w).copied().unwrap_or(0);
        let least = list.iter().min_by_key(|w| count(w)).expect("a word");
        assert!(count(least) > 0, "no generated file names {least}");
        println!("{what}: all {} reached, {least} least often, in {} places", list.len(), count(least));
    }
}

/// Each type at each size, each scope, each unit joined and apart, each real value; by each unit the last time that 64 bits hold in ps, with
/// the first that they do not, where the room is too small for the clocks: 44 is told before 43.
fn each_word(run: &mut dyn FnMut(&[u8], usize, usize)) {
    let mut whole = |text: String| run(text.as_bytes(), 100, 2);
    // a word as it is, a byte shorter at either end, a byte longer, and in capitals
    let written = |word: &str| [word.to_string(), word[1..].to_string(), word[..word.len() - 1].to_string(), format!("{word}x"), word.to_uppercase()];
    for sort in SORTS {
        for size in ["1", "01", "2", "10"] {
            for word in written(sort) {
                whole(format!("$timescale 1us $end $var {word} {size} ! SCL $end $var wire 1 ! SDA $end $enddefinitions $end 1! #9 0! b0 !"));
            }
        }
    }
    for word in SCOPES.iter().flat_map(|scope| written(scope)) {
        whole(format!("$scope {word} a $end $var wire 1 ! SCL $end $enddefinitions $end 1!"));
    }
    for word in SECTIONS.iter().flat_map(|section| written(section)) {
        for inside in ["", "1!", "1 us", "module a", "wire 1 ! SCL"] {
            whole(format!("$var wire 1 ! SDA $end {word} {inside} $end $enddefinitions $end 1!"));
            whole(format!("$var wire 1 ! SDA $end $enddefinitions $end 1! {word} {inside} $end 0!"));
        }
    }
    for real in REALS {
        for sign in ["r", "R"] {
            whole(format!("$var real 64 ! v $end $var wire 1 \" SCL $end $enddefinitions $end {sign}{real} ! 1\""));
        }
    }
    for (count, letters, unit) in UNITS {
        let last = u64::MAX / unit;
        for between in ["", " ", "\n"] {
            let head = format!("$timescale {count}{between}{letters} $end $var wire 1 ! SCL $end $enddefinitions $end 1! ");
            for room in 0..=8 {
                for time in [u128::from(last) - 1, u128::from(last), u128::from(last) + 1, u128::from(last) * 10 + 9] {
                    run(format!("{head}#{time} 0!").as_bytes(), room, 1);
                    run(format!("{head}#1 0! #0{time}").as_bytes(), room, 1);
                }
            }
            let clocks = 40_000_000 / unit;
            run(format!("{head}#{} 0! #{} 1! #{clocks}", clocks / 5, clocks / 2).as_bytes(), 100, 3);
        }
    }
}

/// A file of about so many bytes: eight variables, a change in four of five tokens.
fn traffic(size: usize, codes: &[&'static str], step: u64) -> Vec<u8> {
    let mut d = Dice(0x1234_5678_9abc_def1);
    let mut text = String::from("$timescale 1 ns $end\n");
    for (k, code) in codes.iter().enumerate() {
        let name = ["SCL", "SDA", "HSYNCI", "VSYNCI"].get(k).map_or_else(|| format!("v{k}"), |n| n.to_string());
        text += &format!("$var wire 1 {code} {name} $end\n");
    }
    text += "$enddefinitions $end\n";
    let mut time = 0;
    while text.len() < size {
        if d.below(5) == 0 {
            time += 1 + d.below(step);
            text += &format!("#{time}\n");
        } else {
            text += &format!("{}{}\n", d.of(&["0", "1"]), d.of(codes));
        }
    }
    text.into_bytes()
}

/// MB a second of the proved reader and of the model's, best of five each, side by side.
fn bench() {
    let short = ["!", "\"", "#", "$", "%", "&", "'", "("];
    let long = ["aa!", "aa\"", "aa#", "ab!", "ab\"", "ab#", "ac!", "ac\""];
    for (what, codes, step) in [("codes of one byte", &short, 200), ("codes of three bytes", &long, 200), ("many clocks", &short, 40_000)] {
        for size in [2_000_000, 8_000_000, 32_000_000] {
            let file = traffic(size, codes, step);
            let mut words = vec![0u32; 64_000_000];
            let mut plain = vec![0u32; 64_000_000];
            let mut best = [f64::MAX; 3];
            for _ in 0..5 {
                let began = std::time::Instant::now();
                let (number, told) = whole(&file, &mut words);
                best[0] = best[0].min(began.elapsed().as_secs_f64());
                let began = std::time::Instant::now();
                let model = read(&file, words.len());
                best[1] = best[1].min(began.elapsed().as_secs_f64());
                let began = std::time::Instant::now();
                let (_, count, _) = tuned::read(&file, &mut plain);
                best[2] = best[2].min(began.elapsed().as_secs_f64());
                assert!(number == 0 && model.number == 0 && told[0] as usize == model.words.len());
                assert!(plain[..count] == model.words[..] && words[..count] == model.words[..]);
            }
            let speed = |s: f64| file.len() as f64 / s / 1e6;
            println!(
                "| {what}, {} MB | {:.0} | {:.0} | {:.0} | {:.2} |",
                size / 1_000_000,
                speed(best[0]),
                speed(best[2]),
                speed(best[1]),
                best[2] / best[0]
            );
        }
    }
}

fn main() {
    if std::env::args().nth(1).as_deref() == Some("bench") {
        return bench();
    }
    let mut d = Dice(0x9e37_79b9_7f4a_7c15);
    let mut numbers = [0u64; 45];
    let mut files = 0u64;
    let mut reached = Reached { words: BTreeMap::new() };
    let mut run = |file: &[u8], room: usize, piece: usize| {
        let answer = compare(file, room, piece);
        numbers[answer.number as usize] += 1;
        files += 1;
        answer
    };
    for _ in 0..60_000 {
        let clean = d.below(2) == 0;
        let (head, codes) = header(&mut d, clean);
        let file = head + &body(&mut d, clean, &codes);
        let room = if d.below(3) == 0 { d.below(8) as usize } else { 4_000 };
        let piece = 1 + d.below(5) as usize;
        let answer = run(file.as_bytes(), room, piece);
        reached.note(file.as_bytes(), &answer);
    }
    each_word(&mut |file, room, piece| drop(run(file, room, piece)));
    let small = SMALL.as_bytes();
    for at in 0..=small.len() {
        run(&small[..at], 100, 1);
        for room in 0..12 {
            run(&small[..at], room, 2);
        }
    }
    for at in 0..small.len() {
        for b in 0..=255u8 {
            let mut file = small.to_vec();
            file[at] = b;
            run(&file, 100, 3);
        }
        let mut shorter = small.to_vec();
        shorter.remove(at);
        run(&shorter, 100, 1);
    }
    // the stored dumps, whole and cut
    for entry in std::fs::read_dir("tests/vcd").expect("run at the repository's top") {
        let path = entry.expect("an entry").path();
        if path.extension().is_some_and(|e| e == "vcd") {
            let file = std::fs::read(&path).expect("a stored dump");
            for at in 0..=file.len() {
                run(&file[..at], 1_000, 2);
            }
        }
    }
    // told of another length: 15, and nothing is touched
    vcd_link::check_lengths();
    let own = |list: &[&str]| list.iter().map(|w| w.to_string()).collect::<Vec<_>>();
    reached.all("types", &own(&SORTS));
    reached.all("scopes", &own(&SCOPES));
    reached.all("units", &UNITS.iter().flat_map(|(count, letters, _)| [format!("{count}{letters}"), format!("{count} {letters}")]).collect::<Vec<_>>());
    reached.all("sections", &own(&SECTIONS));
    for n in [0, 40, 41, 42, 43, 44] {
        assert!(numbers[n] > 0, "no file is told {n}");
        println!("number {n}: {}", numbers[n]);
    }
    println!("vcd agree: {files}");
}
