//! `./nt6861 firmware` with a host, labels or points to stop at: an image run from power up on the proved firmware call, beside a host that
//! watches the proved lines of the bus. What the host did is reported on standard output. At the end the whole run is made again by the
//! proved call in one go, with the events that were given, and must answer and end alike.

mod acts;
mod bus_host;
mod descriptors;
mod hosted_link;
#[path = "../model/opcodes.rs"]
mod opcodes;
mod symbols;
use acts::Time;
use bus_host::{microseconds, End, Ended, Found, Hold, Host, Machine, Watcher};
use hosted_link::{Proved, State, ROM_SIZE};
use std::fs::File;
use std::io::{BufWriter, Read, Write};
use std::process::ExitCode;
use symbols::Labels;

/// A status and its reason.
type Told = (u8, String);

const USAGE: &str = "./nt6861 firmware -h says what it takes";
/// Bytes of a text that is read.
const TEXT: u64 = 1 << 20;

#[derive(Default)]
struct Options {
    host: Option<String>,
    labels: Option<String>,
    until: Option<String>,
    breaks: Vec<String>,
    watches: Vec<String>,
    most_hold: Option<Time>,
    holds: bool,
    events: Option<String>,
    lines: Option<String>,
    trace: bool,
    rom: String,
    count: Option<u32>,
}

fn misused(why: String) -> Told {
    (2, format!("{why}; {USAGE}"))
}

fn options(arguments: &[String]) -> Result<Options, Told> {
    let mut options = Options::default();
    let mut rest = Vec::new();
    let mut left = arguments.iter();
    while let Some(argument) = left.next() {
        let mut value = || left.next().cloned().ok_or(misused(format!("nothing follows {argument}")));
        match argument.as_str() {
            "--host" => options.host = Some(value()?),
            "--labels" => options.labels = Some(value()?),
            "--until" => options.until = Some(value()?),
            "--break" => options.breaks.push(value()?),
            "--watch" => options.watches.push(value()?),
            "--events" => options.events = Some(value()?),
            "--lines" => options.lines = Some(value()?),
            "--max-hold" => {
                let text = value()?;
                options.most_hold = Some(acts::time(&text).ok_or(misused(format!("{text}: not a time, as 2ms")))?);
            }
            "--holds" => options.holds = true,
            "-t" => options.trace = true,
            _ if argument.starts_with('-') => return Err(misused(format!("no option {argument}"))),
            _ => rest.push(argument.clone()),
        }
    }
    let given = rest.len();
    let mut rest = rest.into_iter();
    options.rom = rest.next().filter(|_| given <= 2).ok_or(misused(format!("an image and a count at most, and {given} are given")))?;
    if let Some(text) = rest.next() {
        let digits = !text.is_empty() && text.bytes().all(|byte| byte.is_ascii_digit());
        let number = digits.then(|| text.parse().ok()).flatten();
        options.count = Some(number.ok_or((2, format!("{text}: not a decimal number up to 4294967295")))?);
    }
    if options.host.is_none() && options.count.is_none() {
        return Err(misused("without a host a count is needed".to_string()));
    }
    Ok(options)
}

/// The first bytes of a file, one more than are taken where it is longer.
fn bytes_of(name: &str, most: u64) -> Result<Vec<u8>, Told> {
    let told = |error: std::io::Error| (2, format!("{name}: {}", descriptors::reason(&error)));
    let mut bytes = Vec::new();
    File::open(name).and_then(|file| file.take(most + 1).read_to_end(&mut bytes)).map_err(told)?;
    Ok(bytes)
}

fn image(name: &str) -> Result<Box<[u8; ROM_SIZE]>, Told> {
    let bytes = bytes_of(name, ROM_SIZE as u64)?;
    let length = bytes.len();
    let told = if length > ROM_SIZE { format!("more than {ROM_SIZE}") } else { length.to_string() };
    bytes.into_boxed_slice().try_into().map_err(|_| (1, format!("{name}: {told} bytes, not {ROM_SIZE}")))
}

fn text_of(name: &str) -> Result<String, Told> {
    let bytes = bytes_of(name, TEXT)?;
    if bytes.len() as u64 > TEXT {
        return Err((1, format!("{name}: more than {TEXT} bytes")));
    }
    String::from_utf8(bytes).map_err(|error| {
        let line = error.as_bytes()[..error.utf8_error().valid_up_to()].iter().filter(|&&byte| byte == b'\n').count() + 1;
        (1, format!("{name}:{line}: not text"))
    })
}

/// A byte that is watched: its name, a register's number or an address of RAM, and what it was last.
struct Watched {
    name: String,
    place: u16,
    last: Option<u8>,
}

impl Watched {
    fn new(name: &str) -> Option<Watched> {
        let register = acts::REGISTERS.iter().position(|register| *register == name);
        let digits = name.len() == 4 && name.bytes().all(|byte| byte.is_ascii_hexdigit());
        let address = digits.then(|| u16::from_str_radix(name, 16).ok()).flatten().filter(|address| (0x0080..0x0180).contains(address));
        let place = register.map(|register| register as u16).or(address)?;
        Some(Watched { name: name.to_string(), place, last: None })
    }

    fn value<M: Machine>(&self, machine: &M) -> Option<u8> {
        match self.place {
            0..=0x25 => machine.register(self.place as u8),
            address => machine.memory(address),
        }
    }
}

/// Trace, points to stop at, and the transcript.
struct Looker {
    out: BufWriter<File>,
    labels: Labels,
    trace: bool,
    until: Option<u16>,
    /// Address, and how often it was reached.
    breaks: Vec<(u16, u64)>,
    watches: Vec<Watched>,
    reached: bool,
    /// Number, time and place of the instruction under way, for what is watched.
    under_way: (u32, Time, u16),
    /// The last event, and of each source what last took its flag from 0 to 1, and when.
    event: u32,
    asked: [(&'static str, Time); 6],
    /// The line of the instruction under way: its number, time, place and text.
    before: Option<String>,
    failed: Option<std::io::Error>,
}

const SOURCES: [&str; 6] = ["V", "E", "R", "A", "D", "S"];

/// What took a flag from 0 to 1, by its source: the kinds of Wish 3. D comes by a load in DDC1, whose event is a rise of VSYNCI.
fn cause(source: usize, word: u32, outcome: u32) -> &'static str {
    match (source, outcome) {
        (0, _) => "rise of VSYNCI",
        (1, _) => "rise of P16",
        (2, _) => "base timer",
        (3, 1) => "matched address A0H",
        (3, 2) => "matched address II ADR",
        (3, _) => "matched address, A0H and II ADR",
        (4, _) if word >> 8 & 0xFF == acts::VSYNCI as u32 => "load of DDC1",
        (4, _) => "ninth clock",
        _ => "fall of SCL",
    }
}

fn registers(cpu: &[u8; 8]) -> String {
    let [a, x, y, s, p, low, high, over] = cpu;
    format!("A={a:02X} X={x:02X} Y={y:02X} S={s:02X} P={p:02X} PC={high:02X}{low:02X} over={over:02X}")
}

impl Looker {
    fn write(&mut self, line: &str) {
        if let Err(error) = writeln!(self.out, "{line}") {
            self.failed.get_or_insert(error);
        }
    }

    /// Bytes that are watched and have changed, by an event before the instruction or by the instruction.
    fn changes<M: Machine>(&mut self, machine: &M, by_event: bool) {
        let (number, time, pc) = self.under_way;
        for place in 0..self.watches.len() {
            let watched = &self.watches[place];
            let (before, now) = (watched.last, watched.value(machine));
            if before == now {
                continue;
            }
            let by = if by_event { acts::event_text(self.event) } else { self.at(machine, pc) };
            let text = |byte: Option<u8>| byte.map_or("--".to_string(), |byte| format!("{byte:02X}"));
            let line = format!("{number} {} us watch {} {} to {} by {by}", microseconds(time), watched.name, text(before), text(now));
            self.write(&line);
            self.watches[place].last = now;
        }
    }

    /// `main+3 A003 STA IIDAT`
    fn at<M: Machine>(&self, machine: &M, pc: u16) -> String {
        let place = self.labels.place(pc).map_or(String::new(), |place| place + " ");
        format!("{place}{pc:04X} {}", self.labels.instruction(pc, |address| machine.memory(address)))
    }
}

impl<M: Machine> Watcher<M> for Looker {
    fn each(&self) -> bool {
        self.trace || self.until.is_some() || !self.breaks.is_empty() || !self.watches.is_empty()
    }

    fn before(&mut self, machine: &M, time: Time, pc: u16, interrupt: bool) -> bool {
        let number = machine.counted();
        self.under_way = (number, time, pc);
        self.changes(machine, true);
        let time = microseconds(time);
        if self.until == Some(pc) {
            self.reached = true;
            let line = format!("{number} {time} us until {} {}", self.at(machine, pc), registers(&machine.cpu()));
            self.write(&line);
            return true;
        }
        if let Some(place) = self.breaks.iter().position(|point| point.0 == pc) {
            self.breaks[place].1 += 1;
            let line = format!("{number} {time} us break {} {}", self.at(machine, pc), registers(&machine.cpu()));
            self.write(&line);
        }
        if self.trace {
            if interrupt {
                let asked: Vec<String> = (0..6)
                    .filter(|source| machine.requests() >> source & 1 == 1)
                    .map(|source| format!("{}: {} at {} us", SOURCES[source], self.asked[source].0, microseconds(self.asked[source].1)))
                    .collect();
                let line = format!("{number} {time} us interrupt {}", asked.join("; "));
                self.write(&line);
            }
            let reset = !machine.level(acts::RESET);
            let at = if reset { format!("{pc:04X} --") } else { self.at(machine, pc) };
            self.before = Some(format!("{number} {time} us {at}"));
        }
        false
    }

    fn after(&mut self, machine: &M) {
        if let Some(before) = self.before.take() {
            let line = format!("{before} {}", registers(&machine.cpu()));
            self.write(&line);
        }
        self.changes(machine, false);
    }

    fn given(&mut self, machine: &M, time: Time, word: u32, answer: u32, set: u8) {
        self.event = word;
        for source in (0..6).filter(|source| set >> source & 1 == 1) {
            self.asked[source] = (cause(source, word, machine.outcome()), time);
        }
        if self.trace {
            let line = format!("{} {} us event {} {word:08X} {answer:08X}", machine.counted(), microseconds(time), acts::event_text(word));
            self.write(&line);
        }
    }

    fn say(&mut self, line: &str) {
        self.write(line);
    }
}

fn hold_text<M: Machine>(looker: &Looker, machine: &M, hold: &Hold) -> String {
    let ended = match hold.ended {
        Ended::By(pc) => format!("ended by {}", looker.at(machine, pc)),
        Ended::Event(word) => format!("ended by the event {}", acts::event_text(word)),
        Ended::Not => "not ended".to_string(),
    };
    format!("SCL held at {} us for {} us, {ended}", microseconds(hold.begin), microseconds(hold.length))
}

/// The lines as a value change dump of scalars, which every viewer takes: SCL, SDA, and that the chip pulls them.
fn dump(found: &Found, end: Time) -> String {
    let names = [("SDA", 0, 'a'), ("SCL", 1, 'b'), ("SDA_pulled", 2, 'c'), ("SCL_pulled", 3, 'd')];
    let mut text = "$timescale 1 ns $end\n$scope module nt6861 $end\n".to_string();
    for (name, _, code) in names {
        text += &format!("$var wire 1 {code} {name} $end\n");
    }
    text += "$upscope $end\n$enddefinitions $end\n";
    let mut before = None;
    for &(time, lines) in &found.lines {
        text += &format!("#{}\n", time / 1_000);
        for (_, bit, code) in names {
            let level = lines >> bit & 1;
            if before.map(|before: u32| before >> bit & 1) != Some(level) {
                text += &format!("{level}{code}\n");
            }
        }
        before = Some(lines);
    }
    text + &format!("#{}\n", end / 1_000)
}

fn write_file(name: &Option<String>, text: impl FnOnce() -> String) -> Result<(), Told> {
    let told = |name: &str, error: std::io::Error| (2, format!("{name}: {}", descriptors::reason(&error)));
    name.as_ref().map_or(Ok(()), |name| std::fs::write(name, text()).map_err(|error| told(name, error)))
}

fn meaning(number: u8) -> &'static str {
    match number {
        5 => "a read of a write-only register",
        6 => "a write to a read-only register",
        20 => "an opcode that is not documented",
        21 => "an access where nothing is mapped, or a write to ROM",
        _ => "refused",
    }
}

/// The run in one go: it must answer and end as the run in steps did.
fn made_again(rom: &[u8; ROM_SIZE], proved: &Proved, found: &Found, end: &End) -> Result<(), Told> {
    let events: Vec<u64> = found.events.iter().map(|&(number, word)| (number as u64) << 32 | word as u64).collect();
    let mut state = State::power_up(rom);
    let mut answers = vec![0; events.len()];
    let refused = if let End::Refused(number) = end { *number } else { 0 };
    let instructions = proved.counted() + (refused != 0) as u32;
    let (number, counts) = state.run(rom, &events, &mut answers, instructions);
    let given = events.iter().filter(|&&event| event >> 32 < instructions as u64).count();
    let alike = (number, counts) == (refused, [proved.counted(), given as u32])
        && state == proved.state
        && answers[..given] == proved.answers[..given]
        && !proved.differs;
    alike.then_some(()).ok_or((2, "the run in one go ends otherwise than the run in steps".to_string()))
}

/// What makes the status 1, a line each.
fn complaints(options: &Options, looker: &Looker, proved: &Proved, found: &Found, end: &End) -> Vec<String> {
    let host = options.host.as_deref().unwrap_or("");
    let mut lines: Vec<String> = found.failures.iter().map(|(line, why)| format!("{host}:{line}: {why}")).collect();
    if let End::Refused(number) = end {
        let [_, _, _, _, _, low, high, _] = proved.cpu();
        let at = looker.at(proved, u16::from_le_bytes([low, high]));
        lines.push(format!("instruction {} is refused with {number}, {}: {at}", proved.counted(), meaning(*number)));
    }
    let most = options.most_hold.unwrap_or(Time::MAX);
    lines.extend(found.holds.iter().filter(|hold| hold.length > most).map(|hold| {
        format!("{}; more than {} us", hold_text(looker, proved, hold), microseconds(most))
    }));
    if let Some(name) = options.until.as_ref().filter(|_| !looker.reached) {
        lines.push(format!("{name} was not reached"));
    }
    for (name, point) in options.breaks.iter().zip(&looker.breaks) {
        if point.1 == 0 {
            lines.push(format!("{name} was not reached"));
        }
    }
    lines
}

fn print_end(looker: &mut Looker, options: &Options, proved: &Proved, found: &Found, end: &End) {
    if options.holds {
        for hold in &found.holds {
            let line = hold_text(looker, proved, hold);
            looker.write(&line);
        }
    }
    if let Some(longest) = found.holds.iter().map(|hold| hold.length).max() {
        looker.write(&format!("stretches of SCL: {}, at most {} us", found.holds.len(), microseconds(longest)));
    }
    let number = if let End::Refused(number) = end { *number } else { 0 };
    let line = format!("number {number} counted {} given {} {}", proved.counted(), found.events.len(), registers(&proved.cpu()));
    looker.write(&line);
}

fn run() -> Result<u8, Told> {
    let arguments: Vec<String> = std::env::args_os().skip(1).map(|argument| argument.to_string_lossy().into_owned()).collect();
    let options = options(&arguments)?;
    let rom = image(&options.rom)?;
    let lines = match &options.host {
        None => Vec::new(),
        Some(name) => acts::acts(&text_of(name)?).map_err(|(line, why)| (1, format!("{name}:{line}: {why}")))?,
    };
    let labels = match &options.labels {
        None => Labels::default(),
        Some(name) => Labels::parse(&text_of(name)?).map_err(|line| (1, format!("{name}:{line}: no line of a label file, debug file or listing")))?,
    };
    let address = |text: &String| labels.address(text).ok_or((2, format!("{text}: no label, and not an address of four hex digits")));
    let until = options.until.as_ref().map(address).transpose()?;
    let points: Result<Vec<(u16, u64)>, Told> = options.breaks.iter().map(|text| Ok((address(text)?, 0))).collect();
    let breaks = points?;
    let watch = |text: &String| Watched::new(text).ok_or((2, format!("{text}: no register, and not an address of RAM, 0080 to 017F")));
    let mut watches = options.watches.iter().map(watch).collect::<Result<Vec<Watched>, Told>>()?;
    let mut proved = Proved::power_up(&rom);
    for watched in &mut watches {
        watched.last = watched.value(&proved);
    }
    let (_, out) = descriptors::standard();
    let out = BufWriter::new(out);
    let (under_way, asked) = ((0, 0, 0), [("", 0); 6]);
    let mut looker = Looker { out, labels, trace: options.trace, until, breaks, watches, reached: false, under_way, event: 0, asked, before: None, failed: None };
    let mut host = Host::new(&mut proved, &mut looker, options.count.unwrap_or(u32::MAX));
    let end = host.run(&lines, options.count.is_some());
    let found = std::mem::take(&mut host.found);
    let time = host.now();
    made_again(&rom, &proved, &found, &end)?;
    print_end(&mut looker, &options, &proved, &found, &end);
    if let Some(error) = looker.failed.take().or(looker.out.flush().err()) {
        return Err((2, format!("standard output: {}", descriptors::reason(&error))));
    }
    write_file(&options.events, || found.list.clone())?;
    write_file(&options.lines, || dump(&found, time))?;
    let told = complaints(&options, &looker, &proved, &found, &end);
    for line in &told {
        tell(line);
    }
    Ok(!told.is_empty() as u8)
}

/// Where it cannot be told, the status stays.
fn tell(line: &str) {
    let _ = writeln!(std::io::stderr(), "nt6861 firmware: {line}");
}

fn main() -> ExitCode {
    match run() {
        Ok(status) => ExitCode::from(status),
        Err((status, why)) => {
            tell(&why);
            ExitCode::from(status)
        }
    }
}
