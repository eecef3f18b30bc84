//! Words a second: the proved list call, linked from its static library, beside the independent model, run by run in turn; then the
//! calls on a state in bytes. Usage: bench [SEED [COUNT]]
//! `bench instructions CALL COUNT` makes one call of COUNT words, or COUNT calls of one, and prints nothing: for callgrind, which counts
//! the instructions of two lengths (scripts/check-instructions.sh).

#[path = "../tests/nt6861.rs"]
#[allow(dead_code)]
mod nt6861;

use nt6861_model::{chip, state, traffic};
use std::time::Instant;

#[repr(C)]
struct Time {
    seconds: i64,
    nanoseconds: i64,
}

extern "C" {
    fn clock_gettime(clock: i32, time: *mut Time) -> i32;
}

/// Processor seconds of this thread; other work beside it does not count.
fn processor_seconds() -> f64 {
    let mut time = Time { seconds: 0, nanoseconds: 0 };
    // 3 is CLOCK_THREAD_CPUTIME_ID
    assert_eq!(unsafe { clock_gettime(3, &mut time) }, 0);
    time.seconds as f64 + time.nanoseconds as f64 / 1e9
}

fn model(words: &[u32], answers: &mut [u32]) {
    let mut chip = chip::Chip::fresh();
    for (answer, word) in answers.iter_mut().zip(words) {
        *answer = chip.step(*word);
    }
}

/// The best of at least five runs, in seconds; short runs are made again for half a second, so that other work disturbs the best one
/// little.
fn seconds(mut run: impl FnMut()) -> f64 {
    let begin = Instant::now();
    let mut best = f64::MAX;
    let mut runs = 0;
    while runs < 5 || begin.elapsed().as_secs_f64() < 0.5 {
        let start = processor_seconds();
        run();
        best = best.min(processor_seconds() - start);
        runs += 1;
    }
    best
}

/// The two in turn, so that other work disturbs both alike: the best of each in seconds, and the median of the ratios of their speeds.
fn in_turn(mut ours: impl FnMut(), mut theirs: impl FnMut()) -> (f64, f64, f64) {
    let begin = Instant::now();
    let (mut a, mut b) = (f64::MAX, f64::MAX);
    let mut ratios = Vec::new();
    while ratios.len() < 21 || begin.elapsed().as_secs_f64() < 1.0 {
        let start = processor_seconds();
        ours();
        let middle = processor_seconds();
        theirs();
        let (x, y) = (middle - start, processor_seconds() - middle);
        (a, b) = (a.min(x), b.min(y));
        ratios.push(y / x);
    }
    ratios.sort_by(f64::total_cmp);
    (a, b, ratios[ratios.len() / 2])
}

/// Calls on a fresh state in bytes, a list of so many words at a time, in ns a word.
fn in_lists(words: &[u32], answers: &mut [u32], of: usize) -> f64 {
    let mut area = [0u8; state::SIZE];
    let best = seconds(|| {
        assert_eq!(nt6861::fresh(&mut area), 0);
        for (part, places) in words.chunks(of).zip(answers.chunks_mut(of)) {
            assert_eq!(nt6861::run(&mut area, part, places), 0);
        }
    });
    best * 1e9 / words.len() as f64
}

/// One step at a time on a state in bytes.
fn by_steps(words: &[u32], answers: &mut [u32], step: fn(&mut [u8], u32) -> u32) -> f64 {
    let mut area = [0u8; state::SIZE];
    let best = seconds(|| {
        assert_eq!(nt6861::fresh(&mut area), 0);
        for (answer, word) in answers.iter_mut().zip(words) {
            *answer = step(&mut area, *word);
        }
    });
    best * 1e9 / words.len() as f64
}

/// One call, for the instruction count.
fn counted(call: &str, count: usize) {
    let words: Vec<u32> = traffic::Traffic::new(1).take(count).collect();
    let mut answers = vec![0u32; count];
    let mut area = [0u8; state::SIZE];
    assert_eq!(nt6861::fresh(&mut area), 0);
    match call {
        "none" => {}
        "list" => assert_eq!(nt6861::replay(&words, &mut answers), 0),
        "model" => model(&words, &mut answers),
        "step" => {
            for (answer, word) in answers.iter_mut().zip(&words) {
                *answer = nt6861::step(&mut area, *word);
            }
        }
        other => panic!("no call: {other}"),
    }
    assert!(answers.len() == words.len());
}

fn main() {
    if std::env::args().nth(1).as_deref() == Some("instructions") {
        let mut args = std::env::args().skip(2);
        let call = args.next().expect("a call");
        return counted(&call, args.next().expect("a count").parse().expect("a number"));
    }
    let mut args = std::env::args().skip(1).map(|a| a.parse::<u64>().expect("a number"));
    let seed = args.next().unwrap_or(1);
    let most = args.next().unwrap_or(4_000_000) as usize;
    println!("words, list call in M words/s, model in M words/s, median of the ratios");
    for count in [most / 64, most / 16, most / 4, most] {
        let words: Vec<u32> = traffic::Traffic::new(seed).take(count).collect();
        let mut ours = vec![0u32; count];
        let mut theirs = vec![0u32; count];
        let rate = |seconds: f64| count as f64 / seconds / 1e6;
        let (a, b, ratio) = in_turn(|| assert_eq!(nt6861::replay(&words, &mut ours), 0), || model(&words, &mut theirs));
        assert!(ours == theirs, "the answers differ");
        println!("{count}, {:.1}, {:.1}, {ratio:.2}", rate(a), rate(b));
    }

    let count = most / 400;
    let words: Vec<u32> = traffic::Traffic::new(seed).take(count).collect();
    let mut expected = vec![0u32; count];
    model(&words, &mut expected);
    let mut answers = vec![0u32; count];
    println!("on bytes, {count} words, ns a word");
    println!("step, {:.1}", by_steps(&words, &mut answers, nt6861::step));
    assert!(answers == expected, "the answers differ");
    println!("step of the model, {:.1}", by_steps(&words, &mut answers, state::step));
    assert!(answers == expected, "the answers differ");
    for of in [1, 4, 16, 64, 1024, count] {
        println!("list calls of {of}, {:.1}", in_lists(&words, &mut answers, of));
        assert!(answers == expected, "the answers differ");
    }
    println!("one list call from a fresh chip, {:.1}", seconds(|| assert_eq!(nt6861::replay(&words, &mut answers), 0)) * 1e9 / count as f64);
}
