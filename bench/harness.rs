//! Times the proved library beside the same algorithm in plain Rust and beside the straightforward evaluator, and compares every answer.
mod plain;
mod pointwise;

use plain::{Event, Rule, Scale};
use std::time::Instant;

#[link(name = "timing", kind = "static")]
unsafe extern "C" {
    fn timing_load(rule: *const u8, rule_len: usize) -> u64;
    fn timing_open(file: *const u8, file_len: usize) -> u64;
    fn timing_run(rule: *const u8, rule_len: usize, file: *const u8, file_len: usize, times: u32, out: *mut u8, out_len: usize) -> u64;
    fn timing_evaluate(rule: *const u8, rule_len: usize, file: *const u8, file_len: usize, times: u32, out: *mut u8, out_len: usize) -> u64;
    fn timing_file_run(rule: *const u8, rule_len: usize, file: *const u8, file_len: usize, times: u32, out: *mut u8, out_len: usize) -> u64;
    fn timing_outlook(rule: *const u8, rule_len: usize, file: *const u8, file_len: usize, times: u32) -> u64;
    fn timing_report(rule: *const u8, rule_len: usize, file: *const u8, file_len: usize, out: *mut u8, out_len: usize) -> u64;
}

fn encode(events: &[Event]) -> Vec<u8> {
    let mut records = Vec::new();
    let mut offsets = Vec::new();
    for event in events {
        offsets.extend((records.len() as u32).to_le_bytes());
        records.extend(event.time.to_le_bytes());
        records.push(event.readings.iter().filter(|r| **r > 0).count() as u8);
        for (fact, reading) in event.readings.iter().enumerate() {
            if *reading > 0 {
                records.extend([fact as u8, *reading]);
            }
        }
    }
    let first = records.len() as u32;
    records.extend(offsets);
    records.extend(first.to_le_bytes());
    records.extend((events.len() as u32).to_le_bytes());
    records
}

// Events about ten milliseconds apart, at which every fact is read.
fn log(count: usize, seed: u64) -> Vec<Event> {
    let mut state = seed;
    let mut next = || {
        state = state.wrapping_mul(6364136223846793005).wrapping_add(1442695040888963407);
        (state >> 33) as u32
    };
    let mut time = 1000;
    (0..count)
        .map(|_| {
            time += next() as u64 % 20;
            let mut readings = [0u8; 16];
            for reading in &mut readings {
                *reading = next() as u8;
            }
            Event { time, readings }
        })
        .collect()
}

// The best of five rounds, in microseconds.
fn micros(times: u32, mut work: impl FnMut()) -> f64 {
    work();
    let mut best = f64::MAX;
    for _ in 0..5 {
        let start = Instant::now();
        for _ in 0..times {
            work();
        }
        best = best.min(start.elapsed().as_secs_f64() * 1e6 / times as f64);
    }
    best
}

// A balanced conjunction of n untils, which has many locations and cells.
fn wide(n: usize) -> String {
    if n == 1 {
        return "F[0,40]a".to_string();
    }
    format!("({}&{})", wide(n / 2), wide(n - n / 2))
}

fn row(what: &str, name: &str, rule: &Rule, count: usize, proved: f64, plain: f64, pointwise: Option<f64>) {
    let straight = match pointwise {
        Some(time) => format!("{time:11.1} {:6.2}", proved / time),
        None => String::new(),
    };
    println!(
        "{what:8} {name:8} {:5} {:4} {count:4} {proved:10.1} {plain:10.1} {:6.2} {straight}",
        rule.cells.len(),
        rule.locations.len(),
        proved / plain
    );
}

// Runs, outlooks and a report of one rule over one log. Loading and opening are outside of the times of runs and outlooks, on
// every side; the memory is there, and is not cleared before a run.
fn graded(name: &str, text: &str, count: usize) {
    let rule = Rule::load(text.as_bytes());
    let events = log(count, 7 + count as u64);
    let file = encode(&events);
    let times = (80_000_000 / (count * count * rule.cells.len()).max(1)).clamp(20, 20_000) as u32;
    let mut ours = vec![0u8; count];
    let proved = micros(1, || unsafe {
        let n = timing_run(text.as_ptr(), text.len(), file.as_ptr(), file.len(), times, ours.as_mut_ptr(), ours.len());
        assert_eq!(n, count as u64);
    }) / times as f64;
    let mut theirs = vec![0; plain::needed(&rule, count)];
    let same = micros(times, || plain::evaluate(Scale::Level, &rule, &events, |is_final| is_final, &mut theirs));
    let mut straight = Vec::new();
    let pointwise = micros(times.min(500), || straight = pointwise::grades(Scale::Level, text.as_bytes(), &events));
    assert_eq!(ours, theirs[..count], "run {name} {count}");
    assert_eq!(ours, straight, "pointwise {name} {count}");
    row("run", name, &rule, count, proved, same, Some(pointwise));

    let proved = micros(1, || unsafe {
        timing_evaluate(text.as_ptr(), text.len(), file.as_ptr(), file.len(), times, ours.as_mut_ptr(), ours.len());
    }) / times as f64;
    assert_eq!(ours, straight, "evaluate {name} {count}");
    row("evaluate", name, &rule, count, proved, same, None);

    let proved = micros(1, || unsafe {
        timing_file_run(text.as_ptr(), text.len(), file.as_ptr(), file.len(), times, ours.as_mut_ptr(), ours.len());
    }) / times as f64;
    assert_eq!(ours, straight, "over the file {name} {count}");
    row("of file", name, &rule, count, proved, same, None);

    let mut pair = 0;
    let proved = micros(1, || unsafe {
        pair = timing_outlook(text.as_ptr(), text.len(), file.as_ptr(), file.len(), times);
    }) / times as f64;
    let mut told = (0, 0);
    let same = micros(times, || told = plain::outlook(Scale::Level, &rule, &events, 1, &mut theirs));
    assert_eq!(pair, told.0 as u64 + 256 * told.1 as u64, "outlook {name} {count}");
    row("outlook", name, &rule, count, proved, same, None);

    let mut out = vec![0u8; 11_275];
    let mut len = 0;
    let proved = micros(times.min(500), || unsafe {
        len = timing_report(text.as_ptr(), text.len(), file.as_ptr(), file.len(), out.as_mut_ptr(), out.len()) as usize;
    });
    let mut bytes = Vec::new();
    let same = micros(times.min(500), || bytes = plain::report(text.as_bytes(), &file));
    assert_eq!(out[..len], bytes, "report {name} {count}");
    row("report", name, &rule, count, proved, same, None);
}

fn main() {
    let rules = [
        ("small", "F[0,30]b".to_string()),
        ("typical", "G(a>F[0,30]b)".to_string()),
        ("nested", "G((a&!b)>((cU[0,500]d)|(bR[5,100](e>X[0,50]f))))".to_string()),
        ("widest", wide(16)),
        ("deepest", "F".repeat(31) + "a"),
    ];
    println!("what     rule     cells  loc   ev     proved      plain  ratio   pointwise  ratio");
    for (name, text) in &rules {
        for count in [8, 64, 512] {
            graded(name, text, count);
        }
    }
    for (name, text) in &rules {
        let rule = Rule::load(text.as_bytes());
        let proved = micros(2000, || unsafe {
            assert_eq!(timing_load(text.as_ptr(), text.len()), rule.cells.len() as u64);
        });
        let same = micros(2000, || assert_eq!(Rule::load(text.as_bytes()).cells.len(), rule.cells.len()));
        row("load", name, &rule, 0, proved, same, None);
    }
    for count in [8, 64, 512] {
        let file = encode(&log(count, 3));
        let proved = micros(500, || unsafe {
            assert_eq!(timing_open(file.as_ptr(), file.len()), 1);
        });
        let same = micros(500, || assert_eq!(plain::open(&file).unwrap().len(), count));
        println!("open, {count} events of {} bytes: {proved:.1} {same:.1} {:.2}", file.len(), proved / same);
    }
}
