//! Runs the programs, one process for each job or circuit, and compares what they print.
//!
//!     drive jobs LAY COUNT JOBS EXPECTED PRINTED
//!     drive circuits QASM PAIRS EXPECTED PRINTED
//!
//! JOBS is a bundle of jobs and EXPECTED the bundle that `second bundle` made of it. PAIRS is a bundle
//! of pairs, the couplers' text and then the circuit's, and EXPECTED what `second circuit-bundle` made
//! of it. What the programs print goes to the bundle PRINTED, for the judge, as soon as it is there: it
//! may be a megabyte for one job. Says how many agreed; one that did not is written beside PRINTED. The
//! exit status is 1 on any difference.

use std::collections::BTreeMap;
use std::fs::{self, File};
use std::io::{BufWriter, Read, Write};
use std::process::{Child, Command, Stdio};
use std::sync::atomic::{AtomicUsize, Ordering};
use std::sync::{Arc, Mutex};
use std::time::{Duration, Instant};

const LONGEST_RUN: Duration = Duration::from_secs(20);
const MOST_SHOWN: usize = 10;

/// What is run for each item of the bundle.
struct Plan<'a> {
    /// The programs, with the names that they are reported by.
    programs: Vec<(&'static str, &'a str)>,
    /// What the texts of an item are. The last is a program's standard input, and the others are files
    /// that it is told of in this order.
    texts: &'static [&'static str],
}

impl Plan<'_> {
    /// What an item is called: by its last text.
    fn item(&self) -> &'static str {
        self.texts[self.texts.len() - 1]
    }
}

fn unbundle(bundle: &[u8]) -> Vec<&[u8]> {
    let (mut texts, mut start, mut at) = (vec![], 0, 0);
    for line in bundle.split_inclusive(|&byte| byte == b'\n') {
        let next = at + line.len();
        match line {
            b"--\n" => texts.push(&bundle[start..at]),
            b"-.\n" => texts.push(&bundle[start..at.saturating_sub(1).max(start)]),
            _ => {
                at = next;
                continue;
            }
        }
        (start, at) = (next, next);
    }
    texts
}

/// Closes a text. A line in it that looks like a closing one is changed: it is wrong anyway.
fn close(text: &[u8], all: &mut Vec<u8>) {
    for line in text.split_inclusive(|&byte| byte == b'\n') {
        let looks_closing = line.starts_with(b"--") || line.starts_with(b"-.");
        all.extend(if looks_closing { [b"+", &line[1..]].concat() } else { line.to_vec() });
    }
    let has_lf = text.is_empty() || text.ends_with(b"\n");
    all.extend(if has_lf { &b"--\n"[..] } else { b"\n-.\n" });
}

/// The process a worker waits for, and since when; the watchman ends it when it takes too long.
type Watched = Arc<Mutex<Option<(Child, Instant)>>>;

fn watch(all: Vec<Watched>) {
    std::thread::spawn(move || loop {
        std::thread::sleep(Duration::from_millis(500));
        for watched in &all {
            if let Some((child, since)) = &mut *watched.lock().unwrap() {
                if since.elapsed() > LONGEST_RUN {
                    let _ = child.kill();
                }
            }
        }
    });
}

/// What the program prints for the texts in the files, or how it died.
fn run(program: &str, files: &[String], watched: &Watched) -> Vec<u8> {
    let (input, beside) = files.split_last().expect("there is a last text");
    let child = Command::new(program)
        .args(beside)
        .stdin(File::open(input).expect("the text was just written"))
        .stdout(Stdio::piped())
        .stderr(Stdio::null())
        .spawn();
    let mut child = match child {
        Ok(child) => child,
        Err(fault) => return format!("cannot be run: {fault}\n").into_bytes(),
    };
    let mut output = child.stdout.take().unwrap();
    *watched.lock().unwrap() = Some((child, Instant::now()));
    let mut printed = vec![];
    let _ = output.read_to_end(&mut printed);
    let (mut child, _) = watched.lock().unwrap().take().unwrap();
    match child.wait() {
        Ok(status) if status.code().is_some() => printed,
        ended => format!("died: {ended:?}\n").into_bytes(),
    }
}

/// Writes the texts of an item, each to a file of its own; these are their names.
fn write_item(plan: &Plan, item: &[&[u8]], name: impl Fn(&str) -> String) -> Vec<String> {
    let files: Vec<String> = plan.texts.iter().map(|text| name(text)).collect();
    for (file, text) in files.iter().zip(item) {
        fs::write(file, text).expect("a text can be written");
    }
    files
}

/// Runs all on a few threads; tells `each` of every item and of what each program printed for it.
fn run_all(plan: &Plan, items: &[&[&[u8]]], scratch: &str, each: impl Fn(usize, Vec<Vec<u8>>) + Sync) {
    let workers = std::thread::available_parallelism().map_or(1, usize::from).min(4);
    let watched: Vec<Watched> = (0..workers).map(|_| Watched::default()).collect();
    watch(watched.clone());
    let next = AtomicUsize::new(0);
    std::thread::scope(|scope| {
        for (worker, watched) in watched.iter().enumerate() {
            let (next, each) = (&next, &each);
            scope.spawn(move || {
                let mut files = vec![];
                loop {
                    let i = next.fetch_add(1, Ordering::Relaxed);
                    let Some(item) = items.get(i) else { break };
                    files = write_item(plan, item, |text| format!("{scratch}.{text}.{worker}"));
                    each(i, plan.programs.iter().map(|(_, program)| run(program, &files, watched)).collect());
                }
                for file in files {
                    let _ = fs::remove_file(file);
                }
            });
        }
    });
}

/// The bundle PRINTED: a text waits here until those of all earlier items are written.
struct InOrder {
    file: BufWriter<File>,
    written: usize,
    waiting: BTreeMap<usize, Vec<u8>>,
}

impl InOrder {
    fn put(&mut self, i: usize, texts: &[Vec<u8>]) {
        let mut closed = vec![];
        texts.iter().for_each(|text| close(text, &mut closed));
        self.waiting.insert(i, closed);
        while let Some(closed) = self.waiting.remove(&self.written) {
            self.file.write_all(&closed).expect("PRINTED can be written");
            self.written += 1;
        }
    }
}

fn first_difference(got: &[u8], wanted: &[u8]) -> String {
    let line_of = |text: &[u8], i: usize| {
        let line = text.split(|&byte| byte == b'\n').nth(i).unwrap_or(b"(nothing)").to_vec();
        String::from_utf8_lossy(&line[..line.len().min(60)]).escape_debug().to_string()
    };
    let same = got.iter().zip(wanted).take_while(|(a, b)| a == b).count();
    let line = wanted[..same.min(wanted.len())].iter().filter(|&&byte| byte == b'\n').count();
    format!("line {}: {} instead of {}", line + 1, line_of(got, line), line_of(wanted, line))
}

/// Runs the plan on the bundle; says whether all agreed.
fn compare(plan: &Plan, bundle: &str, expected: &str, printed: &str) -> bool {
    let bundle = fs::read(bundle).expect("the bundle can be read");
    let expected = fs::read(expected).expect("EXPECTED can be read");
    let (texts, expected) = (unbundle(&bundle), unbundle(&expected));
    let items: Vec<&[&[u8]]> = texts.chunks_exact(plan.texts.len()).collect();
    let programs = plan.programs.len();
    assert_eq!(expected.len(), programs * items.len(), "an expected text for each run");
    let file = BufWriter::new(File::create(printed).expect("PRINTED can be written"));
    let in_order = Mutex::new(InOrder { file, written: 0, waiting: BTreeMap::new() });
    let differing = Mutex::new(BTreeMap::new());
    run_all(plan, &items, printed, |i, texts| {
        let expected = &expected[programs * i..][..programs];
        if let Some(k) = (0..programs).find(|&k| texts[k] != expected[k]) {
            differing.lock().unwrap().insert(i, (plan.programs[k].0, first_difference(&texts[k], expected[k])));
        }
        in_order.lock().unwrap().put(i, &texts);
    });
    in_order.into_inner().unwrap().file.flush().expect("PRINTED can be written");
    let differing = differing.into_inner().unwrap();
    for (i, (program, difference)) in differing.iter().take(MOST_SHOWN) {
        let kept = write_item(plan, items[*i], |text| format!("{printed}.{text}-{i}")).join(", ");
        println!("{} {i} ({kept}): {program}, {difference}", plan.item());
    }
    let agreed = items.len() - differing.len();
    println!("{agreed} of {} {}s agreed with the second program", items.len(), plan.item());
    differing.is_empty()
}

fn main() {
    let words: Vec<String> = std::env::args().skip(1).collect();
    let words: Vec<&str> = words.iter().map(String::as_str).collect();
    let agreed = match words[..] {
        ["jobs", lay, count, jobs, expected, printed] => {
            compare(&Plan { programs: vec![("LAY", lay), ("COUNT", count)], texts: &["job"] }, jobs, expected, printed)
        }
        ["circuits", qasm, pairs, expected, printed] => {
            compare(&Plan { programs: vec![("QASM", qasm)], texts: &["couplers", "circuit"] }, pairs, expected, printed)
        }
        _ => {
            eprintln!("drive jobs LAY COUNT JOBS EXPECTED PRINTED | circuits QASM PAIRS EXPECTED PRINTED");
            std::process::exit(2)
        }
    };
    std::process::exit(if agreed { 0 } else { 1 });
}
