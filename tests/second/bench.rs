//! Measures the first program beside the second one and beside document 000, Table 1.
//!
//!     bench LAY COUNT SECOND_LAY SECOND_COUNT GENERATE SVG
//!
//! CNOTs and CNOT depth are the numbers that COUNT prints.
//! All times are of whole processes, from start to end, unless "inside" stands with them: there
//! the time of the same program on an empty job of one qubit is taken off.

use std::fmt::Write as _;
use std::fs::{self, File};
use std::process::{Command, Stdio};
use std::time::{Duration, Instant};

// ------------------------------------------------------------ document 000, Table 1

/// Terms; then CNOT count and CNOT depth of t|ket>, Staq and the document's own way.
type Published = (usize, [(f64, f64); 3]);

const SINGAPORE: [Published; 5] = [
    (1, [(25.20, 25.20), (69.60, 62.75), (40.60, 35.70)]),
    (5, [(296.70, 210.60), (218.60, 129.15), (301.60, 139.75)]),
    (10, [(604.95, 417.90), (376.50, 208.60), (475.50, 191.75)]),
    (50, [(2499.30, 1897.70), (1073.25, 492.40), (1226.00, 395.20)]),
    (100, [(4969.60, 3863.90), (1834.75, 819.65), (2035.10, 607.95)]),
];
const ASPEN: [Published; 5] = [
    (1, [(13.80, 13.80), (31.10, 23.70), (32.00, 28.30)]),
    (5, [(209.55, 142.95), (169.85, 94.70), (229.30, 109.70)]),
    (10, [(433.25, 302.65), (264.80, 136.45), (355.80, 143.95)]),
    (50, [(2109.35, 1622.45), (820.80, 409.00), (961.05, 331.90)]),
    (100, [(3917.60, 3090.60), (1466.85, 728.80), (1611.90, 522.05)]),
];

/// Means on Singapore that may be passed by 2 in 100: terms, CNOTs, CNOT depth.
const MEANS: [(usize, f64, Option<f64>); 5] = [
    (1, 31.0, None),
    (5, 147.0, None),
    (10, 276.0, Some(104.0)),
    (50, 927.0, None),
    (100, 1404.0, Some(564.0)),
];
const ALLOWANCE: f64 = 1.02;
const LONGEST: Duration = Duration::from_millis(40);
const MOST_TIMES_SECOND: f64 = 2.0;

const TABLE_JOBS: usize = 20;
const MEAN_JOBS: usize = 200;
const RUNS: usize = 15;
const SEED: usize = 1;

// ------------------------------------------------------------ running

struct Bench {
    lay: String,
    count: String,
    second_lay: String,
    second_count: String,
    generate: String,
    folder: String,
}

impl Bench {
    /// Writes a text to a file of its own and gives the file's name.
    fn file(&self, name: &str, text: &[u8]) -> String {
        let path = format!("{}/{name}", self.folder);
        fs::write(&path, text).expect("the temporary folder can be written");
        path
    }

    /// Files of jobs with random terms.
    fn jobs(&self, coupling: &str, terms: usize, count: usize) -> Vec<String> {
        let words = [terms, count, SEED].map(|number| number.to_string());
        let made = Command::new(&self.generate).arg("terms").arg(coupling).args(words).output();
        let bundle = String::from_utf8(made.expect("jobs can be made").stdout).unwrap();
        let texts = bundle.split_terminator("--\n");
        texts.enumerate().map(|(i, text)| self.file(&format!("job-{i}"), text.as_bytes())).collect()
    }

    fn job(&self, coupling: &str, terms: usize) -> String {
        self.jobs(coupling, terms, 1).remove(0)
    }

    /// The text of a job of many stretches, with CNOTs and rotations.
    fn stretches(&self, coupling: &str, count: usize) -> Vec<u8> {
        let words = [count, SEED].map(|number| number.to_string());
        let made = Command::new(&self.generate).arg("stretches").arg(coupling).args(words).output();
        made.expect("a job can be made").stdout
    }
}

fn run(program: &str, job: &str) -> (Duration, String) {
    let start = Instant::now();
    let done = Command::new(program)
        .stdin(File::open(job).expect("the job was written"))
        .stderr(Stdio::null())
        .output()
        .unwrap_or_else(|fault| panic!("{program}: {fault}"));
    (start.elapsed(), String::from_utf8_lossy(&done.stdout).into_owned())
}

/// The shortest time of each program: a busy machine only adds to it. They take turns, so that
/// it troubles all alike.
fn best_times<const K: usize>(programs: [&str; K], job: &str) -> [Duration; K] {
    let mut best = [Duration::MAX; K];
    for _ in 0..RUNS {
        for (program, best) in programs.iter().zip(&mut best) {
            *best = run(program, job).0.min(*best);
        }
    }
    best
}

fn millis(time: Duration) -> f64 {
    1e3 * time.as_secs_f64()
}

// ------------------------------------------------------------ counting

struct Figures {
    cnots: f64,
    cnot_depth: f64,
}

/// The numbers of the counting program's line; it says `x` where the job was refused.
fn figures(counted: &str) -> Figures {
    let fields: Vec<&str> = counted.trim_end().split('\t').collect();
    let ["s", cnots, _, depth] = fields[..] else { panic!("a job for measuring was refused: {counted}") };
    let number = |field: &str| f64::from(field.parse::<u32>().unwrap());
    Figures { cnots: number(cnots), cnot_depth: number(depth) }
}

/// A mean and its standard error.
fn mean(values: impl Iterator<Item = f64>) -> (f64, f64) {
    let values: Vec<f64> = values.collect();
    let count = values.len() as f64;
    let mean = values.iter().sum::<f64>() / count;
    let spread = values.iter().map(|value| (value - mean).powi(2)).sum::<f64>() / (count - 1.0).max(1.0);
    (mean, (spread / count).sqrt())
}

fn figures_of(program: &str, jobs: &[String]) -> Vec<Figures> {
    jobs.iter().map(|job| figures(&run(program, job).1)).collect()
}

fn verdict(good: bool) -> &'static str {
    if good { "ok" } else { "MISSED" }
}

// ------------------------------------------------------------ tables

/// Gives the mean CNOT counts back for the plot.
fn table_beside_document(bench: &Bench, coupling: &str, published: &[Published]) -> Vec<(f64, f64)> {
    println!("\n{coupling}: means of {TABLE_JOBS} jobs, identity asked; beside them document 000, Table 1");
    println!("(goal: no more CNOTs and CNOT depth than document 000's own)");
    println!("terms   CNOTs  CNOT depth |   000: CNOTs   depth |    Staq:        | t|ket>:         | goal");
    let mut points = vec![];
    for &(terms, [ket, staq, own]) in published {
        let all = figures_of(&bench.count, &bench.jobs(coupling, terms, TABLE_JOBS));
        let (cnots, _) = mean(all.iter().map(|one| one.cnots));
        let (cnot_depth, _) = mean(all.iter().map(|one| one.cnot_depth));
        println!(
            "{terms:5} {cnots:7.1} {cnot_depth:11.1} | {:12.1} {:7.1} | {:7.1} {:7.1} | {:7.1} {:7.1} | {}",
            own.0, own.1, staq.0, staq.1, ket.0, ket.1,
            verdict(cnots <= own.0 && cnot_depth <= own.1)
        );
        points.push((terms as f64, cnots));
    }
    points
}

/// A mean over random jobs can lie above a goal by chance; then its standard error says so.
fn goal_line(terms: usize, what: &str, (mean, error): (f64, f64), goal: f64) {
    let most = ALLOWANCE * goal;
    let word = match (mean <= most, mean - 2.0 * error <= most) {
        (true, _) => "ok",
        (false, true) => "above, but by less than two standard errors",
        (false, false) => "MISSED",
    };
    println!("{terms:5}  {what:10} {mean:8.1} +- {error:4.1}   {goal:6.0}   {:.3}  {word}", mean / goal);
}

fn table_of_means(bench: &Bench) {
    println!("\nsingapore: means of {MEAN_JOBS} jobs with their standard error (goal: ratio at most {ALLOWANCE})");
    println!("terms  what           mean           goal   ratio");
    for (terms, cnots, depth) in MEANS {
        let all = figures_of(&bench.count, &bench.jobs("singapore", terms, MEAN_JOBS));
        goal_line(terms, "CNOTs", mean(all.iter().map(|one| one.cnots)), cnots);
        if let Some(depth) = depth {
            goal_line(terms, "CNOT depth", mean(all.iter().map(|one| one.cnot_depth)), depth);
        }
    }
}

/// As many gates as a job may have; on 8 qubits there are fewer than 256 parities.
fn many_gates() -> String {
    let couplers: String = (1..8).map(|i| format!("e\t{}\t{i}\n", i - 1)).collect();
    let gate = |i: usize| match i % 3 {
        0 => format!("r\t{}\t{i}\n", i % 8),
        _ => format!("c\t{}\t{}\n", i % 8, (i + 1 + i / 8 % 7) % 8),
    };
    format!("q\t8\n{couplers}{}", (0..4_096).map(gate).collect::<String>())
}

fn ratio_text(first: Duration, second: Duration) -> String {
    // Below this the clock and the machine say more than the programs.
    if second < Duration::from_micros(300) {
        return "-".into();
    }
    format!("{:.2}", millis(first) / millis(second))
}

fn table_of_times(bench: &Bench) {
    println!("\ntimes in ms, best of {RUNS} runs; process start included for both, \"inside\" without it");
    println!("job                               first   second   ratio | inside: first   second   ratio");
    let of_terms = |coupling, terms| fs::read(bench.job(coupling, terms)).unwrap();
    let jobs = [
        ("empty job, one qubit", b"q\t1\n".to_vec()),
        ("4,096 gates, 8 qubits", many_gates().into_bytes()),
        ("singapore, 10 terms", of_terms("singapore", 10)),
        ("singapore, 100 terms", of_terms("singapore", 100)),
        ("singapore, 256 terms", of_terms("singapore", 256)),
        ("line of 20, 256 terms", of_terms("line:20", 256)),
        ("all-to-all 20, 256 terms", of_terms("all:20", 256)),
        ("singapore, 2,000 stretches", bench.stretches("singapore", 2_000)),
    ];
    let mut start = None;
    let (mut longest, mut worst) = (vec![], 0.0f64);
    for (name, text) in jobs {
        let job = bench.file("timed", &text);
        let [first, second] = best_times([&bench.lay, &bench.second_lay], &job);
        // The empty job comes first: its time is the start of the process.
        let [first_start, second_start] = *start.get_or_insert([first, second]);
        let inside = [first.saturating_sub(first_start), second.saturating_sub(second_start)];
        println!(
            "{name:30} {:8.2} {:8.2} {:>7} | {:13.2} {:8.2} {:>7}",
            millis(first), millis(second), ratio_text(first, second),
            millis(inside[0]), millis(inside[1]), ratio_text(inside[0], inside[1])
        );
        worst = worst.max(millis(first) / millis(second));
        if name.ends_with("256 terms") {
            longest.push((name, first));
        }
    }
    let [count, second_count] = best_times([&bench.count, &bench.second_count], &bench.job("singapore", 100));
    println!("counting, singapore, 100 terms {:8.2} {:8.2} {:>7}", millis(count), millis(second_count), ratio_text(count, second_count));
    for (name, time) in longest {
        println!("goal: n = 20, t = 256 under {} ms: {name}: {:.2} ms, {}", LONGEST.as_millis(), millis(time), verdict(time < LONGEST));
    }
    println!("goal: not slower than {MOST_TIMES_SECOND} times the second program: {worst:.2} at worst, {}", verdict(worst <= MOST_TIMES_SECOND));
}

/// Times of both programs; gives the points back for the plot: (x, first, second).
fn table_of_growth(bench: &Bench, what: &str, jobs: Vec<(usize, String)>) -> Vec<(f64, f64, f64)> {
    println!("\ntime with {what}, ms, best of {RUNS} runs, process start included");
    println!("    x    first   second   ratio");
    let mut points = vec![];
    for (x, job) in jobs {
        let [first, second] = best_times([&bench.lay, &bench.second_lay], &job).map(millis);
        println!("{x:5} {first:8.2} {second:8.2} {:7.2}", first / second);
        points.push((x as f64, first, second));
    }
    points
}

fn peak_memory(program: &str, job: &str) -> Option<String> {
    let done = Command::new("/usr/bin/time")
        .args(["-f", "%M", program])
        .stdin(File::open(job).ok()?)
        .stdout(Stdio::null())
        .output()
        .ok()?;
    Some(String::from_utf8_lossy(&done.stderr).lines().last()?.to_string())
}

fn table_of_memory(bench: &Bench) {
    println!("\npeak memory, KB");
    println!("job                               first   second");
    let longest = ["q\t1\n", &"r\t0\t0\n".repeat(10_922)].concat();
    let jobs = [
        ("empty job", b"q\t1\n".to_vec()),
        ("singapore, 256 terms", fs::read(bench.job("singapore", 256)).unwrap()),
        ("65,536 bytes", longest.into_bytes()),
        ("singapore, 2,000 stretches", bench.stretches("singapore", 2_000)),
    ];
    for (name, text) in jobs {
        let job = bench.file("measured", &text);
        let peak = |program: &str| peak_memory(program, &job).unwrap_or("not measured".into());
        println!("{name:30} {:>8} {:>8}", peak(&bench.lay), peak(&bench.second_lay));
    }
}

// ------------------------------------------------------------ plot

struct Series<'a> {
    name: &'a str,
    colour: &'a str,
    points: Vec<(f64, f64)>,
}

struct Panel<'a> {
    title: &'a str,
    below: &'a str,
    log_x: bool,
    series: Vec<Series<'a>>,
}

const WIDE: f64 = 300.0;
const HIGH: f64 = 220.0;

/// The powers of ten around all values.
fn decades(values: impl Iterator<Item = f64> + Clone) -> (f64, f64) {
    let low = values.clone().fold(f64::MAX, f64::min).max(1e-3).log10().floor();
    let high = values.fold(f64::MIN, f64::max).max(1e-3).log10().ceil();
    (low, high.max(low + 1.0))
}

fn tick_text(value: f64) -> String {
    if value >= 1.0 { format!("{value:.0}") } else { format!("{value}") }
}

/// y is always by powers of ten; x by powers of two or straight.
fn draw_panel(svg: &mut String, panel: &Panel, left: f64, top: f64) {
    let all = panel.series.iter().flat_map(|series| &series.points);
    let (low, high) = decades(all.clone().map(|point| point.1));
    let across = |x: f64| if panel.log_x { x.log2() } else { x };
    let first = across(all.clone().map(|point| point.0).fold(f64::MAX, f64::min));
    let last = across(all.clone().map(|point| point.0).fold(f64::MIN, f64::max));
    let x_of = |x: f64| left + WIDE * (across(x) - first) / (last - first).max(1e-9);
    let y_of = |y: f64| top + HIGH * (1.0 - (y.max(1e-3).log10() - low) / (high - low));
    let _ = writeln!(svg, "<rect x='{left}' y='{top}' width='{WIDE}' height='{HIGH}' fill='none' stroke='#888'/>");
    let _ = writeln!(svg, "<text x='{left}' y='{}' font-weight='bold'>{}</text>", top - 10.0, panel.title);
    let _ = writeln!(svg, "<text x='{}' y='{}' text-anchor='middle'>{}</text>", left + WIDE / 2.0, top + HIGH + 34.0, panel.below);
    for power in low as i32..=high as i32 {
        let (value, y) = (10f64.powi(power), y_of(10f64.powi(power)));
        let _ = writeln!(svg, "<line x1='{left}' y1='{y:.1}' x2='{}' y2='{y:.1}' stroke='#ddd'/>", left + WIDE);
        let _ = writeln!(svg, "<text x='{}' y='{:.1}' text-anchor='end'>{}</text>", left - 5.0, y + 4.0, tick_text(value));
    }
    let ticks = if panel.log_x { vec![1.0, 4.0, 16.0, 64.0, 256.0] } else { vec![2.0, 5.0, 10.0, 15.0, 20.0] };
    for tick in ticks.into_iter().filter(|&tick| (first..=last).contains(&across(tick))) {
        let _ = writeln!(svg, "<text x='{:.1}' y='{}' text-anchor='middle'>{tick}</text>", x_of(tick), top + HIGH + 16.0);
    }
    for (i, series) in panel.series.iter().enumerate() {
        let place = |&(x, y): &(f64, f64)| format!("{:.1},{:.1}", x_of(x), y_of(y));
        let points: Vec<String> = series.points.iter().map(place).collect();
        let _ = writeln!(svg, "<polyline points='{}' fill='none' stroke='{}' stroke-width='1.5'/>", points.join(" "), series.colour);
        for point in &series.points {
            let _ = writeln!(svg, "<circle cx='{:.1}' cy='{:.1}' r='2.5' fill='{}'/>", x_of(point.0), y_of(point.1), series.colour);
        }
        let y = top + 16.0 + 15.0 * i as f64;
        let _ = writeln!(svg, "<text x='{}' y='{y}' fill='{}'>{}</text>", left + 8.0, series.colour, series.name);
    }
}

fn write_plot(path: &str, panels: &[Panel]) {
    let (columns, step_x, step_y) = (2, WIDE + 90.0, HIGH + 90.0);
    let rows = panels.len().div_ceil(columns);
    let (width, height) = (columns as f64 * step_x, rows as f64 * step_y);
    let mut svg = format!(
        "<svg xmlns='http://www.w3.org/2000/svg' width='{width}' height='{height}' font-family='sans-serif' font-size='12'>\n\
         <rect width='{width}' height='{height}' fill='white'/>\n"
    );
    for (i, panel) in panels.iter().enumerate() {
        let (row, column) = ((i / columns) as f64, (i % columns) as f64);
        draw_panel(&mut svg, panel, 60.0 + column * step_x, 40.0 + row * step_y);
    }
    svg += "</svg>\n";
    match fs::write(path, svg) {
        Ok(()) => println!("\nplot: {path}"),
        Err(fault) => println!("\nno plot: {path}: {fault}"),
    }
}

fn published_points(published: &[Published], column: usize) -> Vec<(f64, f64)> {
    published.iter().map(|(terms, columns)| (*terms as f64, columns[column].0)).collect()
}

fn counts_panel<'a>(title: &'a str, ours: Vec<(f64, f64)>, published: &[Published]) -> Panel<'a> {
    let series = vec![
        Series { name: "Pikselvuo", colour: "#c33", points: ours },
        Series { name: "document 000", colour: "#36c", points: published_points(published, 2) },
        Series { name: "Staq", colour: "#393", points: published_points(published, 1) },
        Series { name: "t|ket&gt;", colour: "#999", points: published_points(published, 0) },
    ];
    Panel { title, below: "terms", log_x: true, series }
}

fn times_panel<'a>(title: &'a str, below: &'a str, log_x: bool, points: &[(f64, f64, f64)]) -> Panel<'a> {
    let first = points.iter().map(|point| (point.0, point.1)).collect();
    let second = points.iter().map(|point| (point.0, point.2)).collect();
    let series = vec![
        Series { name: "first program", colour: "#c33", points: first },
        Series { name: "second program", colour: "#36c", points: second },
    ];
    Panel { title, below, log_x, series }
}

// ------------------------------------------------------------ all of it

fn measure(bench: &Bench, svg: &str) {
    let singapore = table_beside_document(bench, "singapore", &SINGAPORE);
    let aspen = table_beside_document(bench, "aspen", &ASPEN);
    table_of_means(bench);
    table_of_times(bench);
    let kept = |x: usize, job: String| (x, bench.file(&format!("grown-{x}"), &fs::read(job).unwrap()));
    let by_terms = (0..=8).map(|power| kept(1 << power, bench.job("singapore", 1 << power))).collect();
    let by_terms = table_of_growth(bench, "terms (singapore)", by_terms);
    let by_qubits = (2..=20).map(|n| kept(n, bench.job(&format!("grid:{n}"), 100))).collect();
    let by_qubits = table_of_growth(bench, "qubits (grid, 100 terms or all there are)", by_qubits);
    table_of_memory(bench);
    let panels = [
        counts_panel("CNOTs, 20-qubit Singapore", singapore, &SINGAPORE),
        counts_panel("CNOTs, 16-qubit Aspen", aspen, &ASPEN),
        times_panel("Time in ms, Singapore, process start included", "terms", true, &by_terms),
        times_panel("Time in ms, grid, up to 100 terms, start included", "qubits", false, &by_qubits),
    ];
    write_plot(svg, &panels);
}

fn main() {
    let words: Vec<String> = std::env::args().skip(1).collect();
    let [lay, count, second_lay, second_count, generate, svg] = &words[..] else {
        eprintln!("bench LAY COUNT SECOND_LAY SECOND_COUNT GENERATE SVG");
        std::process::exit(2)
    };
    let folder = std::env::temp_dir().join(format!("bench-{}", std::process::id()));
    fs::create_dir(&folder).expect("a temporary folder can be made");
    let [lay, count, second_lay, second_count, generate] =
        [lay, count, second_lay, second_count, generate].map(String::clone);
    let folder_name = folder.to_string_lossy().into_owned();
    let bench = Bench { lay, count, second_lay, second_count, generate, folder: folder_name };
    measure(&bench, svg);
    let _ = fs::remove_dir_all(folder);
}
