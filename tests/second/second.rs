//! The independent second program of Pikselvuo: it lays the same gates as the first one, from
//! document 01, document 02's E1, E2, E3, E5, E7 and E12 and the page on laying alone. Text in, text out.
//!
//!     second lay     one job in, what the laying program prints out
//!     second count   one job in, what the counting program prints out
//!     second many    a bundle of jobs in; for each job what `lay` and then what `count` print, and
//!                    behind them the common phase where it is not 0, as the program `vectors` does
//!     second bundle  the first two of these texts, each closed by a line `--`
//!     second scant   a bundle of jobs in; for each job what reading, laying and writing answer
//!                    where too little is lent, as the program `scant` prints it
//!     second qasm COUPLERS
//!                    one circuit in, its couplers in a file; what the program `qasm` prints out
//!     second circuits
//!                    a bundle of pairs in, the couplers' text and then the circuit's; for each pair
//!                    what `qasm` prints and what reading and writing answer where too little is lent,
//!                    between them the common phase that was read where it is not 0, as the program
//!                    `qasm_vectors` does
//!     second circuit-bundle
//!                    the first of these texts, closed by a line `--`
//!
//! Under the name of one of the programs `lay`, `count`, `vectors`, `qasm` and `qasm_vectors` it is
//! that one, so links with these names stand in for them.
//!
//! A bundle is a row of texts, each closed by a line `--`. A line `-.` closes a text too, whose
//! last LF is then not its own; so texts without a last LF can be bundled as well.

mod openqasm;

use openqasm::Circuit;
use std::collections::BTreeMap;
use std::fs::File;
use std::io::{self, BufWriter, Read, Write};

const LONGEST_TEXT: usize = 65_536;
const MOST_QUBITS: usize = 20;
const MOST_COUPLERS: usize = 190;
const MOST_GATES: usize = 4_096;
const MOST_PARITIES: usize = 256;
const FULL_TURN: u32 = 65_536;
/// Common phases count in half units; this many make a full turn.
const FULL_PHASE: u32 = 2 * FULL_TURN;

/// What is lent: records for the two lists of reading and for the output of laying, bytes for
/// writing.
struct Lent {
    couplers: usize,
    gates: usize,
    laid: usize,
    text: usize,
}

/// By the laying and the counting program, which lay and print however much it is.
const ENOUGH: Lent = Lent { couplers: 10_922, gates: 16_383, laid: usize::MAX, text: usize::MAX };

/// By the program `scant`.
const SCANT: Lent = Lent { couplers: 3, gates: 4, laid: 49, text: 29 };

/// By the program `qasm_vectors`, to reading and writing alone.
const SCANT_CIRCUIT: Lent = Lent { gates: 4, text: 100, ..ENOUGH };

// ---------------------------------------------------------------- gates and refusals

#[derive(Clone, Copy, PartialEq, Debug)]
enum Gate {
    Cnot(usize, usize),
    Rot(usize, u32),
    X(usize),
    H(usize),
}

#[derive(Clone, Copy, PartialEq, Debug)]
struct Refusal {
    number: u32,
    place: usize,
}

fn refuse<T>(number: u32, place: usize) -> Result<T, Refusal> {
    Err(Refusal { number, place })
}

struct Job {
    n: usize,
    couplers: Vec<(usize, usize)>,
    gates: Vec<Gate>,
}

// ---------------------------------------------------------------- reading the text

/// A decimal number without sign and needless zeros, at most `most`; none that is asked for has more than
/// six digits.
fn number(field: &[u8], most: usize) -> Option<usize> {
    let needless_zero = field.len() > 1 && field[0] == b'0';
    if field.is_empty() || field.len() > 6 || needless_zero {
        return None;
    }
    let mut value = 0;
    for &digit in field {
        if !digit.is_ascii_digit() {
            return None;
        }
        value = 10 * value + usize::from(digit - b'0');
    }
    if value <= most { Some(value) } else { None }
}

fn single(fields: &[&[u8]]) -> Option<usize> {
    match fields {
        [only] => number(only, 255),
        _ => None,
    }
}

fn pair(fields: &[&[u8]]) -> Option<(usize, usize)> {
    match fields {
        [first, second] => Some((number(first, 255)?, number(second, 65_535)?)),
        _ => None,
    }
}

fn gate(letter: &[u8], fields: &[&[u8]]) -> Option<Gate> {
    match letter {
        b"c" => pair(fields).map(|(c, t)| Gate::Cnot(c, t)),
        b"r" => pair(fields).map(|(q, angle)| Gate::Rot(q, angle as u32)),
        b"n" => single(fields).map(Gate::X),
        b"h" => single(fields).map(Gate::H),
        _ => None,
    }
}

/// Adds one line (without its LF) to the job, or says that it cannot continue it.
fn add_line(job: &mut Option<Job>, line: &[u8]) -> Option<()> {
    let fields: Vec<&[u8]> = line.split(|&byte| byte == b'\t').collect();
    let (&letter, rest) = fields.split_first()?;
    let Some(job) = job else {
        if letter != b"q" {
            return None;
        }
        *job = Some(Job { n: single(rest)?, couplers: vec![], gates: vec![] });
        return Some(());
    };
    match letter {
        b"e" if job.gates.is_empty() => job.couplers.push(pair(rest)?),
        _ => job.gates.push(gate(letter, rest)?),
    }
    Some(())
}

fn read_job(text: &[u8], lent: &Lent) -> Result<Job, Refusal> {
    if text.len() > LONGEST_TEXT {
        return refuse(11, 0);
    }
    let mut job = None;
    for (i, line) in text.split_inclusive(|&byte| byte == b'\n').enumerate() {
        let fits = line.strip_suffix(b"\n").and_then(|line| add_line(&mut job, line));
        if fits.is_none() {
            return refuse(10, i + 1);
        }
    }
    let Some(job) = job else { return refuse(10, 1) };
    if job.couplers.len() > lent.couplers || job.gates.len() > lent.gates {
        return refuse(8, 0);
    }
    Ok(job)
}

/// The text that lies beside a circuit: `e` lines and nothing else, perhaps none.
fn read_couplers(text: &[u8]) -> Result<Vec<(usize, usize)>, Refusal> {
    if text.len() > LONGEST_TEXT {
        return refuse(11, 0);
    }
    let mut couplers = vec![];
    for (i, line) in text.split_inclusive(|&byte| byte == b'\n').enumerate() {
        let fields = line.strip_suffix(b"\n").and_then(|line| line.strip_prefix(b"e\t"));
        let ends = fields.and_then(|fields| pair(&fields.split(|&byte| byte == b'\t').collect::<Vec<_>>()));
        match ends {
            Some(ends) => couplers.push(ends),
            None => return refuse(10, i + 1),
        }
    }
    Ok(couplers)
}

// ---------------------------------------------------------------- sets of qubits

fn members(mut set: u32) -> impl Iterator<Item = usize> {
    std::iter::from_fn(move || {
        if set == 0 {
            return None;
        }
        let lowest = set.trailing_zeros() as usize;
        set &= set - 1;
        Some(lowest)
    })
}

fn holds(set: u32, q: usize) -> bool {
    set >> q & 1 == 1
}

/// If t is in the set, changes whether c is in it.
fn turn(set: u32, c: usize, t: usize) -> u32 {
    set ^ (set >> t & 1) << c
}

// ---------------------------------------------------------------- couplings

#[derive(Clone)]
struct Coupling {
    near: [u32; MOST_QUBITS],
}

impl Coupling {
    fn of(couplers: &[(usize, usize)]) -> Coupling {
        let mut near = [0; MOST_QUBITS];
        for &(a, b) in couplers {
            near[a] |= 1 << b;
            near[b] |= 1 << a;
        }
        Coupling { near }
    }

    /// All that chains inside `set` reach from `start`.
    fn flood(&self, set: u32, start: usize) -> u32 {
        let (mut seen, mut fresh) = (1 << start, 1u32 << start);
        while fresh != 0 {
            let q = fresh.trailing_zeros() as usize;
            let found = self.near[q] & set & !seen;
            seen |= found;
            fresh = fresh & (fresh - 1) | found;
        }
        seen
    }

    fn is_spare(&self, set: u32, v: usize) -> bool {
        let rest = set & !(1 << v);
        rest == 0 || self.flood(rest, rest.trailing_zeros() as usize) == rest
    }

    /// The islands by ascending lowest qubit.
    fn islands(&self, n: usize) -> Vec<u32> {
        let mut left = ((1u64 << n) - 1) as u32;
        let mut islands = vec![];
        while left != 0 {
            let island = self.flood(left, left.trailing_zeros() as usize);
            islands.push(island);
            left &= !island;
        }
        islands
    }

    /// The way a gathering at `v` goes: from the last qubit of `order(set, v)` down to its
    /// second, each with its neighbours among the qubits before it.
    fn walk(&self, set: u32, v: usize) -> Walk {
        let mut walk = Walk { length: 0, steps: [(0, 0); MOST_QUBITS] };
        let (mut before, mut layer) = (1u32 << v, 1u32 << v);
        loop {
            let next = members(layer).fold(0, |found, q| found | self.near[q]) & set & !before;
            if next == 0 {
                break;
            }
            for u in members(next) {
                walk.steps[walk.length] = (u, self.near[u] & before);
                walk.length += 1;
                before |= 1 << u;
            }
            layer = next;
        }
        walk.steps[..walk.length].reverse();
        walk
    }
}

struct Walk {
    length: usize,
    steps: [(usize, u32); MOST_QUBITS],
}

impl Walk {
    /// The moves (u, p), "u by p", that bring x to the walk's end.
    fn gather(&self, mut x: u32) -> Vec<(usize, usize)> {
        let mut moves = vec![];
        for &(u, earlier) in &self.steps[..self.length] {
            if !holds(x, u) {
                continue;
            }
            let common = earlier & x;
            let p = (if common != 0 { common } else { earlier }).trailing_zeros() as usize;
            if common == 0 {
                moves.push((p, u));
            }
            moves.push((u, p));
            x = x & !(1 << u) | 1 << p;
        }
        moves
    }

    /// How many moves `gather` has; counting stops at `enough`.
    fn moves(&self, mut x: u32, enough: u32) -> u32 {
        let mut moves = 0;
        for &(u, earlier) in &self.steps[..self.length] {
            if !holds(x, u) {
                continue;
            }
            x &= !(1 << u);
            if earlier & x != 0 {
                moves += 1;
            } else {
                moves += 2;
                x |= earlier & earlier.wrapping_neg();
            }
            if moves >= enough {
                break;
            }
        }
        moves
    }
}

// ---------------------------------------------------------------- stretches

/// What stands between two Hadamards, and the place in the job's list at which it starts.
struct Stretch<'a> {
    start: usize,
    gates: &'a [Gate],
}

fn is_hadamard(gate: &Gate) -> bool {
    matches!(gate, Gate::H(_))
}

/// Each Hadamard ends the stretch on all wires: there is one stretch more than Hadamards, and any of
/// them may be empty.
fn stretches_of(gates: &[Gate]) -> Vec<Stretch<'_>> {
    let (mut stretches, mut start) = (vec![], 0);
    for gates in gates.split(is_hadamard) {
        stretches.push(Stretch { start, gates });
        start += gates.len() + 1;
    }
    stretches
}

// ---------------------------------------------------------------- meaning

/// What one stretch means; nothing is carried over a Hadamard.
struct Meaning {
    parity: [u32; MOST_QUBITS],
    mirror: [u32; MOST_QUBITS],
    flip: [bool; MOST_QUBITS],
    /// Every parity that bears a rotation, also where the sum is 0.
    sums: BTreeMap<u32, u32>,
    /// The phase common to all states, in half units.
    phase: u32,
}

impl Meaning {
    /// Refuses with 6 at the gate that brings one parity too many.
    fn of(stretch: &Stretch) -> Result<Meaning, Refusal> {
        let wires: [u32; MOST_QUBITS] = std::array::from_fn(|i| 1 << i);
        let flip = [false; MOST_QUBITS];
        let mut meaning = Meaning { parity: wires, mirror: wires, flip, sums: BTreeMap::new(), phase: 0 };
        for (place, &gate) in (stretch.start..).zip(stretch.gates) {
            match gate {
                Gate::Cnot(c, t) => {
                    meaning.parity[t] ^= meaning.parity[c];
                    meaning.mirror[c] ^= meaning.mirror[t];
                    meaning.flip[t] ^= meaning.flip[c];
                }
                Gate::Rot(q, angle) => meaning.rotate(q, angle),
                Gate::X(q) => meaning.flip[q] ^= true,
                Gate::H(_) => unreachable!("a Hadamard stands between stretches"),
            }
            if meaning.sums.len() > MOST_PARITIES {
                return refuse(6, place);
            }
        }
        Ok(meaning)
    }

    /// A flipped wire is 1 where its parity is 0: all states get the angle, and those in which the
    /// parity is 1 give it back.
    fn rotate(&mut self, q: usize, angle: u32) {
        let sum = self.sums.entry(self.parity[q]).or_insert(0);
        if self.flip[q] {
            *sum = (*sum + FULL_TURN - angle) % FULL_TURN;
            self.phase = (self.phase + 2 * angle) % FULL_PHASE;
        } else {
            *sum = (*sum + angle) % FULL_TURN;
        }
    }

    fn terms(&self) -> impl Iterator<Item = (u32, u32)> + '_ {
        self.sums.iter().map(|(&parity, &sum)| (parity, sum)).filter(|&(_, sum)| sum != 0)
    }
}

// ---------------------------------------------------------------- tests 1 to 8

fn gate_fits(gate: Gate, n: usize) -> bool {
    match gate {
        Gate::Cnot(c, t) => c < n && t < n && c != t,
        Gate::Rot(q, _) | Gate::X(q) | Gate::H(q) => q < n,
    }
}

/// Tests 1, 2 and 3.
fn test_chip(job: &Job) -> Result<(), Refusal> {
    if job.n < 1 || job.n > MOST_QUBITS {
        return refuse(1, 0);
    }
    if job.couplers.len() > MOST_COUPLERS {
        return refuse(2, 0);
    }
    if let Some(bad) = job.couplers.iter().position(|&(a, b)| a >= job.n || b >= job.n || a == b) {
        return refuse(3, bad);
    }
    Ok(())
}

/// Test 4, which is laying's alone.
fn test_length(job: &Job) -> Result<(), Refusal> {
    if job.gates.len() > MOST_GATES { refuse(4, 0) } else { Ok(()) }
}

/// Test 5.
fn test_gates(job: &Job) -> Result<(), Refusal> {
    if let Some(bad) = job.gates.iter().position(|&gate| !gate_fits(gate, job.n)) {
        return refuse(5, bad);
    }
    Ok(())
}

/// The lowest wire whose final parity leaves its island, n where only a term does.
fn astray(n: usize, meaning: &Meaning, islands: &[u32]) -> Option<usize> {
    let inside = |set: u32, island: u32| set & !island == 0;
    for wire in 0..n {
        let own = islands.iter().find(|&&island| holds(island, wire)).unwrap();
        if !inside(meaning.parity[wire], *own) {
            return Some(wire);
        }
    }
    let scattered = |term: u32| !islands.iter().any(|&island| inside(term, island));
    meaning.terms().any(|(term, _)| scattered(term)).then_some(n)
}

/// Test 7 of a job. Where it has Hadamards, the place is that of the stretch's first gate.
fn test_reachable(n: usize, stretches: &[Stretch], meanings: &[Meaning], islands: &[u32]) -> Result<(), Refusal> {
    for (stretch, meaning) in stretches.iter().zip(meanings) {
        if let Some(wire) = astray(n, meaning, islands) {
            return refuse(7, if stretches.len() > 1 { stretch.start } else { wire });
        }
    }
    Ok(())
}

/// The output records that laying needs for a stretch of t terms.
fn bound(n: usize, t: usize) -> usize {
    2 * (n - 1) * t + t + 2 * n * (n - 1) + n
}

/// Test 8 of laying. B is that of all stretches and the Hadamards between them.
fn test_output(n: usize, meanings: &[Meaning], lent: &Lent) -> Result<(), Refusal> {
    let for_stretches: usize = meanings.iter().map(|meaning| bound(n, meaning.terms().count())).sum();
    let hadamards = meanings.len() - 1;
    if lent.laid < for_stretches + hadamards { refuse(8, 0) } else { Ok(()) }
}

// ---------------------------------------------------------------- sets of places

/// A set of columns, by their places.
#[derive(Clone, Copy)]
struct Places([u64; MOST_PARITIES / 64]);

impl Places {
    const NONE: Places = Places([0; MOST_PARITIES / 64]);

    fn with(self, other: Places, join: impl Fn(u64, u64) -> u64) -> Places {
        Places(std::array::from_fn(|i| join(self.0[i], other.0[i])))
    }

    fn and(self, other: Places) -> Places {
        self.with(other, |a, b| a & b)
    }

    fn without(self, other: Places) -> Places {
        self.with(other, |a, b| a & !b)
    }

    fn or(self, other: Places) -> Places {
        self.with(other, |a, b| a | b)
    }

    fn xor(self, other: Places) -> Places {
        self.with(other, |a, b| a ^ b)
    }

    fn size(self) -> u32 {
        self.0.iter().map(|word| word.count_ones()).sum()
    }

    fn is_empty(self) -> bool {
        self.0 == [0; MOST_PARITIES / 64]
    }

    fn insert(&mut self, place: usize) {
        self.0[place / 64] |= 1 << (place % 64);
    }

    fn holds(self, place: usize) -> bool {
        self.0[place / 64] >> (place % 64) & 1 == 1
    }

    fn list(self) -> impl Iterator<Item = usize> {
        (0..self.0.len()).flat_map(move |i| {
            let mut word = self.0[i];
            std::iter::from_fn(move || {
                if word == 0 {
                    return None;
                }
                let place = 64 * i + word.trailing_zeros() as usize;
                word &= word - 1;
                Some(place)
            })
        })
    }
}

// ---------------------------------------------------------------- laying the terms

struct Island {
    qubits: u32,
    coupling: Coupling,
    /// (parity, sum) by ascending parity; the position is the column's place.
    terms: Vec<(u32, u32)>,
    asked: Asked,
}

impl Island {
    /// Nothing is to be laid: no terms, and each wire bears what is asked.
    fn is_idle(&self) -> bool {
        self.terms.is_empty() && members(self.qubits).all(|q| self.asked.rows[q] == 1 << q)
    }
}

/// The columns, kept as one row of places for each qubit: a CNOT then is one exclusive or.
struct Board<'a> {
    island: &'a Island,
    rows: [Places; MOST_QUBITS],
    laid: Vec<Gate>,
}

impl<'a> Board<'a> {
    /// All terms as columns, the single ones struck off.
    fn new(island: &'a Island) -> Board<'a> {
        let mut board = Board { island, rows: [Places::NONE; MOST_QUBITS], laid: vec![] };
        for (place, &(parity, _)) in island.terms.iter().enumerate() {
            for q in members(parity) {
                board.rows[q].insert(place);
            }
        }
        board.strike_off();
        board
    }

    fn left(&self) -> Places {
        members(self.island.qubits).fold(Places::NONE, |all, q| all.or(self.rows[q]))
    }

    fn column(&self, place: usize) -> u32 {
        members(self.island.qubits)
            .fold(0, |column, q| column | u32::from(self.rows[q].holds(place)) << q)
    }

    fn lay(&mut self, c: usize, t: usize) {
        self.laid.push(Gate::Cnot(c, t));
        self.rows[c] = self.rows[c].xor(self.rows[t]);
    }

    fn strike_off(&mut self) {
        let (mut once, mut more) = (Places::NONE, Places::NONE);
        for q in members(self.island.qubits) {
            more = more.or(once.and(self.rows[q]));
            once = once.or(self.rows[q]);
        }
        let single = once.without(more);
        if single.is_empty() {
            return;
        }
        for q in members(self.island.qubits) {
            for place in self.rows[q].and(single).list() {
                self.laid.push(Gate::Rot(q, self.island.terms[place].1));
            }
            self.rows[q] = self.rows[q].without(single);
        }
    }

    fn ones(&self, q: usize, chosen: Places) -> u32 {
        self.rows[q].and(chosen).size()
    }

    /// The spare qubit with most equal entries in the chosen columns, the lowest in a tie. There is one:
    /// document 02's E7 promises that the steps can always go on.
    fn row_to_split(&self, set: u32, chosen: Places) -> usize {
        let all = chosen.size();
        let mut best = None;
        for q in members(set) {
            let ones = self.ones(q, chosen);
            let equal = ones.max(all - ones);
            // Only a better row is worth the search for its being spare.
            if best.is_none_or(|(most, _)| equal > most) && self.island.coupling.is_spare(set, q) {
                best = Some((equal, q));
            }
        }
        best.expect("by E7 the set has a spare qubit").1
    }

    /// The neighbour of r with most ones, the lowest in a tie, and its ones. There is one, by the same
    /// promise.
    fn neighbour_of(&self, set: u32, r: usize, chosen: Places) -> (usize, u32) {
        let mut best: Option<(usize, u32)> = None;
        for m in members(self.island.coupling.near[r] & set) {
            let ones = self.ones(m, chosen);
            if best.is_none_or(|(_, most)| ones > most) {
                best = Some((m, ones));
            }
        }
        best.expect("by E7 the chosen qubit has a neighbour in the set")
    }
}

/// What the steps still have to do; the last one comes first.
enum Task {
    Base(u32, Places),
    Ones(u32, usize, Places),
}

/// Splits the chosen columns on row r; the zeros come first, so they are put on the pile last.
fn split(pile: &mut Vec<Task>, board: &Board, set: u32, r: usize, chosen: Places) {
    pile.push(Task::Ones(set, r, chosen.and(board.rows[r])));
    pile.push(Task::Base(set & !(1 << r), chosen.without(board.rows[r])));
}

fn steps(island: &Island) -> Vec<Gate> {
    let mut board = Board::new(island);
    let mut pile = vec![Task::Base(island.qubits, board.left())];
    while let Some(task) = pile.pop() {
        match task {
            Task::Base(_, chosen) | Task::Ones(_, _, chosen) if chosen.is_empty() => {}
            Task::Base(set, chosen) => {
                let r = board.row_to_split(set, chosen);
                split(&mut pile, &board, set, r, chosen);
            }
            Task::Ones(set, r, chosen) => {
                let (m, ones) = board.neighbour_of(set, r, chosen);
                if ones == 0 {
                    board.lay(m, r);
                }
                board.lay(r, m);
                board.strike_off();
                let left = chosen.and(board.left());
                split(&mut pile, &board, set, r, left);
            }
        }
    }
    board.laid
}

/// The cheapest gathering over all columns left and all their members, the first in a tie.
fn cheapest_gathering(board: &Board, walks: &[Option<Walk>], left: Places) -> Vec<(usize, usize)> {
    let (mut fewest, mut chosen) = (u32::MAX, None);
    for place in left.list() {
        let x = board.column(place);
        // Every member but one costs a move at least.
        if x.count_ones() - 1 >= fewest {
            continue;
        }
        for v in members(x) {
            let moves = walks[v].as_ref().unwrap().moves(x, fewest);
            if moves < fewest {
                (fewest, chosen) = (moves, Some((v, x)));
            }
        }
    }
    let (v, x) = chosen.expect("a column left has members");
    walks[v].as_ref().unwrap().gather(x)
}

fn nearest_first(island: &Island) -> Vec<Gate> {
    let walks: Vec<Option<Walk>> = (0..MOST_QUBITS)
        .map(|v| holds(island.qubits, v).then(|| island.coupling.walk(island.qubits, v)))
        .collect();
    let mut board = Board::new(island);
    loop {
        let left = board.left();
        if left.is_empty() {
            return board.laid;
        }
        for (u, p) in cheapest_gathering(&board, &walks, left) {
            board.lay(u, p);
            board.strike_off();
        }
    }
}

// ---------------------------------------------------------------- ending and closing

/// Asked rows and mirror rows.
#[derive(Clone, Copy)]
struct Asked {
    rows: [u32; MOST_QUBITS],
    mirror: [u32; MOST_QUBITS],
}

impl Asked {
    fn replay(&mut self, (c, t): (usize, usize)) {
        for i in 0..MOST_QUBITS {
            self.rows[i] = turn(self.rows[i], c, t);
            self.mirror[i] = turn(self.mirror[i], t, c);
        }
    }
}

type Cnots = Vec<(usize, usize)>;

fn as_laid_on_mirror(moves: Cnots) -> Cnots {
    moves.into_iter().map(|(u, p)| (p, u)).collect()
}

fn rows_first(walk: &Walk, v: usize, asked: &Asked) -> Cnots {
    let mut list = walk.gather(asked.rows[v]);
    // Of the whole copy only this one mirror row is looked at.
    let y = list.iter().fold(asked.mirror[v], |y, &(c, t)| turn(y, t, c));
    list.extend(as_laid_on_mirror(walk.gather(y)));
    list
}

fn mirror_first(walk: &Walk, v: usize, asked: &Asked) -> Cnots {
    let mut list = as_laid_on_mirror(walk.gather(asked.mirror[v]));
    let y = list.iter().fold(asked.rows[v], |y, &(c, t)| turn(y, c, t));
    list.extend(walk.gather(y));
    list
}

fn ending(island: &Island, mut asked: Asked) -> Cnots {
    let mut all = vec![];
    let mut set = island.qubits;
    while set.count_ones() > 1 {
        let mut best: Option<(usize, Cnots)> = None;
        for v in members(set).filter(|&v| island.coupling.is_spare(set, v)) {
            let walk = island.coupling.walk(set, v);
            for list in [rows_first(&walk, v, &asked), mirror_first(&walk, v, &asked)] {
                if best.as_ref().is_none_or(|(_, least)| list.len() < least.len()) {
                    best = Some((v, list));
                }
            }
        }
        let (v, list) = best.expect("a connected set has a spare qubit");
        list.iter().for_each(|&cnot| asked.replay(cnot));
        all.extend(list);
        set &= !(1 << v);
    }
    all
}

fn cnots_of(gates: &[Gate]) -> Cnots {
    let cnot = |gate: &Gate| if let Gate::Cnot(c, t) = *gate { Some((c, t)) } else { None };
    gates.iter().filter_map(cnot).collect()
}

fn closing(island: &Island, laid: &[Gate]) -> Cnots {
    let cnots = cnots_of(laid);
    let mut reached = island.asked;
    cnots.iter().for_each(|&cnot| reached.replay(cnot));
    let onward = ending(island, reached);
    let mut back_first = cnots;
    back_first.reverse();
    back_first.extend(ending(island, island.asked));
    if back_first.len() < onward.len() { back_first } else { onward }
}

fn closed(island: &Island, mut laid: Vec<Gate>) -> Vec<Gate> {
    let end = closing(island, &laid);
    laid.extend(end.into_iter().map(|(c, t)| Gate::Cnot(c, t)));
    laid
}

// ---------------------------------------------------------------- the whole circuit

fn island_of(qubits: u32, coupling: &Coupling, meaning: &Meaning) -> Island {
    let own = |row: u32| row & qubits;
    Island {
        qubits,
        coupling: coupling.clone(),
        terms: meaning.terms().filter(|&(parity, _)| parity & !qubits == 0).collect(),
        asked: Asked { rows: meaning.parity.map(own), mirror: meaning.mirror.map(own) },
    }
}

fn lay_island(island: &Island) -> Vec<Gate> {
    // Both ways come to this too, but a job can have thousands of idle stretches.
    if island.is_idle() {
        return vec![];
    }
    let by_steps = closed(island, steps(island));
    let by_nearness = closed(island, nearest_first(island));
    if by_nearness.len() < by_steps.len() { by_nearness } else { by_steps }
}

/// The X gates of an island, which stand behind its ending.
fn flips_of(qubits: u32, meaning: &Meaning) -> impl Iterator<Item = Gate> + '_ {
    members(qubits).filter(|&q| meaning.flip[q]).map(Gate::X)
}

/// What an acceptance returns; the numbers are taken from the gates where they are printed.
#[derive(PartialEq, Debug)]
struct Laid {
    gates: Vec<Gate>,
    /// The common phases of the job's stretches, added up, less those of the laid gates, in half units.
    /// The latter have none: a rotation is laid before its island's first X.
    phase: u32,
}

fn lay_stretch(coupling: &Coupling, islands: &[u32], meaning: &Meaning) -> Vec<Gate> {
    let mut gates = vec![];
    for &qubits in islands {
        gates.extend(lay_island(&island_of(qubits, coupling, meaning)));
        gates.extend(flips_of(qubits, meaning));
    }
    gates
}

fn lay(job: &Job, lent: &Lent) -> Result<Laid, Refusal> {
    test_chip(job)?;
    test_length(job)?;
    test_gates(job)?;
    let stretches = stretches_of(&job.gates);
    let meanings = stretches.iter().map(Meaning::of).collect::<Result<Vec<_>, _>>()?;
    let coupling = Coupling::of(&job.couplers);
    let islands = coupling.islands(job.n);
    test_reachable(job.n, &stretches, &meanings, &islands)?;
    test_output(job.n, &meanings, lent)?;
    let mut hadamards = job.gates.iter().copied().filter(is_hadamard);
    let mut gates = vec![];
    for meaning in &meanings {
        gates.extend(lay_stretch(&coupling, &islands, meaning));
        // None is left behind the last stretch.
        gates.extend(hadamards.next());
    }
    let phase = meanings.iter().map(|meaning| meaning.phase).sum::<u32>() % FULL_PHASE;
    Ok(Laid { gates, phase })
}

/// Only CNOTs take a layer; all other gates are passed over, Hadamards too.
fn depth(gates: &[Gate]) -> usize {
    let mut busy_to = [0; MOST_QUBITS];
    for (c, t) in cnots_of(gates) {
        let layer = busy_to[c].max(busy_to[t]) + 1;
        busy_to[c] = layer;
        busy_to[t] = layer;
    }
    busy_to.into_iter().max().unwrap_or(0)
}

// ---------------------------------------------------------------- writing

/// The text of these lists, as they are.
fn job_text(n: usize, couplers: &[(usize, usize)], gates: &[Gate]) -> String {
    let mut text = format!("q\t{n}\n");
    for (a, b) in couplers {
        text += &format!("e\t{a}\t{b}\n");
    }
    for gate in gates {
        text += &match gate {
            Gate::Cnot(c, t) => format!("c\t{c}\t{t}\n"),
            Gate::Rot(q, angle) => format!("r\t{q}\t{angle}\n"),
            Gate::X(q) => format!("n\t{q}\n"),
            Gate::H(q) => format!("h\t{q}\n"),
        };
    }
    text
}

fn write_job(job: &Job, lent: &Lent) -> Result<String, Refusal> {
    test_chip(job)?;
    test_gates(job)?;
    let text = job_text(job.n, &job.couplers, &job.gates);
    if text.len() > lent.text { refuse(8, 0) } else { Ok(text) }
}

// ---------------------------------------------------------------- printing

fn refusal_line(refusal: Refusal) -> String {
    format!("x\t{}\t{}\n", refusal.number, refusal.place)
}

fn lay_text(job: &Job, gates: &[Gate]) -> String {
    let mut ends: Vec<_> = job.couplers.iter().map(|&(a, b)| (a.min(b), a.max(b))).collect();
    ends.sort();
    ends.dedup();
    job_text(job.n, &ends, gates)
}

fn count_text(gates: &[Gate]) -> String {
    let rotations = gates.iter().filter(|gate| matches!(gate, Gate::Rot(..))).count();
    format!("s\t{}\t{}\t{}\n", cnots_of(gates).len(), rotations, depth(gates))
}

/// The line of a common phase; none where it is 0.
fn phase_text(phase: u32) -> String {
    if phase == 0 { String::new() } else { format!("p\t{phase}\n") }
}

/// What the laying and the counting program print, and the line of the common phase.
fn all_texts(text: &[u8]) -> [String; 3] {
    let answer = read_job(text, &ENOUGH).and_then(|job| lay(&job, &ENOUGH).map(|laid| (job, laid)));
    match answer {
        Err(refusal) => [refusal_line(refusal), refusal_line(refusal), String::new()],
        Ok((job, laid)) => {
            [lay_text(&job, &laid.gates), count_text(&laid.gates), phase_text(laid.phase)]
        }
    }
}

/// What the two programs print.
fn both_texts(text: &[u8]) -> [String; 2] {
    let [laid, counted, _] = all_texts(text);
    [laid, counted]
}

/// An `x` line for every answer: number and place are 0 where it is an acceptance.
fn answer_line<T>(answer: Result<T, Refusal>) -> String {
    refusal_line(answer.err().unwrap_or(Refusal { number: 0, place: 0 }))
}

/// What `scant` prints. Reading judges form only, so bad lists come to laying and to writing too.
fn scant_text(text: &[u8]) -> String {
    let mut lines = answer_line(read_job(text, &SCANT));
    if let Ok(job) = read_job(text, &ENOUGH) {
        lines += &answer_line(lay(&job, &SCANT));
        lines += &answer_line(write_job(&job, &SCANT));
    }
    lines
}

/// Reads the couplers, then the circuit, and lays it. What is read of the circuit comes back with the laid
/// gates in place of its own, and with the whole common phase: what was read and what laying returns.
fn lay_circuit(couplers: &[u8], circuit: &[u8]) -> Result<Circuit, Refusal> {
    let couplers = read_couplers(couplers)?;
    let drawn = openqasm::read(circuit, &ENOUGH)?;
    let laid = lay(&Job { couplers, ..drawn.job }, &ENOUGH)?;
    let job = Job { n: drawn.job.n, couplers: vec![], gates: laid.gates };
    Ok(Circuit { job, phase: (drawn.phase + laid.phase) % FULL_PHASE, ..drawn })
}

/// What `qasm` prints.
fn circuit_text(couplers: &[u8], circuit: &[u8]) -> String {
    lay_circuit(couplers, circuit).map_or_else(refusal_line, |laid| openqasm::text_of(&laid))
}

/// What `qasm_vectors` prints of a pair. Reading and writing look at the circuit alone.
fn circuit_texts(couplers: &[u8], circuit: &[u8]) -> String {
    let read = openqasm::read(circuit, &SCANT_CIRCUIT);
    let behind = read.as_ref().map(|circuit| {
        phase_text(circuit.phase) + &answer_line(openqasm::write(circuit, &SCANT_CIRCUIT))
    });
    let behind = behind.unwrap_or_default();
    [circuit_text(couplers, circuit), answer_line(read), behind].concat()
}

// ---------------------------------------------------------------- programs

/// The texts of a bundle; what follows the last closing line is no text.
fn unbundle(bundle: &[u8]) -> Vec<&[u8]> {
    let (mut texts, mut start, mut at) = (vec![], 0, 0);
    for line in bundle.split_inclusive(|&byte| byte == b'\n') {
        let end = match line {
            b"--\n" => Some(at),
            b"-.\n" => Some(at.max(start + 1) - 1),
            _ => None,
        };
        at += line.len();
        if let Some(end) = end {
            texts.push(&bundle[start..end]);
            start = at;
        }
    }
    texts
}

/// Reads no more than is needed to know that a text is too long.
fn read_from(source: impl Read) -> Vec<u8> {
    let mut text = vec![];
    let _ = source.take(LONGEST_TEXT as u64 + 1).read_to_end(&mut text);
    text
}

fn read_one() -> Vec<u8> {
    read_from(io::stdin())
}

/// A folder can be opened, but not read.
fn read_file(path: &str) -> Vec<u8> {
    let opened = File::open(path).and_then(|mut file| file.read(&mut []).map(|_| file));
    match opened {
        Ok(file) => read_from(file),
        Err(fault) => {
            eprintln!("{path}: {fault}");
            std::process::exit(1)
        }
    }
}

fn print_one(text: &str) -> io::Result<()> {
    io::stdout().write_all(text.as_bytes())
}

/// What `answer` makes of the bundle's texts, so many at a time.
fn print_many(size: usize, answer: impl Fn(&[&[u8]]) -> String) -> io::Result<()> {
    let mut bundle = vec![];
    io::stdin().read_to_end(&mut bundle)?;
    let mut out = BufWriter::new(io::stdout().lock());
    for texts in unbundle(&bundle).chunks_exact(size) {
        out.write_all(answer(texts).as_bytes())?;
    }
    out.flush()
}

fn closed_text(text: String) -> String {
    text + "--\n"
}

/// The programs it can stand in for.
const STAND_INS: [&str; 5] = ["lay", "count", "vectors", "qasm", "qasm_vectors"];

/// What is asked for: the mode and the words behind it.
fn words() -> Vec<String> {
    let mut words: Vec<String> = std::env::args().collect();
    let own_name = words[0].rsplit('/').next().unwrap_or_default().to_string();
    if STAND_INS.contains(&own_name.as_str()) {
        words[0] = own_name;
    } else {
        words.remove(0);
    }
    words
}

fn main() {
    let words = words();
    let words: Vec<&str> = words.iter().map(String::as_str).collect();
    // Nobody is left to be told when the output is closed, so its errors are passed over.
    let _ = match words[..] {
        ["lay"] => print_one(&both_texts(&read_one())[0]),
        ["count"] => print_one(&both_texts(&read_one())[1]),
        ["many" | "vectors"] => print_many(1, |job| all_texts(job[0]).concat()),
        ["bundle"] => print_many(1, |job| both_texts(job[0]).map(closed_text).concat()),
        ["scant"] => print_many(1, |job| scant_text(job[0])),
        ["qasm", couplers] => print_one(&circuit_text(&read_file(couplers), &read_one())),
        ["circuits" | "qasm_vectors"] => print_many(2, |pair| circuit_texts(pair[0], pair[1])),
        ["circuit-bundle"] => print_many(2, |pair| closed_text(circuit_text(pair[0], pair[1]))),
        _ => {
            eprintln!("second lay | count | many | bundle | scant | qasm COUPLERS | circuits | circuit-bundle");
            std::process::exit(2)
        }
    };
}

#[cfg(test)]
mod worked_example {
    use super::*;

    const JOB: &[u8] = b"q\t4\ne\t0\t1\ne\t1\t2\ne\t2\t3\n\
        c\t1\t3\nc\t1\t0\nr\t0\t200\nr\t1\t300\nr\t3\t100\nc\t1\t3\n";

    fn island() -> Island {
        let job = read_job(JOB, &ENOUGH).unwrap();
        let stretches = stretches_of(&job.gates);
        island_of(15, &Coupling::of(&job.couplers), &Meaning::of(&stretches[0]).unwrap())
    }

    #[test]
    fn the_steps_and_their_closing() {
        let laid = steps(&island());
        assert_eq!(laid.len(), 9);
        assert_eq!(cnots_of(&laid), [(2, 1), (1, 2), (2, 3), (1, 0), (0, 1), (1, 2)]);
        let back_first = [(1, 2), (0, 1), (1, 0), (2, 3), (1, 2), (2, 1), (1, 0)];
        assert_eq!(closing(&island(), &laid), back_first);
    }

    #[test]
    fn onward_after_the_steps() {
        let mut reached = island().asked;
        cnots_of(&steps(&island())).into_iter().for_each(|cnot| reached.replay(cnot));
        assert_eq!((&reached.rows[..4], &reached.mirror[..4]), (&[4, 6, 5, 14][..], &[7, 10, 1, 8][..]));
        let onward = [(1, 2), (2, 3), (2, 1), (0, 1), (1, 0), (1, 2), (2, 1), (1, 2)];
        assert_eq!(ending(&island(), reached), onward);
    }

    #[test]
    fn nearest_first_is_taken() {
        assert_eq!(both_texts(JOB)[1], "s\t7\t3\t6\n");
    }
}

/// Document 02's E7: on an island the steps always find a spare qubit and a neighbour. They panic where
/// they do not.
#[cfg(test)]
mod steps_go_on {
    use super::*;

    /// Good enough for drawing lots, and the same each time.
    struct Dice(u64);

    impl Dice {
        fn below(&mut self, bound: usize) -> usize {
            self.0 = self.0.wrapping_mul(6_364_136_223_846_793_005).wrapping_add(1_442_695_040_888_963_407);
            (self.0 >> 33) as usize % bound
        }

        fn shuffled(&mut self, n: usize) -> Vec<usize> {
            let mut list: Vec<usize> = (0..n).collect();
            (1..n).for_each(|i| list.swap(i, self.below(i + 1)));
            list
        }

        /// Parities on n qubits, at most so many of them.
        fn parities(&mut self, n: usize, count: usize) -> Vec<u32> {
            (0..count).map(|_| 1 + self.below((1 << n) - 1) as u32).collect()
        }
    }

    /// An island of the qubits below n with a term for each of the parities.
    fn island(n: usize, coupling: &Coupling, mut parities: Vec<u32>) -> Island {
        parities.sort();
        parities.dedup();
        let wires: [u32; MOST_QUBITS] = std::array::from_fn(|i| 1 << i);
        Island {
            qubits: (1 << n) - 1,
            coupling: coupling.clone(),
            terms: parities.into_iter().zip(1..).collect(),
            asked: Asked { rows: wires, mirror: wires },
        }
    }

    /// The steps lay each term exactly once: all of them, by as many rotations.
    fn lays(n: usize, coupling: &Coupling, parities: Vec<u32>) {
        let island = island(n, coupling, parities);
        let laid = steps(&island);
        let meaning = Meaning::of(&Stretch { start: 0, gates: &laid }).unwrap();
        assert!(meaning.terms().eq(island.terms.iter().copied()));
        assert_eq!(laid.len() - cnots_of(&laid).len(), island.terms.len());
    }

    fn pairs(n: usize) -> Vec<(usize, usize)> {
        (0..n).flat_map(|b| (0..b).map(move |a| (a, b))).collect()
    }

    /// Every coupling of n qubits that makes them one island.
    fn connected(n: usize) -> impl Iterator<Item = Coupling> {
        let pairs = pairs(n);
        let some_pairs = move |chosen: u32| members(chosen).map(|i| pairs[i]).collect::<Vec<_>>();
        (0..1 << (n * (n - 1) / 2))
            .map(move |chosen| Coupling::of(&some_pairs(chosen)))
            .filter(move |coupling| coupling.islands(n).len() == 1)
    }

    /// The parities from 1 on, those whose places are chosen.
    fn parities_of(chosen: u32) -> Vec<u32> {
        members(chosen).map(|place| place as u32 + 1).collect()
    }

    #[test]
    fn every_island_up_to_four_with_every_set_of_terms() {
        let count = |n| connected(n).count();
        assert_eq!([count(1), count(2), count(3), count(4), count(5)], [1, 1, 4, 38, 728]);
        for n in 1..=4 {
            for coupling in connected(n) {
                (0..1 << ((1 << n) - 1)).for_each(|chosen| lays(n, &coupling, parities_of(chosen)));
            }
        }
    }

    #[test]
    fn every_island_of_five_with_some_sets_of_terms() {
        let mut dice = Dice(5);
        for coupling in connected(5) {
            lays(5, &coupling, (1..32).collect());
            for count in 1..=60 {
                lays(5, &coupling, dice.parities(5, count));
            }
        }
    }

    /// A coupling in which few qubits are spare or have many neighbours, its qubits in any order.
    fn narrow(dice: &mut Dice, n: usize, shape: &str) -> Coupling {
        let names = dice.shuffled(n);
        let mut parent = |i: usize| match shape {
            "star" => 0,
            "tree" => dice.below(i),
            _ => i - 1,
        };
        let mut couplers: Vec<_> = (1..n).map(|i| (names[parent(i)], names[i])).collect();
        if shape == "ring" && n > 2 {
            couplers.push((names[0], names[n - 1]));
        }
        Coupling::of(&couplers)
    }

    #[test]
    fn lines_stars_rings_and_trees() {
        let mut dice = Dice(20);
        for n in 1..=MOST_QUBITS {
            let whole = (1 << n) - 1;
            for shape in ["line", "star", "ring", "tree"].repeat(5) {
                let coupling = narrow(&mut dice, n, shape);
                lays(n, &coupling, vec![whole]);
                lays(n, &coupling, (1..=n).map(|length| (1 << length) - 1).collect());
                lays(n, &coupling, pairs(n).into_iter().map(|(a, b)| 1 << a | 1 << b).collect());
                for most in [n, 40, 256] {
                    let count = dice.below(most);
                    lays(n, &coupling, dice.parities(n, count));
                }
                lays(n, &coupling, dice.parities(n, 256));
            }
        }
    }
}

#[cfg(test)]
mod too_little_lent {
    use super::*;

    #[test]
    fn the_bound() {
        assert_eq!([bound(2, 1), bound(4, 3), bound(3, 7), bound(20, 256)], [9, SCANT.laid, 50, 10_764]);
    }

    #[test]
    fn example_9() {
        let job = read_job(b"q\t2\ne\t0\t1\nr\t0\t5\n", &ENOUGH).unwrap();
        assert!(lay(&job, &Lent { laid: 9, ..ENOUGH }).is_ok());
        assert_eq!(lay(&job, &Lent { laid: 8, ..ENOUGH }), refuse(8, 0));
    }
}

#[cfg(test)]
mod layers {
    use super::*;
    use Gate::{Cnot, Rot, X};

    #[test]
    fn example_10() {
        assert_eq!(depth(&[Cnot(0, 1), Rot(1, 9), Cnot(0, 1)]), 2);
    }

    #[test]
    fn the_sample_line() {
        let texts = ["q\t2\ne\t0\t1\nr\t0\t7\n", "s\t0\t1\t0\n"];
        assert_eq!(both_texts(b"q\t2\ne\t1\t0\nr\t1\t500\nr\t0\t7\nr\t1\t65036\n"), texts);
    }

    #[test]
    fn none_without_a_cnot() {
        assert_eq!([depth(&[]), depth(&[Rot(0, 1), Rot(0, 2), X(0), X(1)])], [0, 0]);
    }

    #[test]
    fn the_earliest_layer() {
        // The third CNOT lies beside the first, though the second layer is there already.
        assert_eq!(depth(&[Cnot(0, 1), Cnot(2, 1), Cnot(3, 4), Cnot(4, 3)]), 2);
        // Here it shares a qubit with the second.
        assert_eq!(depth(&[Cnot(0, 1), Cnot(2, 1), Cnot(3, 2), Cnot(4, 3)]), 4);
    }
}

#[cfg(test)]
mod flips {
    use super::*;

    #[test]
    fn a_rotation_between_two_flips() {
        let texts = ["q\t1\nr\t0\t65531\n", "s\t0\t1\t0\n", "p\t10\n"];
        assert_eq!(all_texts(b"q\t1\nn\t0\nr\t0\t5\nn\t0\n"), texts);
    }

    #[test]
    fn a_cnot_carries_a_flip() {
        let texts = ["q\t2\ne\t0\t1\nc\t0\t1\nn\t0\nn\t1\n", "s\t1\t0\t1\n", ""];
        assert_eq!(all_texts(b"q\t2\ne\t0\t1\nn\t0\nc\t0\t1\n"), texts);
    }

    #[test]
    fn island_by_island() {
        let texts = ["q\t3\ne\t0\t2\nn\t0\nn\t2\nr\t1\t7\nn\t1\n", "s\t0\t1\t0\n", ""];
        assert_eq!(all_texts(b"q\t3\ne\t2\t0\nr\t1\t7\nn\t2\nn\t1\nn\t0\n"), texts);
    }

    #[test]
    fn a_phase_of_one_turn_is_none() {
        assert_eq!(all_texts(b"q\t1\nn\t0\nr\t0\t32768\nr\t0\t32768\n")[2], "");
        assert_eq!(all_texts(b"q\t1\nn\t0\nr\t0\t32769\nr\t0\t32768\n")[2], "p\t2\n");
    }

    #[test]
    fn half_units() {
        assert_eq!(all_texts(b"q\t1\nn\t0\nr\t0\t32768\n")[2], "p\t65536\n");
        assert_eq!(all_texts(b"q\t1\nn\t0\nr\t0\t65535\n")[2], "p\t131070\n");
    }
}

#[cfg(test)]
mod hadamards {
    use super::*;

    /// A space stands for a tab, `;` for LF.
    fn spelled_out(text: &str) -> String {
        text.replace(' ', "\t").replace(';', "\n")
    }

    /// What is printed for the job: the laid job, its counts, its common phase.
    fn gets(job: &str, printed: [&str; 3]) {
        assert_eq!(all_texts(spelled_out(job).as_bytes()), printed.map(spelled_out));
    }

    fn is_refused(job: &str, line: &str) {
        gets(job, [line, line, ""]);
    }

    #[test]
    fn one_stretch_more_than_hadamards() {
        use Gate::{H, Rot, X};
        let gates = [H(1), X(0), Rot(0, 5), H(0), H(1)];
        let parts: Vec<_> = stretches_of(&gates).iter().map(|part| (part.start, part.gates.len())).collect();
        assert_eq!(parts, [(0, 0), (1, 2), (4, 0), (5, 0)]);
        assert_eq!(stretches_of(&[]).len(), 1);
    }

    #[test]
    fn they_keep_their_order() {
        gets("q 3;h 2;h 0;h 1;h 2;", ["q 3;h 2;h 0;h 1;h 2;", "s 0 0 0;", ""]);
    }

    #[test]
    fn nothing_is_carried_over() {
        // Neither a sum, nor a parity, nor a flip.
        gets("q 1;r 0 40;h 0;r 0 65496;", ["q 1;r 0 40;h 0;r 0 65496;", "s 0 2 0;", ""]);
        gets("q 2;e 0 1;c 0 1;h 0;c 0 1;r 1 5;", ["q 2;e 0 1;c 0 1;h 0;c 0 1;r 1 5;", "s 2 1 2;", ""]);
        gets("q 1;n 0;h 0;r 0 5;n 0;", ["q 1;n 0;h 0;r 0 5;n 0;", "s 0 1 0;", ""]);
    }

    #[test]
    fn it_ends_the_stretch_on_all_wires() {
        gets("q 2;r 1 7;h 0;r 1 8;", ["q 2;r 1 7;h 0;r 1 8;", "s 0 2 0;", ""]);
        gets("q 2;n 1;h 0;n 1;", ["q 2;n 1;h 0;n 1;", "s 0 0 0;", ""]);
    }

    #[test]
    fn the_phases_are_summed() {
        gets("q 1;n 0;r 0 5;n 0;h 0;n 0;r 0 6;n 0;", ["q 1;r 0 65531;h 0;r 0 65530;", "s 0 2 0;", "p 22;"]);
        gets("q 1;n 0;r 0 5;n 0;h 0;n 0;r 0 65531;n 0;", ["q 1;r 0 65531;h 0;r 0 5;", "s 0 2 0;", ""]);
    }

    #[test]
    fn the_depth_is_that_of_the_whole_list() {
        // The CNOTs of the two stretches share no qubit, and then one.
        gets("q 4;e 0 1;e 2 3;c 0 1;h 0;c 2 3;", ["q 4;e 0 1;e 2 3;c 0 1;h 0;c 2 3;", "s 2 0 1;", ""]);
        gets("q 3;e 0 1;e 1 2;c 0 1;h 0;c 1 2;", ["q 3;e 0 1;e 1 2;c 0 1;h 0;c 1 2;", "s 2 0 2;", ""]);
    }

    #[test]
    fn a_bad_one() {
        is_refused("q 2;h 1;h 2;", "x 5 1;");
        is_refused("q 2;h 0 0;", "x 10 2;");
    }

    #[test]
    fn the_place_of_7() {
        is_refused("q 3;e 0 1;r 0 1;h 0;r 1 2;c 0 2;", "x 7 2;");
        is_refused("q 3;e 0 1;c 0 2;h 0;c 0 2;", "x 7 0;");
        is_refused("q 3;e 0 1;h 0;c 0 2;r 2 40;c 0 2;", "x 7 1;");
        is_refused("q 3;e 0 1;r 0 1;c 0 2;", "x 7 2;");
    }

    /// A walk on wire 0 whose rotations find this many parities.
    fn walk(parities: usize) -> String {
        (1..=parities).map(|i| format!("r 0 0;c {} 0;", 1 + i.trailing_zeros())).collect()
    }

    #[test]
    fn the_parities_of_each_stretch() {
        let (most, too_many) = (walk(256), walk(257));
        // There are no couplers, so each of these fails 7 too; but all stretches pass 6 before it.
        is_refused(&format!("q 10;h 0;{most}h 1;{most}"), "x 7 1;");
        is_refused(&format!("q 10;h 0;{most}h 1;{too_many}"), "x 6 1026;");
        is_refused(&format!("q 10;h 0;{too_many}h 1;{too_many}"), "x 6 513;");
    }

    #[test]
    fn the_bound_is_summed() {
        let job = |text: &str| read_job(spelled_out(text).as_bytes(), &ENOUGH).unwrap();
        let needs = |text: &str, records: usize| {
            assert!(lay(&job(text), &Lent { laid: records, ..ENOUGH }).is_ok());
            assert_eq!(lay(&job(text), &Lent { laid: records - 1, ..ENOUGH }), refuse(8, 0));
        };
        needs("q 1;h 0;", 3);
        needs("q 1;r 0 1;h 0;h 0;r 0 1;", 7);
        needs("q 2;e 0 1;r 0 5;h 0;", 9 + 6 + 1);
    }
}
