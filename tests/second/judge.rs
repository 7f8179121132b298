//! The judge: knows what document 01, with document 02's E1, E2, E3, E5, E7 and E12, means and nothing of
//! how gates are laid. It says whether the texts that the laying and the counting program printed are
//! right for a job, or those of the programs `qasm` and `qasm_vectors` for a circuit.
//!
//!     judge one JOB LAID [COUNTED]   three files
//!     judge many JOBS PRINTED        a bundle of jobs and what the program `vectors` printed for it:
//!                                    for each job what the laying and the counting program print
//!                                    and the line `p` of a common phase, nothing between them
//!     judge bundle JOBS PRINTED      two bundles; for each job two texts in PRINTED, what the
//!                                    laying and what the counting program printed
//!     judge circuit COUPLERS CIRCUIT PRINTED
//!                                    three files
//!     judge circuits PAIRS PRINTED   a bundle of pairs, the couplers' text and then the circuit's, and
//!                                    what the program `qasm_vectors` printed for it: for each pair
//!                                    what `qasm` prints, what reading answers where too little is
//!                                    lent, the line `p` of the common phase that it read, and what
//!                                    writing answers, nothing between them
//!     judge circuit-bundle PAIRS PRINTED
//!                                    two bundles; for each pair one text in PRINTED, what `qasm`
//!                                    printed
//!
//! The laying and the counting program do not print the common phase that an acceptance returns. So `many`
//! judges the phase that was returned, and `one` and `bundle` take the one that has to be returned in its
//! place. A printed circuit has the whole common phase as its last line.
//! Where there are many, stretches with the same qubits, couplers, final parities, flips and sums, of
//! one job or of two, must get the same gates too; it says how many of them there were ("drawn
//! before").
//! Prints `ok` or what is wrong; the exit status is 1 on a fault and 2 on wrong use.
//! A bundle is a row of texts, each closed by a line `--`, or by a line `-.` where the last LF
//! is not the text's own.

mod statements;

use statements::Version;
use std::collections::hash_map::{Entry, HashMap};
use std::collections::{BTreeMap, BTreeSet, VecDeque};
use std::fmt::Write as _;

#[derive(Clone, Copy, PartialEq)]
enum Line {
    Qubits(u32),
    Coupler(u32, u32),
    Cnot(u32, u32),
    /// By an angle of one turn at most: a state gets it where the qubit is 1.
    Rotation(u32, u32),
    /// By an angle of two turns at most, the `rz` of OpenQASM 3.0: a state gets half of it where the qubit
    /// is 1, and loses half of it where the qubit is 0.
    Symmetric(u32, u32),
    X(u32),
    Hadamard(u32),
}

/// The right answer to a job.
enum Verdict {
    Refused(u32, u32),
    Accepted(Wanted),
}

struct Wanted {
    /// Of a circuit alone.
    version: Option<&'static Version>,
    n: u32,
    couplers: BTreeSet<(u32, u32)>,
    /// The qubits of the Hadamards.
    hadamards: Vec<u32>,
    stretches: Vec<Stretch>,
    /// A common phase that is asked for beside the gates.
    gphase: u32,
    /// For each qubit the lowest qubit of its island.
    labels: Vec<u32>,
}

/// What is to be laid.
enum Task<'a> {
    Job(&'a [u8]),
    Circuit { couplers: &'a [u8], circuit: &'a [u8] },
}

/// What was printed for one job or circuit; `None` for what is not printed at all.
struct Printed<'a> {
    laid: &'a [u8],
    counted: Option<&'a [u8]>,
    /// The lines of reading and writing where too little is lent.
    scant: Option<&'a [u8]>,
    /// The line of the common phase that laying a job returned, empty where there is none.
    phase: Option<&'a [u8]>,
}

// ------------------------------------------------------------ lines, character by character

/// Written back it must be the same, so there is no sign and there are no needless zeros.
fn numeral(digits: &str, most: u32) -> Option<u32> {
    digits.parse().ok().filter(|value: &u32| *value <= most && value.to_string() == digits)
}

/// Takes a tab and a number from the front of the line.
fn take_number(line: &mut &str, most: u32) -> Option<u32> {
    let rest = line.strip_prefix('\t')?;
    let length = rest.find(|c: char| !c.is_ascii_digit()).unwrap_or(rest.len());
    *line = &rest[length..];
    numeral(&rest[..length], most)
}

fn parse_line(line: &[u8]) -> Option<Line> {
    let line = std::str::from_utf8(line).ok()?;
    let letter = line.chars().next()?;
    let mut rest = &line[letter.len_utf8()..];
    let a = take_number(&mut rest, 255)?;
    let parsed = match letter {
        'q' => Line::Qubits(a),
        'e' => Line::Coupler(a, take_number(&mut rest, 65_535)?),
        'c' => Line::Cnot(a, take_number(&mut rest, 65_535)?),
        'r' => Line::Rotation(a, take_number(&mut rest, 65_535)?),
        'n' => Line::X(a),
        'h' => Line::Hadamard(a),
        _ => return None,
    };
    rest.is_empty().then_some(parsed)
}

/// Which part of a job a line belongs to; parts never go down.
fn part(line: Line) -> u32 {
    match line {
        Line::Qubits(_) => 0,
        Line::Coupler(..) => 1,
        _ => 2,
    }
}

/// The lines of a job, or the number of the first that cannot continue it.
fn parse_job(text: &[u8]) -> Result<Vec<Line>, u32> {
    let mut lines: Vec<Line> = vec![];
    let mut rest = text;
    while !rest.is_empty() || lines.is_empty() {
        let here = lines.len() as u32 + 1;
        let end = rest.iter().position(|&byte| byte == b'\n').ok_or(here)?;
        let line = parse_line(&rest[..end]).ok_or(here)?;
        let continues = match lines.last() {
            None => part(line) == 0,
            Some(&last) => part(line) > 0 && part(line) >= part(last),
        };
        if !continues {
            return Err(here);
        }
        lines.push(line);
        rest = &rest[end + 1..];
    }
    Ok(lines)
}

/// The couplers of a text of `e` lines alone, or the number of the first line that is none.
fn parse_couplers(text: &[u8]) -> Result<Vec<Line>, u32> {
    let coupler = |line: &[u8]| line.strip_suffix(b"\n").and_then(parse_line).filter(|&line| part(line) == 1);
    let numbered = (1..).zip(text.split_inclusive(|&byte| byte == b'\n'));
    numbered.map(|(here, line)| coupler(line).ok_or(here)).collect()
}

// ------------------------------------------------------------ meaning

const FULL_TURN: u32 = 65_536;

/// A full turn of a phase.
const HALF_UNITS: u32 = 131_072;

/// A wire is its parity and, at a place that no qubit has, its flip. So an X is an exclusive or with
/// this number, and the exclusive or of a CNOT carries the control's flip along.
const FLIP: u32 = 1 << 31;

/// The wires behind the last Hadamard, and what they were fed since.
struct Stretch {
    /// Where its first gate stands, or would stand, in the whole list.
    place: usize,
    gates: Vec<Line>,
    wires: Vec<u32>,
    rotations: Vec<Rotation>,
}

/// A rotation of either kind, by the wire that it met.
struct Rotation {
    place: usize,
    wire: u32,
    gate: Line,
}

impl Stretch {
    fn fresh(n: u32, place: usize) -> Stretch {
        Stretch { place, gates: vec![], wires: (0..n).map(|i| 1 << i).collect(), rotations: vec![] }
    }

    fn feed(&mut self, gate: Line) {
        match gate {
            Line::Cnot(c, t) => self.wires[t as usize] ^= self.wires[c as usize],
            Line::Rotation(q, _) | Line::Symmetric(q, _) => {
                let place = self.place + self.gates.len();
                self.rotations.push(Rotation { place, wire: self.wires[q as usize], gate });
            }
            Line::X(q) => self.wires[q as usize] ^= FLIP,
            _ => unreachable!("only gates of a stretch are fed"),
        }
        self.gates.push(gate);
    }

    /// The parities whose sum is not 0, with it.
    fn terms(&self) -> BTreeMap<u32, u32> {
        let mut terms = BTreeMap::new();
        for rotation in &self.rotations {
            let sum = terms.entry(rotation.parity()).or_insert(0);
            *sum = (*sum + rotation.share()) % FULL_TURN;
        }
        terms.retain(|_, sum| *sum != 0);
        terms
    }

    /// The phase common to all states.
    fn phase(&self) -> u32 {
        self.rotations.iter().fold(0, |phase, rotation| (phase + rotation.common()) % HALF_UNITS)
    }
}

impl Rotation {
    fn parity(&self) -> u32 {
        self.wire & !FLIP
    }

    /// What it adds to the sum of its parity. Between 0 and 1 the two kinds make the same difference.
    fn share(&self) -> u32 {
        let (Line::Rotation(_, angle) | Line::Symmetric(_, angle)) = self.gate else { unreachable!("it rotates") };
        let angle = angle % FULL_TURN;
        if is_flipped(self.wire) { (FULL_TURN - angle) % FULL_TURN } else { angle }
    }

    /// What it gives to the states in which its parity is 0, and so, beside its share, to all.
    fn common(&self) -> u32 {
        given(self.gate, is_flipped(self.wire))
    }
}

/// The half units that a rotation gives to a state, where its qubit is 1 or 0.
fn given(rotation: Line, is_one: bool) -> u32 {
    match (rotation, is_one) {
        (Line::Rotation(_, angle), true) => 2 * angle,
        (Line::Symmetric(_, angle), true) => angle,
        (Line::Symmetric(_, angle), false) => (HALF_UNITS - angle) % HALF_UNITS,
        _ => 0,
    }
}

fn is_flipped(wire: u32) -> bool {
    wire & FLIP != 0
}

/// Feeds gates to the wires. A Hadamard, on whatever wire, leaves all of them as they are and has fresh
/// ones fed behind it.
fn stretches(n: u32, gates: &[Line]) -> Vec<Stretch> {
    let mut done = vec![];
    let mut now = Stretch::fresh(n, 0);
    for (place, &gate) in gates.iter().enumerate() {
        if let Line::Hadamard(_) = gate {
            done.push(std::mem::replace(&mut now, Stretch::fresh(n, place + 1)));
        } else {
            now.feed(gate);
        }
    }
    done.push(now);
    done
}

fn hadamards(gates: &[Line]) -> Vec<u32> {
    gates.iter().filter_map(|gate| if let Line::Hadamard(q) = *gate { Some(q) } else { None }).collect()
}

fn sum_of_phases(stretches: &[Stretch]) -> u32 {
    stretches.iter().fold(0, |sum, stretch| (sum + stretch.phase()) % HALF_UNITS)
}

/// Where a basis state goes and the half units of phase it gets on the way.
fn follow_state(mut state: u32, gates: &[Line]) -> (u32, u32) {
    let mut phase = 0;
    for &gate in gates {
        match gate {
            Line::Cnot(c, t) => state ^= (state >> c & 1) << t,
            Line::Rotation(q, _) | Line::Symmetric(q, _) => {
                phase = (phase + given(gate, state >> q & 1 == 1)) % HALF_UNITS;
            }
            Line::X(q) => state ^= 1 << q,
            _ => unreachable!("only gates of a stretch are followed"),
        }
    }
    (state, phase)
}

// ------------------------------------------------------------ layers, by peeling

/// For each wire the places of its CNOTs.
fn cnots_by_wire(n: u32, gates: &[Line]) -> Vec<VecDeque<usize>> {
    let mut wires = vec![VecDeque::new(); n as usize];
    for (place, &gate) in gates.iter().enumerate() {
        if let Line::Cnot(c, t) = gate {
            wires[c as usize].push_back(place);
            wires[t as usize].push_back(place);
        }
    }
    wires
}

/// Takes a layer off: the CNOTs that come next on both their wires. There always is one, the first of
/// all that wait.
fn peel(waiting: &mut [VecDeque<usize>]) {
    let next: Vec<usize> = waiting.iter().filter_map(|wire| wire.front().copied()).collect();
    let is_next_on_both = |place: &usize| next.iter().filter(|&other| other == place).count() == 2;
    for wire in waiting {
        if wire.front().is_some_and(is_next_on_both) {
            wire.pop_front();
        }
    }
}

/// The number of layers. Only CNOTs wait on wires, so nothing else takes one or parts two of them.
fn depth(n: u32, gates: &[Line]) -> u32 {
    let mut waiting = cnots_by_wire(n, gates);
    let mut layers = 0;
    while waiting.iter().any(|wire| !wire.is_empty()) {
        peel(&mut waiting);
        layers += 1;
    }
    layers
}

// ------------------------------------------------------------ islands, by relabelling

/// For each qubit the lowest qubit of its island.
fn island_labels(n: u32, couplers: &BTreeSet<(u32, u32)>) -> Vec<u32> {
    let mut labels: Vec<u32> = (0..n).collect();
    loop {
        let before = labels.clone();
        for &(a, b) in couplers {
            let lower = labels[a as usize].min(labels[b as usize]);
            labels[a as usize] = lower;
            labels[b as usize] = lower;
        }
        if labels == before {
            return labels;
        }
    }
}

fn all_on(parity: u32, label: u32, labels: &[u32]) -> bool {
    (0..labels.len()).all(|q| parity >> q & 1 == 0 || labels[q] == label)
}

/// The wire at which a stretch leaves its islands, n where a term does; none if it is reachable. Flips
/// play no part.
fn unreachable_wire(stretch: &Stretch, labels: &[u32]) -> Option<usize> {
    let leaves = |i: &usize| !all_on(stretch.wires[*i], labels[*i], labels);
    if let Some(wire) = (0..stretch.wires.len()).find(leaves) {
        return Some(wire);
    }
    let astray = |term: &u32| !labels.iter().any(|&label| all_on(*term, label, labels));
    stretch.terms().keys().any(astray).then_some(labels.len())
}

/// The place of refusal 7: where there is a Hadamard, that of the first gate of the stretch.
fn unreachable_place(stretches: &[Stretch], labels: &[u32]) -> Option<usize> {
    match stretches {
        [only] => unreachable_wire(only, labels),
        _ => stretches.iter().find(|stretch| unreachable_wire(stretch, labels).is_some()).map(|stretch| stretch.place),
    }
}

// ------------------------------------------------------------ the right answer

fn bad_coupler(line: &Line, n: u32) -> bool {
    matches!(*line, Line::Coupler(a, b) if a >= n || b >= n || a == b)
}

fn bad_gate(line: &Line, n: u32) -> bool {
    match *line {
        Line::Cnot(c, t) => c >= n || t >= n || c == t,
        Line::Rotation(q, _) | Line::Symmetric(q, _) | Line::X(q) | Line::Hadamard(q) => q >= n,
        _ => true,
    }
}

/// The gate that brings the 257th parity of a stretch.
fn one_parity_too_many(stretch: &Stretch) -> Option<usize> {
    let mut borne = BTreeSet::new();
    let brings_it = |rotation: &&Rotation| {
        borne.insert(rotation.parity());
        borne.len() > 256
    };
    stretch.rotations.iter().find(brings_it).map(|rotation| rotation.place)
}

/// A refusal's number and its place.
type Refusal = (u32, u32);

fn test_length(text: &[u8]) -> Result<(), Refusal> {
    if text.len() > 65_536 { Err((11, 0)) } else { Ok(()) }
}

/// What is asked for, the couplers as listed.
struct Lists {
    version: Option<&'static Version>,
    n: u32,
    listed: Vec<Line>,
    gates: Vec<Line>,
    gphase: u32,
}

fn lists_of_job(text: &[u8]) -> Result<Lists, Refusal> {
    test_length(text)?;
    let lines = parse_job(text).map_err(|line| (10, line))?;
    let Line::Qubits(n) = lines[0] else { unreachable!("a job starts with its qubits") };
    let (listed, gates) = lines[1..].iter().partition(|&&line| part(line) == 1);
    Ok(Lists { version: None, n, listed, gates, gphase: 0 })
}

fn right_reading(circuit: &[u8]) -> Result<statements::Circuit, Refusal> {
    test_length(circuit)?;
    statements::read(circuit)
}

/// All that is said of the couplers' text comes before all that is said of the circuit's.
fn lists_of_circuit(couplers: &[u8], circuit: &[u8]) -> Result<Lists, Refusal> {
    test_length(couplers)?;
    let listed = parse_couplers(couplers).map_err(|line| (10, line))?;
    let statements::Circuit { version, n, gates, gphase } = right_reading(circuit)?;
    Ok(Lists { version: Some(version), n, listed, gates, gphase })
}

fn right_answer(task: &Task) -> Verdict {
    let lists = match task {
        Task::Job(text) => lists_of_job(text),
        Task::Circuit { couplers, circuit } => lists_of_circuit(couplers, circuit),
    };
    lists.map_or_else(|(number, place)| Verdict::Refused(number, place), right_laying)
}

/// Tests 1 to 7.
fn right_laying(Lists { version, n, listed, gates, gphase }: Lists) -> Verdict {
    use Verdict::Refused;
    if n == 0 || n > 20 {
        return Refused(1, 0);
    }
    if listed.len() > 190 {
        return Refused(2, 0);
    }
    if let Some(place) = listed.iter().position(|line| bad_coupler(line, n)) {
        return Refused(3, place as u32);
    }
    if gates.len() > 4_096 {
        return Refused(4, 0);
    }
    if let Some(place) = gates.iter().position(|gate| bad_gate(gate, n)) {
        return Refused(5, place as u32);
    }
    let stretches = stretches(n, &gates);
    if let Some(place) = stretches.iter().find_map(one_parity_too_many) {
        return Refused(6, place as u32);
    }
    let ends = |line: &Line| match *line {
        Line::Coupler(a, b) => (a.min(b), a.max(b)),
        _ => unreachable!("only couplers are listed"),
    };
    let couplers = listed.iter().map(ends).collect();
    let labels = island_labels(n, &couplers);
    match unreachable_place(&stretches, &labels) {
        Some(place) => Refused(7, place as u32),
        None => {
            Verdict::Accepted(Wanted { version, n, couplers, hadamards: hadamards(&gates), stretches, gphase, labels })
        }
    }
}

// ------------------------------------------------------------ judging what was printed

fn ensure(good: bool, fault: impl FnOnce() -> String) -> Result<(), String> {
    if good { Ok(()) } else { Err(fault()) }
}

fn show(text: &[u8]) -> String {
    String::from_utf8_lossy(&text[..text.len().min(60)]).escape_debug().to_string()
}

fn head(wanted: &Wanted) -> String {
    let mut head = format!("q\t{}\n", wanted.n);
    for (a, b) in &wanted.couplers {
        let _ = writeln!(head, "e\t{a}\t{b}");
    }
    head
}

/// The laid gates and the common phase of a circuit, if the text reads and is what is to be printed for
/// them in this version.
fn laid_statements(version: &Version, n: u32, laid: &[u8]) -> Result<(Vec<Line>, u32), String> {
    let read = statements::read(laid)
        .map_err(|(number, line)| format!("line {line} of the laid circuit is refused with {number}: {}", show(laid)))?;
    ensure(read.n == n, || format!("{} qubits instead of {n}", read.n))?;
    let phase = statements::last_phase(version, laid);
    let right = statements::written(version, read.n, &read.gates, phase);
    let same = right.bytes().zip(laid).take_while(|(a, b)| a == *b).count();
    ensure(right.as_bytes() == laid, || format!("reads, but is not what is printed for it, from byte {same} on"))?;
    let bad = read.gates.iter().position(|gate| bad_gate(gate, n));
    bad.map_or(Ok((read.gates, phase)), |place| Err(format!("laid gate {place} is no gate of this circuit")))
}

/// The laid gates of a job, if the text is the right `q` and `e` lines and then gates only.
fn laid_lines(wanted: &Wanted, laid: &[u8]) -> Result<Vec<Line>, String> {
    let head = head(wanted);
    let mut rest = laid
        .strip_prefix(head.as_bytes())
        .ok_or_else(|| format!("q and e lines are wrong: {}", show(laid)))?;
    let mut gates = vec![];
    while !rest.is_empty() {
        let end = rest.iter().position(|&byte| byte == b'\n').ok_or("a last line without LF")?;
        let gate = parse_line(&rest[..end])
            .filter(|gate| !bad_gate(gate, wanted.n))
            .ok_or_else(|| format!("no gate of this job: {}", show(&rest[..end])))?;
        gates.push(gate);
        rest = &rest[end + 1..];
    }
    Ok(gates)
}

fn check_couplers(wanted: &Wanted, laid: &[Line]) -> Result<(), String> {
    for (place, &gate) in laid.iter().enumerate() {
        if let Line::Cnot(c, t) = gate {
            let on_coupler = wanted.couplers.contains(&(c.min(t), c.max(t)));
            ensure(on_coupler, || format!("laid gate {place}: CNOT {c},{t} is on no coupler"))?;
        }
    }
    Ok(())
}

/// The island of a gate, by its lowest qubit; a CNOT on a coupler is on one island.
fn label_of(wanted: &Wanted, gate: Line) -> u32 {
    match gate {
        Line::Cnot(q, _) | Line::Rotation(q, _) | Line::X(q) => wanted.labels[q as usize],
        _ => unreachable!("only gates of a stretch are on islands"),
    }
}

/// One island after another, by ascending lowest qubit.
fn check_islands(wanted: &Wanted, laid: &Stretch) -> Result<(), String> {
    for (place, pair) in (laid.place + 1..).zip(laid.gates.windows(2)) {
        let in_order = label_of(wanted, pair[0]) <= label_of(wanted, pair[1]);
        ensure(in_order, || format!("laid gate {place}: its island was to come earlier"))?;
    }
    Ok(())
}

/// The X gates of an island stand behind its other gates, ascending, and are on the wires whose flip
/// is asked for. With the order of islands they stand directly behind.
fn check_flips(wanted: &Wanted, asked: &Stretch, laid: &Stretch) -> Result<(), String> {
    let mut last_flip: HashMap<u32, u32> = HashMap::new();
    for (place, &gate) in (laid.place..).zip(&laid.gates) {
        let island = label_of(wanted, gate);
        let last = last_flip.get(&island);
        if let Line::X(q) = gate {
            ensure(last.is_none_or(|&last| last < q), || format!("laid gate {place}: X {q} is not ascending"))?;
            last_flip.insert(island, q);
        } else {
            ensure(last.is_none(), || format!("laid gate {place} stands behind an X of its island"))?;
        }
    }
    let qubit_of_x = |gate: &Line| if let Line::X(q) = *gate { Some(q) } else { None };
    let got: BTreeSet<u32> = laid.gates.iter().filter_map(qubit_of_x).collect();
    let asked: BTreeSet<u32> = (0..wanted.n).filter(|&q| is_flipped(asked.wires[q as usize])).collect();
    ensure(got == asked, || format!("X on {got:?} instead of {asked:?}"))
}

/// One rotation for each term, by its sum, and none besides.
fn check_rotations(asked: &Stretch, laid: &Stretch) -> Result<(), String> {
    let mut open = asked.terms();
    for rotation in &laid.rotations {
        let is_asked = open.remove(&rotation.parity()) == Some(rotation.share());
        ensure(is_asked, || format!("laid gate {}: wrong rotation of {}", rotation.place, rotation.parity()))?;
    }
    ensure(open.is_empty(), || format!("{} terms have no rotation", open.len()))
}

fn check_meaning(asked: &Stretch, laid: &Stretch) -> Result<(), String> {
    let parities = |wires: &[u32]| wires.iter().map(|wire| wire & !FLIP).collect::<Vec<u32>>();
    let (asked_parities, parities) = (parities(&asked.wires), parities(&laid.wires));
    ensure(asked_parities == parities, || format!("final parities {parities:?} instead of {asked_parities:?}"))?;
    ensure(asked.wires == laid.wires, || "the final flips are not those of the job".into())?;
    ensure(asked.terms() == laid.terms(), || "the sums are not those of the job".into())?;
    ensure(laid.phase() == 0, || format!("the laid gates have a common phase of {}", laid.phase()))
}

fn check_bound(n: u32, asked: &Stretch, laid: &Stretch) -> Result<(), String> {
    let t = asked.terms().len() as u32;
    let (cnots, most) = (count_cnots(&laid.gates), 2 * (n - 1) * t + 2 * n * (n - 1));
    ensure(cnots <= most, || format!("{cnots} CNOTs, at most {most} are allowed"))?;
    let rotations = count_rotations(&laid.gates);
    ensure(rotations == t, || format!("{rotations} rotations for {t} terms"))?;
    let (gates, bound) = (laid.gates.len() as u32, most + t + n);
    ensure(gates <= bound, || format!("{gates} gates, at most {bound} are allowed"))
}

fn check_stretch(wanted: &Wanted, asked: &Stretch, laid: &Stretch) -> Result<(), String> {
    check_islands(wanted, laid)?;
    check_flips(wanted, asked, laid)?;
    check_rotations(asked, laid)?;
    check_meaning(asked, laid)?;
    check_bound(wanted.n, asked, laid)
}

/// The same Hadamards in the same order; then there are as many stretches.
fn check_hadamards(wanted: &Wanted, laid: &[Line]) -> Result<(), String> {
    let (asked, got) = (&wanted.hadamards, hadamards(laid));
    let same = asked.iter().zip(&got).take_while(|(a, b)| a == b).count();
    ensure(*asked == got, || {
        format!("{} Hadamards for {}, the first {same} the same", got.len(), asked.len())
    })
}

/// All that is asked for: in a circuit beside its gates too.
fn asked_phase(wanted: &Wanted) -> u32 {
    (wanted.gphase + sum_of_phases(&wanted.stretches)) % HALF_UNITS
}

/// The phase that the acceptance of a job returned; where it is not printed, the one it has to return.
fn returned_phase(wanted: &Wanted, printed: Option<&[u8]>) -> Result<u32, String> {
    let Some(line) = printed else { return Ok(asked_phase(wanted)) };
    if line.is_empty() {
        return Ok(0);
    }
    let phase = std::str::from_utf8(line).ok().and_then(|line| {
        let mut rest = line.strip_prefix('p')?;
        take_number(&mut rest, HALF_UNITS - 1).filter(|&phase| phase != 0 && rest == "\n")
    });
    phase.ok_or_else(|| format!("no line of a common phase: {}", show(line)))
}

/// The common phase of a job is that of the laid gates and the returned one together; of a circuit the one
/// that is printed takes the place of the returned one.
fn check_phase(wanted: &Wanted, laid: &[Stretch], returned: u32) -> Result<(), String> {
    let asked = asked_phase(wanted);
    let reached = (sum_of_phases(laid) + returned) % HALF_UNITS;
    ensure(asked == reached, || format!("a common phase of {reached} instead of {asked}"))
}

/// What every basis state lacks in phase behind the laid stretch, where its bits are right.
fn share_of_states(n: u32, asked: &Stretch, laid: &Stretch) -> Result<u32, String> {
    let mut shares = BTreeSet::new();
    for state in 0..1 << n {
        let (asked_bits, asked_phase) = follow_state(state, &asked.gates);
        let (bits, phase) = follow_state(state, &laid.gates);
        ensure(bits == asked_bits, || format!("basis state {state} goes elsewhere"))?;
        shares.insert((asked_phase + HALF_UNITS - phase) % HALF_UNITS);
    }
    match Vec::from_iter(shares)[..] {
        [share] => Ok(share),
        _ => Err("basis states get other phases".into()),
    }
}

/// The same said of states, for few qubits: each stretch has its own share of the returned or printed phase,
/// and what a circuit asks for beside its gates is the rest of it.
fn check_states(wanted: &Wanted, laid: &[Stretch], returned: u32) -> Result<(), String> {
    if wanted.n > 6 {
        return Ok(());
    }
    let mut sum = wanted.gphase;
    for (asked, laid) in wanted.stretches.iter().zip(laid) {
        sum = (sum + share_of_states(wanted.n, asked, laid)?) % HALF_UNITS;
    }
    ensure(sum == returned, || format!("basis states lack a phase of {sum}, not of {returned}"))
}

fn count_cnots(gates: &[Line]) -> u32 {
    gates.iter().filter(|gate| matches!(gate, Line::Cnot(..))).count() as u32
}

fn count_rotations(gates: &[Line]) -> u32 {
    gates.iter().filter(|gate| matches!(gate, Line::Rotation(..))).count() as u32
}

fn check_counted(n: u32, laid: &[Line], counted: &[u8]) -> Result<(), String> {
    let right = format!("s\t{}\t{}\t{}\n", count_cnots(laid), count_rotations(laid), depth(n, laid));
    ensure(counted == right.as_bytes(), || {
        format!("counted {} instead of {}", show(counted), show(right.as_bytes()))
    })
}

/// A refusal is the same line from both programs, and no phase is returned.
fn check_refused(number: u32, place: u32, printed: &Printed) -> Result<(), String> {
    let line = format!("x\t{number}\t{place}\n");
    let right = show(line.as_bytes());
    let says_so = |text: &[u8]| text == line.as_bytes();
    ensure(says_so(printed.laid), || format!("laid {} instead of {right}", show(printed.laid)))?;
    ensure(printed.counted.is_none_or(says_so), || format!("counted otherwise than {right}"))?;
    ensure(printed.phase.is_none_or(<[u8]>::is_empty), || format!("a common phase behind {right}"))
}

/// The common phase that a circuit has where no qubit is ever 1.
fn phase_of_zeros(circuit: &statements::Circuit) -> u32 {
    circuit.gates.iter().fold(circuit.gphase, |phase, &gate| (phase + given(gate, false)) % HALF_UNITS)
}

/// What reading answers with room for 4 gates and, where it accepts, the common phase that it reads and what
/// writing answers with 100 bytes.
fn right_scant(circuit: &[u8]) -> String {
    let line = |(number, place): Refusal| format!("x\t{number}\t{place}\n");
    let circuit = match right_reading(circuit) {
        Err(refusal) => return line(refusal),
        Ok(circuit) if circuit.gates.len() > 4 => return line((8, 0)),
        Ok(circuit) => circuit,
    };
    let bad = circuit.gates.iter().position(|gate| bad_gate(gate, circuit.n));
    let phase = phase_of_zeros(&circuit);
    let writing = match bad {
        _ if circuit.n == 0 || circuit.n > 20 => (1, 0),
        Some(place) => (5, place as u32),
        None if statements::written(circuit.version, circuit.n, &circuit.gates, phase).len() > 100 => (8, 0),
        None => (0, 0),
    };
    let phase_line = if phase == 0 { String::new() } else { format!("p\t{phase}\n") };
    line((0, 0)) + &phase_line + &line(writing)
}

fn check_scant(task: &Task, printed: &Printed) -> Result<(), String> {
    let (Task::Circuit { circuit, .. }, Some(scant)) = (task, printed.scant) else { return Ok(()) };
    let right = right_scant(circuit);
    ensure(scant == right.as_bytes(), || {
        format!("reading and writing answer {} instead of {}", show(scant), show(right.as_bytes()))
    })
}

/// The laid gates, and the common phase that was returned or printed with them.
fn gates_and_phase(wanted: &Wanted, printed: &Printed) -> Result<(Vec<Line>, u32), String> {
    match wanted.version {
        None => Ok((laid_lines(wanted, printed.laid)?, returned_phase(wanted, printed.phase)?)),
        Some(version) => laid_statements(version, wanted.n, printed.laid),
    }
}

/// Gives the laid stretches back.
fn check_laid(wanted: &Wanted, printed: &Printed) -> Result<Vec<Stretch>, String> {
    let (gates, returned) = gates_and_phase(wanted, printed)?;
    check_couplers(wanted, &gates)?;
    check_hadamards(wanted, &gates)?;
    let laid = stretches(wanted.n, &gates);
    for (i, (asked, laid)) in wanted.stretches.iter().zip(&laid).enumerate() {
        check_stretch(wanted, asked, laid).map_err(|fault| format!("stretch {i}: {fault}"))?;
    }
    check_phase(wanted, &laid, returned)?;
    check_states(wanted, &laid, returned)?;
    printed.counted.map_or(Ok(()), |counted| check_counted(wanted.n, &gates, counted))?;
    Ok(laid)
}

/// What was asked and got by the stretches of a job that was accepted, for comparing two drawings.
struct Drawings {
    /// The `q` and `e` lines.
    head: String,
    stretches: Vec<(Asked, Vec<Line>)>,
}

/// Final parities, flips and sums. The common phase is not among them: it makes no difference to the
/// gates.
type Asked = (Vec<u32>, BTreeMap<u32, u32>);

fn judge(task: &Task, printed: &Printed) -> Result<Option<Drawings>, String> {
    check_scant(task, printed)?;
    match right_answer(task) {
        Verdict::Refused(number, place) => check_refused(number, place, printed).map(|()| None),
        Verdict::Accepted(wanted) => {
            let laid = check_laid(&wanted, printed)?;
            let asked = wanted.stretches.iter().map(|asked| (asked.wires.clone(), asked.terms()));
            let got = laid.into_iter().map(|laid| laid.gates);
            Ok(Some(Drawings { head: head(&wanted), stretches: asked.zip(got).collect() }))
        }
    }
}

/// The stretches seen so far: by the lines of their chip and by what they ask, the job in which they
/// were first and what they got there.
type Seen = HashMap<String, HashMap<Asked, (usize, Vec<Line>)>>;

/// Compares the stretches of a job with those seen before; says how many of them were.
fn compare_drawings(seen: &mut Seen, job: usize, drawings: Drawings) -> Result<usize, String> {
    let mut drawn_before = 0;
    let on_chip = seen.entry(drawings.head).or_default();
    for (asked, got) in drawings.stretches {
        match on_chip.entry(asked) {
            Entry::Vacant(place) => drop(place.insert((job, got))),
            Entry::Occupied(place) => {
                drawn_before += 1;
                let (first, before) = place.get();
                ensure(*before == got, || format!("means the same as a stretch of job {first}, but got other gates"))?;
            }
        }
    }
    Ok(drawn_before)
}

// ------------------------------------------------------------ parting what was printed for a bundle

fn take_line<'a>(rest: &mut &'a [u8]) -> &'a [u8] {
    let end = rest.iter().position(|&byte| byte == b'\n').map_or(rest.len(), |end| end + 1);
    let (line, behind) = rest.split_at(end);
    *rest = behind;
    line
}

/// Either one line `x`, or all lines before the next `s` or `x`.
fn take_laid<'a>(rest: &mut &'a [u8]) -> &'a [u8] {
    let all = *rest;
    if !take_line(rest).starts_with(b"x") {
        while !matches!(rest.first(), None | Some(b's' | b'x')) {
            take_line(rest);
        }
    }
    &all[..all.len() - rest.len()]
}

fn take_phase<'a>(rest: &mut &'a [u8]) -> &'a [u8] {
    if rest.starts_with(b"p") { take_line(rest) } else { b"" }
}

/// The answers of `vectors`, by the letters of their lines alone; the jobs are not looked at.
fn parted(mut rest: &[u8]) -> Vec<Printed<'_>> {
    let mut answers = vec![];
    while !rest.is_empty() {
        let laid = take_laid(&mut rest);
        let counted = Some(take_line(&mut rest));
        let phase = Some(take_phase(&mut rest));
        answers.push(Printed { laid, counted, scant: None, phase });
    }
    answers
}

/// Either one answer, or all lines before the next answer: `x` with a tab is one, with a blank a gate.
fn take_circuit<'a>(rest: &mut &'a [u8]) -> &'a [u8] {
    let all = *rest;
    if !take_line(rest).starts_with(b"x\t") {
        while !rest.is_empty() && !rest.starts_with(b"x\t") {
            take_line(rest);
        }
    }
    &all[..all.len() - rest.len()]
}

/// The answer of reading and, where that is an acceptance, the phase and the answer of writing.
fn take_scant<'a>(rest: &mut &'a [u8]) -> &'a [u8] {
    let all = *rest;
    if take_line(rest) == b"x\t0\t0\n" {
        take_phase(rest);
        take_line(rest);
    }
    &all[..all.len() - rest.len()]
}

/// The answers of `qasm_vectors`, in the same way.
fn parted_circuits(mut rest: &[u8]) -> Vec<Printed<'_>> {
    let mut answers = vec![];
    while !rest.is_empty() {
        let laid = take_circuit(&mut rest);
        let scant = Some(take_scant(&mut rest));
        answers.push(Printed { laid, counted: None, scant, phase: None });
    }
    answers
}

// ------------------------------------------------------------ files

fn unbundle(bundle: &[u8]) -> Vec<&[u8]> {
    let (mut texts, mut start, mut at) = (vec![], 0, 0);
    for line in bundle.split_inclusive(|&byte| byte == b'\n') {
        if line == b"--\n" || line == b"-.\n" {
            let own = if line == b"-.\n" && at > start { at - 1 } else { at };
            texts.push(&bundle[start..own]);
            start = at + line.len();
        }
        at += line.len();
    }
    texts
}

fn read(path: &str) -> Vec<u8> {
    std::fs::read(path).unwrap_or_else(|fault| {
        eprintln!("judge: {path}: {fault}");
        std::process::exit(2)
    })
}

fn say(verdict: Result<Option<Drawings>, String>) -> bool {
    println!("{}", verdict.as_ref().err().map_or("ok", |fault| fault));
    verdict.is_ok()
}

fn judge_one(job: &str, laid: &str, counted: Option<&str>) -> bool {
    let (job, laid, counted) = (read(job), read(laid), counted.map(read));
    let printed = Printed { laid: &laid, counted: counted.as_deref(), scant: None, phase: None };
    say(judge(&Task::Job(&job), &printed))
}

fn judge_circuit(couplers: &str, circuit: &str, laid: &str) -> bool {
    let (couplers, circuit, laid) = (read(couplers), read(circuit), read(laid));
    let printed = Printed { laid: &laid, counted: None, scant: None, phase: None };
    say(judge(&Task::Circuit { couplers: &couplers, circuit: &circuit }, &printed))
}

fn jobs(bundle: &[u8]) -> Vec<Task<'_>> {
    unbundle(bundle).into_iter().map(Task::Job).collect()
}

fn circuits(bundle: &[u8]) -> Vec<Task<'_>> {
    let pairs = unbundle(bundle);
    pairs.chunks_exact(2).map(|pair| Task::Circuit { couplers: pair[0], circuit: pair[1] }).collect()
}

fn judge_many(jobs_file: &str, printed: &str) -> bool {
    judge_all(&jobs(&read(jobs_file)), &parted(&read(printed)))
}

fn judge_bundle(jobs_file: &str, printed: &str) -> bool {
    let printed = read(printed);
    let texts = unbundle(&printed);
    // A last text that is missing is judged as an empty one.
    let both = texts.chunks(2).map(|two| (two[0], *two.get(1).unwrap_or(&&b""[..])));
    let answers = both.map(|(laid, counted)| Printed { laid, counted: Some(counted), scant: None, phase: None });
    judge_all(&jobs(&read(jobs_file)), &answers.collect::<Vec<_>>())
}

fn judge_circuits(pairs: &str, printed: &str) -> bool {
    judge_all(&circuits(&read(pairs)), &parted_circuits(&read(printed)))
}

fn judge_circuit_bundle(pairs: &str, printed: &str) -> bool {
    let printed = read(printed);
    let answers = unbundle(&printed).into_iter().map(|laid| Printed { laid, counted: None, scant: None, phase: None });
    judge_all(&circuits(&read(pairs)), &answers.collect::<Vec<_>>())
}

fn judge_all(jobs: &[Task], answers: &[Printed]) -> bool {
    if answers.len() != jobs.len() {
        println!("{} jobs, but {} answers", jobs.len(), answers.len());
        return false;
    }
    let mut seen = Seen::new();
    let (mut faults, mut accepted, mut refused, mut stretches, mut drawn_before) = (0, 0, 0, 0, 0);
    for (i, (job, answer)) in jobs.iter().zip(answers).enumerate() {
        let compared = match judge(job, answer) {
            Err(fault) => Err(fault),
            Ok(None) => {
                refused += 1;
                Ok(0)
            }
            Ok(Some(drawings)) => {
                accepted += 1;
                stretches += drawings.stretches.len();
                compare_drawings(&mut seen, i, drawings)
            }
        };
        match compared {
            Ok(count) => drawn_before += count,
            Err(fault) => {
                faults += 1;
                println!("job {i}: {fault}");
            }
        }
    }
    println!(
        "{} jobs judged: {accepted} accepted, with {stretches} stretches ({drawn_before} of them drawn before), \
         {refused} refused, {faults} faults",
        jobs.len()
    );
    if faults == 0 {
        println!("ok");
    }
    faults == 0
}

fn main() {
    let words: Vec<String> = std::env::args().skip(1).collect();
    let words: Vec<&str> = words.iter().map(String::as_str).collect();
    let good = match words[..] {
        ["one", job, laid] => judge_one(job, laid, None),
        ["one", job, laid, counted] => judge_one(job, laid, Some(counted)),
        ["many", jobs, printed] => judge_many(jobs, printed),
        ["bundle", jobs, printed] => judge_bundle(jobs, printed),
        ["circuit", couplers, circuit, printed] => judge_circuit(couplers, circuit, printed),
        ["circuits", pairs, printed] => judge_circuits(pairs, printed),
        ["circuit-bundle", pairs, printed] => judge_circuit_bundle(pairs, printed),
        _ => {
            eprintln!(
                "judge one JOB LAID [COUNTED] | many JOBS PRINTED | bundle JOBS PRINTED | \
                 circuit COUPLERS CIRCUIT PRINTED | circuits PAIRS PRINTED | circuit-bundle PAIRS PRINTED"
            );
            std::process::exit(2)
        }
    };
    std::process::exit(if good { 0 } else { 1 });
}
