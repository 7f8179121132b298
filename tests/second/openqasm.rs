//! OpenQASM 2.0 and 3.0 for the second program: document 02's E1 and E5, with the `x` of E3 and the `h`
//! of E12. A text is walked word by word.

use super::{number, refuse, test_chip, test_gates, Gate, Job, Lent, Refusal, FULL_PHASE, FULL_TURN, LONGEST_TEXT};

/// The highest number of a qubit, and the largest size of a register, that is read.
const MOST_INDEX: usize = 255;

#[derive(Clone, Copy, PartialEq, Debug)]
pub enum Version {
    Two,
    Three,
}

/// What is read and written: a job without couplers, which come from elsewhere, with a version and a
/// common phase in half units.
pub struct Circuit {
    pub version: Version,
    pub job: Job,
    pub phase: u32,
}

// ---------------------------------------------------------------- words

/// Walks over a text, and knows the line that it is on.
struct Walk<'a> {
    rest: &'a [u8],
    line: usize,
}

fn is_plain(byte: u8) -> bool {
    byte.is_ascii_alphanumeric() || byte == b'_' || byte == b'.'
}

/// Whether a word that begins with `first` goes on over this byte. A quote never ends one: it is a
/// byte like the others in a word that a quote has opened, and in no other.
fn goes_on(first: u8, byte: u8) -> bool {
    if first == b'"' { is_plain(byte) || byte == b'"' } else { is_plain(first) && is_plain(byte) }
}

impl<'a> Walk<'a> {
    /// Goes on to the next word. The LF behind a comment is a blank like any other.
    fn pass_blanks(&mut self) {
        loop {
            let passed = match self.rest {
                [b'\n', ..] => {
                    self.line += 1;
                    1
                }
                [b' ' | b'\t' | b'\r', ..] => 1,
                [b'/', b'/', ..] => self.rest.iter().take_while(|&&byte| byte != b'\n').count(),
                _ => return,
            };
            self.rest = &self.rest[passed..];
        }
    }

    /// The next word and its line.
    fn word(&mut self) -> Option<(&'a [u8], usize)> {
        self.pass_blanks();
        let (&first, others) = self.rest.split_first()?;
        let length = 1 + others.iter().take_while(|&&byte| goes_on(first, byte)).count();
        let (word, rest) = self.rest.split_at(length);
        self.rest = rest;
        Some((word, self.line))
    }
}

// ---------------------------------------------------------------- statements

struct Statement<'a> {
    /// Without the `;`.
    words: Vec<&'a [u8]>,
    /// That of its first word, be it the `;`.
    line: usize,
    /// Only what is left at the end of a text is not.
    is_closed: bool,
}

impl<'a> Iterator for Walk<'a> {
    type Item = Statement<'a>;

    fn next(&mut self) -> Option<Statement<'a>> {
        let (mut word, line) = self.word()?;
        let mut words = vec![];
        while word != b";" {
            words.push(word);
            match self.word() {
                Some((next, _)) => word = next,
                None => return Some(Statement { words, line, is_closed: false }),
            }
        }
        Some(Statement { words, line, is_closed: true })
    }
}

/// What a statement behind the version and up to the register says. Place 0 is for a text that ends before
/// the register.
fn front<'a, T>(statement: Option<Statement<'a>>, says: impl Fn(&[&'a [u8]]) -> Option<T>) -> Result<T, Refusal> {
    match statement.filter(|statement| statement.is_closed) {
        Some(statement) => says(&statement.words).ok_or(Refusal { number: 13, place: statement.line }),
        None => refuse(13, 0),
    }
}

/// The version, which the first statement says. Where it does not, the place is that of the first line, and
/// not of the statement.
fn version(statement: Option<Statement>) -> Result<Version, Refusal> {
    let said = statement.filter(|statement| statement.is_closed).and_then(|statement| match statement.words[..] {
        [b"OPENQASM", b"2.0"] => Some(Version::Two),
        [b"OPENQASM", b"3.0"] => Some(Version::Three),
        _ => None,
    });
    said.ok_or(Refusal { number: 14, place: 1 })
}

fn include(version: Version, words: &[&[u8]]) -> Option<()> {
    let is_own = match version {
        Version::Two => matches!(words, [b"include", b"\"qelib1.inc\""]),
        Version::Three => matches!(words, [b"include", b"\"stdgates.inc\""]),
    };
    is_own.then_some(())
}

/// No word is reserved, and a word that begins with a letter holds no quotes.
fn is_name(word: &[u8]) -> bool {
    word[0].is_ascii_lowercase() && !word.contains(&b'.')
}

/// The register's name and its size.
fn register<'a>(version: Version, words: &[&'a [u8]]) -> Option<(&'a [u8], usize)> {
    let (name, size) = match (version, words) {
        (Version::Two, [b"qreg", name, b"[", size, b"]"]) => (*name, size),
        (Version::Three, [b"qubit", b"[", size, b"]", name]) => (*name, size),
        _ => return None,
    };
    if is_name(name) { Some((name, number(size, MOST_INDEX)?)) } else { None }
}

fn qubit(words: &[&[u8]], register: &[u8]) -> Option<usize> {
    match *words {
        [name, b"[", index, b"]"] if name == register => number(index, MOST_INDEX),
        _ => None,
    }
}

fn cnot(ends: &[&[u8]], register: &[u8]) -> Option<Gate> {
    match ends.split(|&word| word == b",").collect::<Vec<_>>()[..] {
        [control, target] => Some(Gate::Cnot(qubit(control, register)?, qubit(target, register)?)),
        _ => None,
    }
}

/// What may stand in an angle: the largest multiple of pi, the largest divisor. In parts of pi over the
/// latter an angle is a whole number.
struct Form {
    multiple: usize,
    divisor: u32,
}

/// The parts are units.
const ROTATION: Form = Form { multiple: 65_535, divisor: FULL_TURN / 2 };

/// The parts are half units.
const PHASE: Form = Form { multiple: 131_071, divisor: FULL_PHASE / 2 };

/// The parts of an angle modulo 131,072: two turns of units, or one turn of half units. A minus takes it
/// from none.
fn parts(words: &[&[u8]], form: &Form) -> Option<u32> {
    let (is_minus, words) = match words {
        [b"-", behind @ ..] => (true, behind),
        _ => (false, words),
    };
    let (multiple, divisor) = match words {
        [multiple @ .., b"/", divisor] => (multiple, number(divisor, form.divisor as usize)?),
        _ => (words, 1),
    };
    let multiple = match *multiple {
        [b"0"] => 0,
        [b"pi"] => 1,
        [k, b"*", b"pi"] => number(k, form.multiple)?,
        _ => return None,
    };
    if !divisor.is_power_of_two() {
        return None;
    }
    let parts = multiple as u64 * u64::from(form.divisor / divisor as u32) % u64::from(2 * FULL_TURN);
    let parts = parts as u32;
    Some(if is_minus { (2 * FULL_TURN - parts) % (2 * FULL_TURN) } else { parts })
}

/// What a statement behind the register says.
enum Said {
    /// A gate, and the half units that it adds to the common phase.
    Gate(Gate, u32),
    Phase(u32),
}

/// Only 3.0's `rz` has a common phase: it takes half its angle away, before full turns are left out of it.
fn rotation(version: Version, word: &[u8], q: usize, angle: u32) -> Said {
    let taken = if version == Version::Three && word == b"rz" { angle } else { 0 };
    Said::Gate(Gate::Rot(q, angle % FULL_TURN), (FULL_PHASE - taken) % FULL_PHASE)
}

fn is_rotation(version: Version, word: &[u8]) -> bool {
    matches!(word, b"u1" | b"rz") || version == Version::Three && word == b"p"
}

/// What a statement says, or the refusal's number: 12 where only the angle is wrong.
fn said(version: Version, words: &[&[u8]], register: &[u8]) -> Result<Said, u32> {
    let gate = match words {
        [b"cx", ends @ ..] => cnot(ends, register),
        [b"x", on @ ..] => qubit(on, register).map(Gate::X),
        [b"h", on @ ..] => qubit(on, register).map(Gate::H),
        [word, b"(", angle @ .., b")", _, _, _, _] if is_rotation(version, word) => {
            let q = qubit(&words[words.len() - 4..], register).ok_or(13u32)?;
            return parts(angle, &ROTATION).map(|angle| rotation(version, word, q, angle)).ok_or(12);
        }
        [b"gphase", b"(", angle @ .., b")"] if version == Version::Three => {
            return parts(angle, &PHASE).map(Said::Phase).ok_or(12);
        }
        _ => None,
    };
    gate.map(|gate| Said::Gate(gate, 0)).ok_or(13)
}

/// The first statement at fault decides.
pub fn read(text: &[u8], lent: &Lent) -> Result<Circuit, Refusal> {
    if text.len() > LONGEST_TEXT {
        return refuse(11, 0);
    }
    let mut statements = Walk { rest: text, line: 1 };
    let version = version(statements.next())?;
    front(statements.next(), |words| include(version, words))?;
    let (name, n) = front(statements.next(), |words| register(version, words))?;
    let (mut gates, mut phase) = (vec![], 0);
    for Statement { words, line, is_closed } in statements {
        let said = if is_closed { said(version, &words, name) } else { Err(13) };
        let added = match said.map_err(|number| Refusal { number, place: line })? {
            Said::Gate(gate, added) => {
                gates.push(gate);
                added
            }
            Said::Phase(added) => added,
        };
        phase = (phase + added) % FULL_PHASE;
    }
    if gates.len() > lent.gates {
        return refuse(8, 0);
    }
    Ok(Circuit { version, job: Job { n, couplers: vec![], gates }, phase })
}

// ---------------------------------------------------------------- writing

fn head_of(version: Version, n: usize) -> String {
    match version {
        Version::Two => format!("OPENQASM 2.0;\ninclude \"qelib1.inc\";\nqreg q[{n}];\n"),
        Version::Three => format!("OPENQASM 3.0;\ninclude \"stdgates.inc\";\nqubit[{n}] q;\n"),
    }
}

/// The last line, where there is a common phase. 2.0 has no statement for it.
fn last_line(version: Version, phase: u32) -> String {
    match version {
        _ if phase == 0 => String::new(),
        Version::Two => format!("// common phase {phase}*pi/65536\n"),
        Version::Three => format!("gphase({phase}*pi/65536);\n"),
    }
}

/// The text of a circuit, as it is.
pub fn text_of(circuit: &Circuit) -> String {
    let mut text = head_of(circuit.version, circuit.job.n);
    let rotation = if circuit.version == Version::Two { "u1" } else { "p" };
    for gate in &circuit.job.gates {
        text += &match gate {
            Gate::Cnot(c, t) => format!("cx q[{c}],q[{t}];\n"),
            Gate::Rot(q, angle) => format!("{rotation}({angle}*pi/32768) q[{q}];\n"),
            Gate::X(q) => format!("x q[{q}];\n"),
            Gate::H(q) => format!("h q[{q}];\n"),
        };
    }
    text + &last_line(circuit.version, circuit.phase)
}

/// Tests 1, 5 and 8. It has no couplers, so of those of its chip only the first says something.
pub fn write(circuit: &Circuit, lent: &Lent) -> Result<String, Refusal> {
    test_chip(&circuit.job)?;
    test_gates(&circuit.job)?;
    let text = text_of(circuit);
    if text.len() > lent.text { refuse(8, 0) } else { Ok(text) }
}

/// What the tests below share.
#[cfg(test)]
mod drawn {
    use super::*;
    pub(super) use crate::{circuit_text, circuit_texts, ENOUGH, SCANT_CIRCUIT};
    pub(super) use crate::Gate::{Cnot, Rot, H, X};

    pub(super) type Answer<T> = Result<T, (u32, usize)>;

    /// Its last line is 3.
    pub(super) const HEAD: &str = "OPENQASM 2.0;\ninclude \"qelib1.inc\";\nqreg q[3];\n";
    pub(super) const HEAD_3: &str = "OPENQASM 3.0;\ninclude \"stdgates.inc\";\nqubit[3] q;\n";

    pub(super) fn text(behind: &str) -> String {
        HEAD.to_string() + behind
    }

    pub(super) fn text_3(behind: &str) -> String {
        HEAD_3.to_string() + behind
    }

    pub(super) fn answer<T>(result: Result<T, Refusal>) -> Answer<T> {
        result.map_err(|refusal| (refusal.number, refusal.place))
    }

    pub(super) fn reads(text: &str) -> Answer<(usize, Vec<Gate>)> {
        answer(read(text.as_bytes(), &ENOUGH).map(|circuit| (circuit.job.n, circuit.job.gates)))
    }

    /// The gates and the common phase of a circuit in 3.0.
    pub(super) fn reads_in_3(statements: &str) -> Answer<(Vec<Gate>, u32)> {
        let read = read(text_3(statements).as_bytes(), &ENOUGH);
        answer(read.map(|circuit| (circuit.job.gates, circuit.phase)))
    }

    pub(super) fn reads_behind(statements: &str) -> Answer<Vec<Gate>> {
        reads(&text(statements)).map(|(_, gates)| gates)
    }

    pub(super) fn is_refused(text: &str, number: u32, line: usize) {
        assert_eq!(reads(text), Err((number, line)), "{text}");
    }

    pub(super) fn is_refused_behind(statements: &str, number: u32, line: usize) {
        is_refused(&text(statements), number, line);
    }

    /// Each by itself, on line 4.
    pub(super) fn are_refused(number: u32, statements: &[&str]) {
        statements.iter().for_each(|statement| is_refused_behind(statement, number, 4));
    }

    pub(super) fn are_refused_in_3(number: u32, statements: &[&str]) {
        statements.iter().for_each(|statement| is_refused(&text_3(statement), number, 4));
    }
}

#[cfg(test)]
mod angles {
    use super::drawn::*;

    /// The same for every gate that does not carry a common phase.
    fn are(units: u32, angles: &[&str]) {
        for angle in angles {
            for gate in ["u1", "rz"] {
                assert_eq!(reads_behind(&format!("{gate}({angle}) q[1];")), Ok(vec![Rot(1, units)]), "{angle}");
            }
            for gate in ["u1", "p"] {
                assert_eq!(reads_in_3(&format!("{gate}({angle}) q[1];")), Ok((vec![Rot(1, units)], 0)), "{angle}");
            }
        }
    }

    fn are_none(angles: &[&str]) {
        for angle in angles {
            ["u1", "rz"].iter().for_each(|gate| are_refused(12, &[&format!("{gate}({angle}) q[1];")]));
            ["u1", "rz", "p"].iter().for_each(|gate| are_refused_in_3(12, &[&format!("{gate}({angle}) q[1];")]));
        }
    }

    #[test]
    fn as_documented() {
        are(57_344, &["-pi/4"]);
        are(8_192, &["8192*pi/32768", "pi/4"]);
    }

    #[test]
    fn zero_and_both_ends() {
        are(0, &["0", "-0", "0/4", "-0/32768", "0*pi", "-0*pi", "0*pi/2", "2*pi", "-65534*pi"]);
        are(32_768, &["pi", "-pi", "65535*pi", "-65535*pi", "pi/1", "1*pi", "3*pi"]);
        are(1, &["pi/32768", "-65535*pi/32768"]);
        are(65_535, &["-pi/32768", "65535*pi/32768"]);
    }

    #[test]
    fn the_multiple_is_not_reduced_first() {
        are(49_152, &["3*pi/2", "65535*pi/2"]);
        are(16_384, &["-3*pi/2", "5*pi/2"]);
        are(40_960, &["5*pi/4", "-3*pi/4"]);
        are(65_534, &["65535*pi/16384"]);
        are(32_769, &["32769*pi/32768"]);
    }

    #[test]
    fn blanks_and_comments_within() {
        are(40_960, &[" - // ;\n 3\t*\r\npi // pi\n/ 4 "]);
        are(16_384, &["pi/ // \n2", "pi//\n/2"]);
        // Here a comment takes the divisor with it.
        are(32_768, &["pi// /2\n", "pi///2\n"]);
    }

    #[test]
    fn divisors() {
        (0..16).for_each(|power| are(32_768 >> power, &[&format!("pi/{}", 1 << power)]));
        are_none(&["pi/3", "pi/65536", "pi/0", "pi/6", "pi/32769", "pi/65537", "pi/4294967298", "0/3", "0/0"]);
        are_none(&["pi/", "pi/-2", "pi/pi", "pi/2/2", "pi/2.0", "pi/02", "pi / / 2", "/2"]);
    }

    #[test]
    fn multiples() {
        are_none(&["65536*pi", "65537*pi", "131072*pi", "4294967297*pi", "99999*pi", "100000*pi"]);
        are_none(&["01*pi", "00", "-00", "00*pi", "1.0*pi", "0.5*pi", "0x1*pi", "2pi", "2*", "*pi", "pi*2", "2*pi*2"]);
        are_none(&["", "-", "1", "2", "-1", "--pi", "- -pi", "+pi", "-+0", "Pi", "PI", "pi pi", "1 0", "p i", "\u{3c0}"]);
        are_none(&["(pi)", "pi)", "(pi", "pi,pi", "sin(pi)", "pi-pi", "0*0", "0-pi", "\"pi\"", "pi.", ".5", "[", "{}"]);
    }
}

#[cfg(test)]
mod phases {
    use super::drawn::*;

    /// By one `rz`, as 3.0 has it: the units of the record and the half units of the common phase.
    fn turns(angle: &str, units: u32, phase: u32) {
        assert_eq!(reads_in_3(&format!("rz({angle}) q[0];")), Ok((vec![Rot(0, units)], phase)), "{angle}");
    }

    /// The sum of these by `gphase`, which is no gate.
    fn come_to(phase: u32, angles: &[&str]) {
        let statements: String = angles.iter().map(|angle| format!("gphase({angle});")).collect();
        assert_eq!(reads_in_3(&statements), Ok((vec![], phase)), "{statements}");
    }

    #[test]
    fn of_rz() {
        turns("2*pi", 0, 65_536);
        turns("4*pi", 0, 0);
        turns("pi", 32_768, 98_304);
        turns("-pi", 32_768, 32_768);
        turns("3*pi", 32_768, 32_768);
        turns("-pi/32768", 65_535, 1);
        turns("pi/32768", 1, 131_071);
        turns("65535*pi/32768", 65_535, 65_537);
        turns("-65535*pi/32768", 1, 65_535);
        turns("65535*pi", 32_768, 32_768);
        turns("-65535*pi", 32_768, 98_304);
        turns("65534*pi", 0, 65_536);
        ["0", "-0", "0*pi/2"].iter().for_each(|none| turns(none, 0, 0));
        assert_eq!(reads_in_3("rz(pi) q[0];rz(pi) q[1];"), Ok((vec![Rot(0, 32_768), Rot(1, 32_768)], 65_536)));
    }

    #[test]
    fn of_gphase() {
        come_to(131_071, &["131071*pi/65536"]);
        come_to(131_071, &["-pi/65536"]);
        come_to(1, &["pi/65536"]);
        come_to(1, &["-131071*pi/65536"]);
        come_to(2, &["pi/32768"]);
        come_to(65_536, &["pi"]);
        come_to(65_536, &["-pi"]);
        come_to(65_536, &["131071*pi"]);
        come_to(0, &["2*pi"]);
        come_to(0, &["131070*pi"]);
        come_to(98_304, &["3*pi/2"]);
        come_to(0, &["0", "-0", "0/65536", "0*pi"]);
        come_to(3, &["pi/65536", "pi/32768"]);
        come_to(0, &["pi", "pi"]);
        come_to(65_536, &[" - // ;\n 3\t*\r\npi // pi\n/ 4 ", "-pi/4"]);
    }

    #[test]
    fn of_both() {
        assert_eq!(reads_in_3("gphase(pi/32768);rz(pi/16384) q[0];gphase(pi/65536);"), Ok((vec![Rot(0, 2)], 1)));
    }

    #[test]
    fn not_in_2() {
        assert_eq!(reads_behind("rz(2*pi) q[0];rz(-pi/32768) q[1];"), Ok(vec![Rot(0, 0), Rot(1, 65_535)]));
        assert_eq!(answer(super::read(text("rz(pi) q[0];").as_bytes(), &ENOUGH)).map(|circuit| circuit.phase), Ok(0));
    }

    #[test]
    fn what_is_none() {
        are_refused_in_3(12, &["gphase();", "gphase(pi/3);", "gphase(131072*pi);", "gphase(pi/131072);", "gphase(1);"]);
        are_refused_in_3(12, &["gphase(pi)) ;", "gphase((pi));", "gphase(pi) q[0] );", "gphase(00);", "gphase(01*pi);"]);
        are_refused_in_3(13, &["gphase(pi) q[0];", "gphase;", "gphase(;", "gphase );", "gphase(pi;", "gphase pi;"]);
        are_refused_in_3(13, &["gphase(pi/3) q[0];", "gphase pi);", "Gphase(pi);", "gphase.(pi);", "phase(pi);"]);
        are_refused_in_3(13, &["gphase(pi)", "gphase(pi/3)"]);
        are_refused_in_3(12, &["rz(65536*pi) q[0];", "p(pi/65536) q[0];", "u1(131071*pi) q[0];"]);
        are_refused(13, &["gphase(pi);", "gphase(pi/3);", "gphase();", "p(pi) q[0];", "p(pi/3) q[0];"]);
    }

    #[test]
    fn it_takes_no_place() {
        let none = "gphase(pi);";
        let read = |count: usize| {
            let text = text_3(&format!("{none}{none}{none}{none}{none}{}", "x q[0];".repeat(count)));
            answer(super::read(text.as_bytes(), &SCANT_CIRCUIT)).map(|_| ())
        };
        assert_eq!([read(4), read(5)], [Ok(()), Err((8, 0))]);
        let circuit = text_3(&format!("{none}x q[0];{none}{none}x q[3];"));
        assert_eq!(circuit_text(b"", circuit.as_bytes()), "x\t5\t1\n");
    }
}

#[cfg(test)]
mod refusals {
    use super::drawn::*;

    const PARTS: [&str; 3] = ["OPENQASM 2.0;\n", "include \"qelib1.inc\";\n", "qreg q[3];\n"];
    const PARTS_3: [&str; 3] = ["OPENQASM 3.0;\n", "include \"stdgates.inc\";\n", "qubit[3] q;\n"];

    #[test]
    fn the_version_comes_first() {
        for text in ["", "\n\n", "// OPENQASM 2.0;", "\n\n;", "\n\n\nOPENQASM 4.0;", "cx q[0],q[1]", "x", "\u{ff}"] {
            is_refused(text, 14, 1);
        }
        for version in ["3", "2", "2.1", "3.1", "2.00", "03.0", "\"2.0\"", "", "2.0 2.0", "2.0 // ", "3 . 0", "2.0.0"] {
            is_refused(&format!("OPENQASM {version};"), 14, 1);
        }
        // Before 12 and 13, and behind 11.
        is_refused("OPENQASM 2;\ninclude;\nqreg q[300];\nu1(pi/3) q[0];", 14, 1);
        is_refused("include \"qelib1.inc\";\nOPENQASM 2.0;", 14, 1);
        is_refused(&format!("OPENQASM 2;{:65526}", ""), 11, 0);
    }

    #[test]
    fn place_0_before_the_register() {
        // Cut before any byte up to the register's `;`, the text ends before the register.
        for head in [HEAD.trim_end(), HEAD_3.trim_end()] {
            assert!(reads(head).is_ok());
            (0..13).for_each(|end| is_refused(&head[..end], 14, 1));
            (13..head.len()).for_each(|end| is_refused(&head[..end], 13, 0));
        }
        // A statement that is there and wrong has its line, though the text ends before the register.
        is_refused("\nOPENQASM 3.0;\n;", 13, 3);
        is_refused("OPENQASM 2.0;\n\ninclude \"stdgates.inc\"; qreg", 13, 3);
        is_refused("OPENQASM 2.0;\n;", 13, 2);
    }

    #[test]
    fn out_of_order() {
        for ([version, include, register], refused) in
            [(PARTS, are_refused as fn(u32, &[&str])), (PARTS_3, are_refused_in_3)]
        {
            is_refused(&[include, version, register].concat(), 14, 1);
            is_refused(&[version, register, include].concat(), 13, 2);
            is_refused(&[version, version, include, register].concat(), 13, 2);
            is_refused(&[version, include, "x q[0];\n", register].concat(), 13, 3);
            is_refused(&[version, include, "gphase(pi/3);\n", register].concat(), 13, 3);
            refused(13, &[version, include, register, "qreg r[2];", "qubit[2] r;"]);
        }
    }

    #[test]
    fn of_two_versions() {
        for (version, include, register, line) in [
            (0, 0, 1, 3), (0, 1, 0, 2), (0, 1, 1, 2), (1, 0, 0, 2), (1, 0, 1, 2), (1, 1, 0, 3),
        ] {
            let parts = [PARTS, PARTS_3];
            is_refused(&[parts[version][0], parts[include][1], parts[register][2]].concat(), 13, line);
        }
    }

    #[test]
    fn names() {
        let gates = |name: &str| {
            let gate = format!("cx {name}[0],{name}[1];");
            let heads = [HEAD.replace(" q[", &format!(" {name}[")), HEAD_3.replace(" q;", &format!(" {name};"))];
            heads.map(|head| head + &gate)
        };
        for name in ["cx", "pi", "u1", "x", "h", "qreg", "include", "a", "q_", "qQ9_z", "p", "rz", "qubit", "gphase"] {
            gates(name).iter().for_each(|text| assert_eq!(reads(text), Ok((3, vec![Cnot(0, 1)])), "{name}"));
        }
        for name in ["Q", "_q", "1q", "q.r", "", "q q", "\"q\"", "q-"] {
            gates(name).iter().for_each(|text| is_refused(text, 13, 3));
        }
    }

    #[test]
    fn sizes() {
        let of_size = |size: &str| [HEAD, HEAD_3].map(|head| head.replace("[3]", size));
        for n in [0, 1, 20, 21, 255] {
            of_size(&format!("[{n}]")).iter().for_each(|text| assert_eq!(reads(text), Ok((n, vec![]))));
        }
        for size in ["[256]", "[03]", "[00]", "[]", "[-1]", "[3.0]", "[65536]", "[n]", "", "[3", "[3]]", "[3],r[3]"] {
            of_size(size).iter().for_each(|text| is_refused(text, 13, 3));
        }
        is_refused(&HEAD_3.replace("qubit[3] q", "qubit q[3]"), 13, 3);
        is_refused(&HEAD_3.replace("qubit[3] q", "qubit q"), 13, 3);
    }

    #[test]
    fn qubits() {
        assert_eq!(reads_behind("x q[255];h q[3];cx q[7],q[7];"), Ok(vec![X(255), H(3), Cnot(7, 7)]));
        are_refused(13, &["x q[256];", "x q[00];", "x q[01];", "h q;", "x r[0];", "x Q[0];", "X q[0];", "x q[0],q[1];"]);
        are_refused(13, &["cx q[0];", "cx q[0] q[1];", "cx q[0],q[256];", "cx q[256],q[0];", "cx q[0],r[1];"]);
        are_refused(13, &["cx q[0],q[1],q[2];", "cx ,q[1];", "cx q[0],;", "CX q[0],q[1];"]);
    }

    #[test]
    fn what_is_not_carried() {
        are_refused(13, &["creg c[3];", "measure q[0];", "barrier q;", "reset q[0];", "gate g a {x a;}", "}", ";"]);
        are_refused(13, &["p(pi) q[0];", "t q[0];", "u2(0,pi) q[0];", "gphase(pi);", "if(c==1) x q[0];"]);
        are_refused_in_3(13, &["bit c;", "t q[0];", "u2(0,pi) q[0];", "U(0,0,pi) q[0];", "phase(pi) q[0];", "rz q[0];"]);
    }

    #[test]
    fn thirteen_before_twelve() {
        // The angle is wrong, and so is something else.
        are_refused(13, &["u1(pi/3) q[256];", "u1(pi/3) r[0];", "u1(pi/3) q;", "u1(pi/3) q[0],q[1];"]);
        are_refused(13, &["u1(pi/3 q[0];", "u1 pi/3) q[0];", "u1 pi/3 q[0];", "U1(pi/3) q[0];"]);
        // Only the angle is wrong, since it may be anything.
        are_refused(12, &["u1() q[0];", "u1(pi) q[0] u1(pi) q[1];", "u1(u1(pi) q[0]) q[1];", "u1(\u{ff}) q[2];", "u1()) q[0];"]);
        // The first statement at fault decides.
        is_refused_behind("u1(pi/3) q[0];\nu1(pi) q[256];", 12, 4);
        is_refused_behind("u1(pi) q[256];\nu1(pi/3) q[0];", 13, 4);
        is_refused_behind("u1(pi/3) q[0];\nx q[0]", 12, 4);
        // The same of the other rotations.
        are_refused(13, &["rz(pi/3) q[256];", "rz(pi/3) r[0];", "rz(pi/3);"]);
        are_refused_in_3(13, &["p(pi/3) q[256];", "rz(pi/3) r[0];", "p(pi/3);", "u1(pi);"]);
        are_refused(12, &["rz() q[0];", "rz(p(pi) q[0]) q[1];"]);
        are_refused_in_3(12, &["p() q[0];", "rz(pi) q[0] rz(pi) q[1];"]);
        // No angle is looked at before the register, nor where the `;` is missing.
        is_refused("OPENQASM 2.0;\nu1(pi/3) q[0];", 13, 2);
        is_refused_behind("u1(pi/3) q[0]", 13, 4);
    }

    #[test]
    fn the_line_is_that_of_the_first_word() {
        is_refused_behind("// one; two;\n\n u1\n(pi\n/3)\n q[0] ;", 12, 6);
        is_refused_behind("x q[0]; x\nq[0]; x\n\nq[\n0];\n// ;\ny q[0]; x q[9]", 13, 10);
        is_refused_behind("x q[0]; \n // \r // x \n\r\n ; x q[0];", 13, 7);
        is_refused_behind("x q[0];\nx q[0];\n x // q[0];\n q[0] // ;", 13, 6);
    }

    #[test]
    fn nothing_left_over() {
        assert!(reads_behind("x q[0]; // x q[0]").is_ok());
        assert!(reads_behind("x q[0]; \r\n\t//").is_ok());
        are_refused(13, &["x q[0]; /", "x q[0];;", "x q[0]\n", "x q[0] // ;", "x q[0]; \x0c"]);
    }

    #[test]
    fn comments_and_quotes() {
        assert_eq!(reads_behind("x//;\nq//\"\n[0//]\n];//"), Ok(vec![X(0)]));
        assert!(reads("OPENQASM 2.0;include\"qelib1.inc\";qreg q[3];").is_ok());
        is_refused("OPENQASM2.0;include\"qelib1.inc\";qreg q[3];", 14, 1);
        is_refused("OPENQASM 2.0;include\"qelib1//.inc\";\n\";qreg q[3];", 13, 1);
        for include in ["include \"qelib1.inc;", "include \"qelib1.inc\"\";", "include \" qelib1.inc\";", "include qelib1.inc;"] {
            is_refused(&HEAD.replace(PARTS[1].trim_end(), include), 13, 2);
        }
    }

    #[test]
    fn too_long_comes_first() {
        is_refused(&format!("y;{:65534}", ""), 14, 1);
        is_refused(&format!("y;{:65535}", ""), 11, 0);
    }
}

#[cfg(test)]
mod there_and_back {
    use super::drawn::*;
    use super::*;

    fn circuit(version: Version, n: usize, gates: &[Gate], phase: u32) -> Circuit {
        Circuit { version, job: Job { n, couplers: vec![], gates: gates.to_vec() }, phase }
    }

    fn comes_back(circuit: &Circuit, text: &str, phase: u32) {
        assert_eq!(text_of(circuit), text);
        let back = read(text.as_bytes(), &ENOUGH).unwrap_or_else(|_| panic!("{text}"));
        assert_eq!((back.version, back.job.n, back.phase), (circuit.version, circuit.job.n, phase));
        assert_eq!(back.job.gates, circuit.job.gates);
    }

    #[test]
    fn as_documented() {
        let gates = [Cnot(0, 1), Rot(1, 8_192), X(2), H(0)];
        let text = text("cx q[0],q[1];\nu1(8192*pi/32768) q[1];\nx q[2];\nh q[0];\n");
        comes_back(&circuit(Version::Two, 3, &gates, 0), &text, 0);
        // What 2.0 cannot say is not read back.
        comes_back(&circuit(Version::Two, 3, &gates, 5), &(text + "// common phase 5*pi/65536\n"), 0);
        let text = text_3("cx q[0],q[1];\np(8192*pi/32768) q[1];\nx q[2];\nh q[0];\n");
        comes_back(&circuit(Version::Three, 3, &gates, 0), &text, 0);
        for phase in [1, 65_536, 131_071] {
            let text = format!("{text}gphase({phase}*pi/65536);\n");
            comes_back(&circuit(Version::Three, 3, &gates, phase), &text, phase);
        }
    }

    #[test]
    fn every_angle() {
        for part in (0..=65_535).collect::<Vec<_>>().chunks(2_048) {
            let gates: Vec<Gate> = part.iter().map(|&angle| Rot(angle as usize % 20, angle)).collect();
            for version in [Version::Two, Version::Three] {
                let text = text_of(&circuit(version, 20, &gates, 0));
                assert_eq!(reads(&text), Ok((20, gates.clone())));
            }
        }
    }

    #[test]
    fn too_little_lent() {
        let gates = |count: usize| answer(read(text(&"x q[0];".repeat(count)).as_bytes(), &SCANT_CIRCUIT)).map(|_| ());
        assert_eq!([gates(4), gates(5)], [Ok(()), Err((8, 0))]);
        let bytes = |version: Version, n: usize, gates: &[Gate], phase: u32| {
            answer(write(&circuit(version, n, gates, phase), &SCANT_CIRCUIT)).map(|text| text.len())
        };
        let in_2 = |n: usize, gates: &[Gate]| bytes(Version::Two, n, gates, 0);
        assert_eq!(in_2(2, &[Cnot(0, 1), Cnot(1, 0), Rot(0, 32_768)]), Ok(100));
        assert_eq!(in_2(10, &[Cnot(0, 1), Cnot(1, 0), Rot(0, 32_768)]), Err((8, 0)));
        assert_eq!(in_2(2, &[X(0), X(1), X(2), Rot(0, 1), Rot(0, 1), Rot(0, 1)]), Err((5, 2)));
        assert_eq!(in_2(2, &[H(1), Cnot(1, 1)]), Err((5, 1)));
        assert_eq!([in_2(0, &[]), in_2(21, &[X(21)])], [Err((1, 0)), Err((1, 0))]);
        // The last line counts.
        let in_3 = |phase: u32| bytes(Version::Three, 2, &[X(0), X(1), X(0)], phase);
        assert_eq!([in_3(0), in_3(1), in_3(10_000), in_3(131_071)], [Ok(74), Ok(94), Ok(98), Ok(99)]);
        let in_3 = |phase: u32| bytes(Version::Three, 2, &[Cnot(0, 1), X(1), X(0)], phase);
        assert_eq!([in_3(9), in_3(10)], [Ok(100), Err((8, 0))]);
    }
}

#[cfg(test)]
mod printed {
    use super::drawn::*;

    fn gets(couplers: &str, circuit: &str, printed: &str) {
        assert_eq!(circuit_text(couplers.as_bytes(), circuit.as_bytes()), printed);
    }

    #[test]
    fn laid_and_written() {
        let laid = text("u1(8192*pi/32768) q[0];\n");
        gets("e\t1\t0\n", &text("u1(pi/2) q[1]; u1(pi/4) q[0];\nu1(-pi/2) q[1];"), &laid);
        let laid = text("u1(32768*pi/32768) q[1];\nh q[0];\nu1(32768*pi/32768) q[1];\nx q[2];\n");
        gets("", &text("u1(pi) q[1];h q[0];x q[2];u1(pi) q[1];"), &laid);
        gets("", &text("rz(pi) q[1];h q[0];x q[2];u1(pi) q[1];"), &laid);
    }

    #[test]
    fn the_whole_common_phase() {
        // What is read, what laying returns, and both; then sums that come to a full turn.
        gets("", &text_3("rz(pi/4) q[0];"), &text_3("p(8192*pi/32768) q[0];\ngphase(122880*pi/65536);\n"));
        gets("", &text_3("x q[0];p(pi/4) q[0];x q[0];"), &text_3("p(57344*pi/32768) q[0];\ngphase(16384*pi/65536);\n"));
        gets("", &text_3("x q[0];rz(pi/4) q[0];x q[0];"), &text_3("p(57344*pi/32768) q[0];\ngphase(8192*pi/65536);\n"));
        gets("", &text_3("x q[0];rz(pi/4) q[0];gphase(-pi/8);x q[0];"), &text_3("p(57344*pi/32768) q[0];\n"));
        gets("", &text_3("rz(2*pi) q[0];gphase(pi);"), HEAD_3);
        gets("", &text_3("rz(2*pi) q[0];"), &text_3("gphase(65536*pi/65536);\n"));
        gets("", &text_3("h q[0];gphase(pi/65536);h q[1];"), &text_3("h q[0];\nh q[1];\ngphase(1*pi/65536);\n"));
        let laid = text("u1(57344*pi/32768) q[0];\n// common phase 16384*pi/65536\n");
        gets("", &text("x q[0];rz(pi/4) q[0];x q[0];"), &laid);
        gets("", &text("x q[0];rz(pi) q[0];u1(pi) q[0];x q[0];"), HEAD);
    }

    #[test]
    fn couplers_come_first() {
        gets("e\t0\t1\ne\t1", "", "x\t10\t2\n");
        gets("e\t0\t1\ne\t1\t2", "", "x\t10\t2\n");
        gets("e\t0\t1\n\n", "", "x\t10\t2\n");
        for line in ["\n", "q\t2\n", "c\t0\t1\n", "e\t256\t0\n", "e\t0\t65536\n", "e\t0\n", "e\t0\t1\t2\n", "e\n"] {
            gets(line, "", "x\t10\t1\n");
        }
        gets("e\t255\t65535\n", "", "x\t14\t1\n");
        gets("e\t255\t65535\n", HEAD, "x\t3\t0\n");
        gets(&"e\t0\t1\n".repeat(10_922), HEAD, "x\t2\t0\n");
        gets(&"x\t0\t1\n".repeat(10_923), HEAD, "x\t11\t0\n");
        gets("", &" ".repeat(65_537), "x\t11\t0\n");
    }

    #[test]
    fn then_tests_1_to_7() {
        let couplers = "e\t0\t1\n";
        gets(couplers, &HEAD.replace('3', "0"), "x\t1\t0\n");
        gets(couplers, &HEAD.replace('3', "21"), "x\t1\t0\n");
        gets(couplers, &HEAD.replace('3', "1"), "x\t3\t0\n");
        gets(couplers, &text(&"x q[0];".repeat(4_097)), "x\t4\t0\n");
        gets(couplers, &text("x q[0];x q[3];"), "x\t5\t1\n");
        gets(couplers, &text("h q[0];cx q[1],q[1];"), "x\t5\t1\n");
        gets(couplers, &text("cx q[0],q[2];"), "x\t7\t2\n");
        gets(couplers, &text("cx q[0],q[1];h q[2];cx q[0],q[2];"), "x\t7\t2\n");
    }

    #[test]
    fn all_answers() {
        let get = |couplers: &str, circuit: &str, answers: &str| {
            assert_eq!(circuit_texts(couplers.as_bytes(), circuit.as_bytes()), answers);
        };
        get("", HEAD, &text("x\t0\t0\nx\t0\t0\n"));
        get("", "x", "x\t14\t1\nx\t14\t1\n");
        get("", "OPENQASM 3.0;", "x\t13\t0\nx\t13\t0\n");
        get("q", HEAD, "x\t10\t1\nx\t0\t0\nx\t0\t0\n");
        get("", &text("x q[3];"), "x\t5\t0\nx\t0\t0\nx\t5\t0\n");
        let laid = text("u1(32768*pi/32768) q[0];\nx q[0];\n// common phase 65536*pi/65536\n");
        get("", &text("x q[0];u1(pi) q[0];"), &(laid + "x\t0\t0\nx\t0\t0\n"));
        let laid = text_3("p(32768*pi/32768) q[0];\nx q[0];\ngphase(32768*pi/65536);\n");
        get("", &text_3("x q[0];rz(pi) q[0];"), &(laid + "x\t0\t0\np\t98304\nx\t8\t0\n"));
        get("", &text_3("gphase(pi);"), &text_3("gphase(65536*pi/65536);\nx\t0\t0\np\t65536\nx\t0\t0\n"));
        get("q", &text_3("gphase(pi);x q[3];"), "x\t10\t1\nx\t0\t0\np\t65536\nx\t5\t0\n");
        let five = format!("gphase(pi);{}", "x q[0];".repeat(5));
        get("", &text_3(&five), &text_3("x q[0];\ngphase(65536*pi/65536);\nx\t8\t0\n"));
        get("", &text(&"x q[0];".repeat(5)), &text("x q[0];\nx\t8\t0\n"));
    }
}
