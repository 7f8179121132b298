//! OpenQASM 2.0 and 3.0 for the judge: document 02's E1 and E5, with the `x` of E3 and the `h` of E12.
//! Comments are taken out of a text line by line, and what is left is cut at the semicolons. Only then
//! is it looked at, each statement as one row of words with a blank between any two, and from its end.

use crate::{numeral, Line, FULL_TURN, HALF_UNITS};
use std::fmt::Write as _;

pub struct Circuit {
    pub version: &'static Version,
    pub n: u32,
    pub gates: Vec<Line>,
    /// What all `gphase` come to, in half units.
    pub gphase: u32,
}

/// The words in which the versions differ.
pub struct Version {
    number: &'static str,
    include: &'static str,
    /// Rotations that leave a 0 as it is; the first of them is the one that is printed.
    one_sided: &'static [&'static str],
    /// Rotations of which a 0 gets one half, the other way round, and a 1 the other.
    symmetric: &'static [&'static str],
    gphase: &'static [&'static str],
    /// The register's words with `#` for its size and `@` for its name, as they are read and as they are
    /// printed.
    register: [&'static str; 2],
    /// The line of the common phase with `#` for its half units.
    last_line: &'static str,
}

static VERSIONS: [Version; 2] = [
    Version {
        number: "2.0",
        include: "qelib1.inc",
        one_sided: &["u1", "rz"],
        symmetric: &[],
        gphase: &[],
        register: ["qreg @ [ # ]", "qreg @[#];"],
        last_line: "// common phase #*pi/65536",
    },
    Version {
        number: "3.0",
        include: "stdgates.inc",
        one_sided: &["p", "u1"],
        symmetric: &["rz"],
        gphase: &["gphase"],
        register: ["qubit [ # ] @", "qubit[#] @;"],
        last_line: "gphase(#*pi/65536);",
    },
];

/// A refusal's number and the line of the statement.
type Fault = (u32, u32);

// ------------------------------------------------------------ cutting

struct Statement {
    line: u32,
    /// Without the semicolon.
    words: String,
}

/// Two slashes begin a comment wherever they stand, and it never goes beyond its line.
fn without_comment(line: &[u8]) -> &[u8] {
    let comment = line.windows(2).position(|two| two == b"//");
    &line[..comment.unwrap_or(line.len())]
}

fn is_blank(byte: u8) -> bool {
    matches!(byte, b' ' | b'\t' | b'\r')
}

fn is_of_words(byte: u8) -> bool {
    matches!(byte, b'a'..=b'z' | b'A'..=b'Z' | b'0'..=b'9' | b'_' | b'.' | b'"')
}

/// The words of a piece without comments and LF. A run of letters and quotes is one word from its first
/// quote on, and another before it; every other byte that is no blank is a word.
fn words_of(piece: &[u8]) -> Vec<String> {
    let mut words = vec![];
    for run in piece.chunk_by(|&a, &b| is_of_words(a) && is_of_words(b)).filter(|run| !is_blank(run[0])) {
        let run: String = run.iter().map(|&byte| char::from(byte)).collect();
        let (before, from_quote) = run.split_at(run.find('"').unwrap_or(0));
        words.extend([before, from_quote].into_iter().filter(|word| !word.is_empty()).map(str::to_string));
    }
    words
}

/// All statements that a semicolon ends, and the line where what is left begins, if anything is.
fn statements(text: &[u8]) -> (Vec<Statement>, Option<u32>) {
    let mut statements = vec![];
    let (mut start, mut words) = (None, vec![]);
    for (line, bytes) in (1..).zip(text.split(|&byte| byte == b'\n')) {
        for (i, piece) in without_comment(bytes).split(|&byte| byte == b';').enumerate() {
            if i > 0 {
                // The semicolon before this piece. A statement without a word begins there.
                let line = start.take().unwrap_or(line);
                statements.push(Statement { line, words: std::mem::take(&mut words).join(" ") });
            }
            words.extend(words_of(piece));
            start = start.or((!words.is_empty()).then_some(line));
        }
    }
    (statements, start)
}

// ------------------------------------------------------------ looking at one

/// What stands for `#` and `@` in a row of words of this form.
fn filled_in<'a>(words: &'a str, form: &str) -> Option<(&'a str, &'a str)> {
    let (first, second) = (form.find(['#', '@'])?, form.rfind(['#', '@'])?);
    let (before, between, behind) = (&form[..first], &form[first + 1..second], &form[second + 1..]);
    let filled = words.strip_prefix(before)?.strip_suffix(behind)?.split_once(between)?;
    Some(if form[first..].starts_with('#') { filled } else { (filled.1, filled.0) })
}

fn size_and_name<'a>(words: &'a str, version: &Version) -> Option<(u32, &'a str)> {
    let (size, name) = filled_in(words, version.register[0])?;
    let is_name = name.starts_with(|c: char| c.is_ascii_lowercase())
        && name.chars().all(|c| c.is_ascii_alphanumeric() || c == '_');
    Some((numeral(size, 255).filter(|_| is_name)?, name))
}

/// The qubit with which the words end, and what stands before it.
fn last_qubit<'a>(words: &'a str, name: &str) -> Option<(&'a str, u32)> {
    let (before, index) = words.strip_suffix(" ]")?.rsplit_once(" [ ")?;
    Some((before.strip_suffix(name)?, numeral(index, 255)?))
}

/// An angle, whole in so many parts of pi. The divisor is one of the powers of two by its digits.
fn parts_of_pi(angle: &str, most: u32, parts: i64) -> Option<i64> {
    let (sign, positive) = angle.strip_prefix("- ").map_or((1, angle), |behind| (-1, behind));
    let (above, below) = positive.split_once(" / ").unwrap_or((positive, "1"));
    let multiple = match above {
        "0" => 0,
        "pi" => 1,
        _ => numeral(above.strip_suffix(" * pi")?, most)?,
    };
    let mut divisors = (0..).map(|power| 1i64 << power).take_while(|&divisor| divisor <= parts);
    let divisor = divisors.find(|divisor| divisor.to_string() == below)?;
    Some(sign * i64::from(multiple) * parts / divisor)
}

/// The parts that are left when all of these are taken out.
fn without(whole: u32, parts: i64) -> u32 {
    parts.rem_euclid(i64::from(whole)) as u32
}

/// What stands between brackets behind one of the words, and which of them it is. The closing bracket is
/// the last word.
fn in_brackets<'a>(words: &'a str, openings: &[&'static str]) -> Option<(&'static str, &'a str)> {
    let behind = |opening: &&'static str| words.strip_prefix(*opening)?.strip_prefix(" ( ")?.strip_suffix(')');
    let (opening, inside) = openings.iter().find_map(|opening| Some((*opening, behind(opening)?)))?;
    // One blank, if anything is inside. Other bytes that are taken for blanks elsewhere are words.
    Some((opening, inside.strip_suffix(' ').unwrap_or(inside)))
}

/// What a statement says: a gate, or half units for all states.
enum Said {
    Gate(Line),
    Phase(u32),
}

/// With a full turn more a one-sided rotation does the same, a symmetric one only with two: half of one turn
/// is half a turn.
fn rotation(version: &Version, opening: &str, angle: &str, q: u32) -> Option<Line> {
    let units = parts_of_pi(angle, 65_535, i64::from(FULL_TURN / 2))?;
    Some(if version.symmetric.contains(&opening) {
        Line::Symmetric(q, without(2 * FULL_TURN, units))
    } else {
        Line::Rotation(q, without(FULL_TURN, units))
    })
}

/// What a statement says, or 13, or 12 where the angle alone is wrong.
fn said(version: &Version, words: &str, name: &str) -> Result<Said, u32> {
    if let Some((_, angle)) = in_brackets(words, version.gphase) {
        let half_units = parts_of_pi(angle, 131_071, i64::from(HALF_UNITS / 2)).ok_or(12u32)?;
        return Ok(Said::Phase(without(HALF_UNITS, half_units)));
    }
    let (before, q) = last_qubit(words, name).ok_or(13u32)?;
    let rotations = [version.one_sided, version.symmetric].concat();
    if let Some((opening, angle)) = before.strip_suffix(' ').and_then(|before| in_brackets(before, &rotations)) {
        return rotation(version, opening, angle, q).map(Said::Gate).ok_or(12);
    }
    let control = || before.strip_suffix(" , ").and_then(|first| last_qubit(first, name));
    let gate = match (before, control()) {
        ("x ", _) => Line::X(q),
        ("h ", _) => Line::Hadamard(q),
        (_, Some(("cx ", control))) => Line::Cnot(control, q),
        _ => return Err(13),
    };
    Ok(Said::Gate(gate))
}

// ------------------------------------------------------------ whole texts

/// Of any length; that is for others to judge.
pub fn read(text: &[u8]) -> Result<Circuit, Fault> {
    let (statements, left) = statements(text);
    let first = statements.first().and_then(|first| first.words.strip_prefix("OPENQASM "));
    let version = VERSIONS.iter().find(|version| first == Some(version.number)).ok_or((14, 1))?;
    let statement = |i: usize| statements.get(i).ok_or((13, 0));
    let include = statement(1)?;
    if include.words != format!("include \"{}\"", version.include) {
        return Err((13, include.line));
    }
    let register = statement(2)?;
    let (n, name) = size_and_name(&register.words, version).ok_or((13, register.line))?;
    let (mut gates, mut gphase) = (vec![], 0);
    for statement in &statements[3..] {
        match said(version, &statement.words, name).map_err(|number| (number, statement.line))? {
            Said::Gate(gate) => gates.push(gate),
            Said::Phase(half_units) => gphase = (gphase + half_units) % HALF_UNITS,
        }
    }
    left.map_or(Ok(Circuit { version, n, gates, gphase }), |line| Err((13, line)))
}

/// The one text that is printed for a circuit with this common phase.
pub fn written(version: &Version, n: u32, gates: &[Line], phase: u32) -> String {
    let register = version.register[1].replace('#', &n.to_string()).replace('@', "q");
    let mut text = format!("OPENQASM {};\ninclude \"{}\";\n{register}\n", version.number, version.include);
    let rotation = version.one_sided[0];
    for &gate in gates {
        let _ = match gate {
            Line::Cnot(c, t) => writeln!(text, "cx q[{c}],q[{t}];"),
            Line::Rotation(q, angle) => writeln!(text, "{rotation}({angle}*pi/32768) q[{q}];"),
            // Its common phase is not the gate's any more.
            Line::Symmetric(q, angle) => writeln!(text, "{rotation}({}*pi/32768) q[{q}];", angle % FULL_TURN),
            Line::X(q) => writeln!(text, "x q[{q}];"),
            Line::Hadamard(q) => writeln!(text, "h q[{q}];"),
            Line::Qubits(_) | Line::Coupler(..) => unreachable!("a circuit has gates only"),
        };
    }
    if phase != 0 {
        text += &version.last_line.replace('#', &phase.to_string());
        text.push('\n');
    }
    text
}

/// The half units of the last line where it is one of a common phase, and 0 where it is not.
pub fn last_phase(version: &Version, text: &[u8]) -> u32 {
    let last = text.strip_suffix(b"\n").and_then(|text| text.rsplit(|&byte| byte == b'\n').next());
    let (before, behind) = version.last_line.split_once('#').expect("its half units stand in it");
    let digits = last.and_then(|line| std::str::from_utf8(line).ok()?.strip_prefix(before)?.strip_suffix(behind));
    digits.and_then(|digits| numeral(digits, HALF_UNITS - 1)).unwrap_or(0)
}
