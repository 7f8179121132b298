//! Circuits in OpenQASM 2.0 and 3.0 for `generate`, each with the text of its couplers: drafts of jobs,
//! written as statements, these as words, and the words in any layout.

use super::*;

/// The couplers' text and the circuit's.
pub type Pair = [Vec<u8>; 2];

// ------------------------------------------------------------ words

/// The words of a statement, its `;` among them.
type Statement = Vec<String>;

/// A blank stands between two words.
fn words(statement: &str) -> Statement {
    statement.split(' ').map(str::to_string).collect()
}

#[derive(Clone, Copy, PartialEq)]
enum Language {
    /// OpenQASM 2.0 with `u1` alone. Stored circuits are drawn in it, and are not to change.
    Early,
    Two,
    Three,
}
use Language::{Early, Three, Two};

/// Those in one of which a circuit is drawn.
type Languages = &'static [Language];
const EARLY: Languages = &[Early];
const BOTH: Languages = &[Two, Three];

/// Where there is no choice, the dice are left alone.
fn one_of<T: Clone>(dice: &mut Dice, list: &[T]) -> T {
    if let [only] = list { only.clone() } else { dice.pick(list) }
}

impl Language {
    fn head(self, name: &str, n: usize) -> [Statement; 3] {
        let (version, include, register) = match self {
            Early | Two => ("2.0", "qelib1.inc", format!("qreg {name} [ {n} ] ;")),
            Three => ("3.0", "stdgates.inc", format!("qubit [ {n} ] {name} ;")),
        };
        [format!("OPENQASM {version} ;"), format!("include \"{include}\" ;"), register].map(|text| words(&text))
    }

    /// The rotations without a common phase come first.
    fn rotations(self) -> &'static [&'static str] {
        match self {
            Early => &["u1"],
            Two => &["u1", "rz"],
            Three => &["p", "u1", "rz", "rz"],
        }
    }

    fn names(self) -> &'static [&'static str] {
        if self == Early { NAMES } else { LATER_NAMES }
    }

    /// What is strange in either version, or in one of them.
    fn odd(self, early: &[&'static str], later: &[&'static str]) -> Vec<&'static str> {
        if self == Early { early.to_vec() } else { [early, later].concat() }
    }
}

/// No word is reserved.
const NAMES: &[&str] = &[
    "q", "q", "q", "r", "pi", "cx", "u1", "x", "h", "qreg", "include", "p", "e", "a_", "qB", "q0", "wire_7", "aAzZ09_",
];
const LATER_NAMES: &[&str] = &["q", "q", "q", "q", "p", "rz", "gphase", "qubit", "pi", "u1", "x", "wire_7", "bit", "a"];

/// One of the ways to write an angle of so many units.
fn spelled(dice: &mut Dice, units: usize) -> String {
    spelled_in(dice, units, 32_768, 65_535)
}

/// One of the ways to write so many half units of a common phase.
fn spelled_phase(dice: &mut Dice, half_units: usize) -> String {
    spelled_in(dice, half_units, 65_536, 131_071)
}

/// Pi has so many parts, which is also its largest divisor; it is multiplied by `most` at most.
fn spelled_in(dice: &mut Dice, parts: usize, pi: usize, most: usize) -> String {
    let is_minus = dice.percent(40);
    let left = if is_minus { (2 * pi - parts) % (2 * pi) } else { parts };
    // Over pi / step, k counts steps of so many parts. Full turns may be added to it.
    let steps: Vec<usize> = (0..=pi.ilog2()).map(|power| 1 << power).filter(|step| left % step == 0).collect();
    let step = dice.pick(&steps);
    let (least, turn) = (left / step, 2 * pi / step);
    let turns = (most - least) / turn;
    let k = least + turn * if dice.percent(30) { dice.between(0, turns) } else { 0 };
    let multiple = match k {
        0 if dice.percent(50) => "0".to_string(),
        1 if dice.percent(80) => "pi".to_string(),
        _ => format!("{k} * pi"),
    };
    let minus = if is_minus { "- " } else { "" };
    let divisor = if step == pi && dice.percent(80) { String::new() } else { format!(" / {}", pi / step) };
    format!("{minus}{multiple}{divisor}")
}

/// The longest and the shortest ways to write those angles that lie at an end.
const END_ANGLES: &[(usize, &[&str])] = &[
    (0, &["0", "- 0", "2 * pi", "- 2 * pi", "4 * pi", "65534 * pi", "- 65532 * pi", "0 * pi / 32768"]),
    (32_768, &["pi", "- pi", "3 * pi", "65535 * pi", "- 65535 * pi", "65533 * pi", "32768 * pi / 32768"]),
    (1, &["pi / 32768", "- 65535 * pi / 32768"]),
    (65_535, &["- pi / 32768", "65535 * pi / 32768"]),
];

/// A rotation without its qubit, by one of the words and in one of the ways to say it.
fn turned(dice: &mut Dice, language: Language, rotations: &[&str], units: usize) -> String {
    let word = one_of(dice, rotations);
    let ends = END_ANGLES.iter().find(|(end, _)| *end == units && language != Early);
    match ends {
        Some((_, ways)) if dice.percent(50) => format!("{word} ( {} )", dice.pick(ways)),
        _ => format!("{word} ( {} )", spelled(dice, units)),
    }
}

/// The way in which it is printed in 2.0.
fn in_units(units: usize) -> String {
    format!("u1 ( {units} * pi / 32768 )")
}

fn statement(gate: Gate, name: &str, rotation: impl FnOnce(usize) -> String) -> Statement {
    words(&match gate {
        Cnot(c, t) => format!("cx {name} [ {c} ] , {name} [ {t} ] ;"),
        Rot(q, units) => format!("{} {name} [ {q} ] ;", rotation(units)),
        X(q) => format!("x {name} [ {q} ] ;"),
        H(q) => format!("h {name} [ {q} ] ;"),
    })
}

fn statements(
    language: Language, draft: &Draft, name: &str, mut rotation: impl FnMut(usize) -> String,
) -> Vec<Statement> {
    let gates = draft.gates.iter().map(|&gate| statement(gate, name, &mut rotation));
    language.head(name, draft.n).into_iter().chain(gates).collect()
}

fn any_phase(dice: &mut Dice) -> usize {
    match dice.below(10) {
        0..3 => dice.pick(&[0, 1, 2, 65_535, 65_536, 65_537, 131_070, 131_071]),
        3..5 => dice.between(1, 9),
        _ => dice.below(131_072),
    }
}

/// So many `gphase` among the gates.
fn put_phases(dice: &mut Dice, statements: &mut Vec<Statement>, count: usize) {
    for _ in 0..count {
        let half_units = any_phase(dice);
        let phase = words(&format!("gphase ( {} ) ;", spelled_phase(dice, half_units)));
        statements.insert(dice.between(3, statements.len()), phase);
    }
}

/// A circuit as statements, said in one of many ways. In 3.0 nearly every circuit would have a common phase,
/// so some are drawn with nothing that brings one but flips.
fn said(dice: &mut Dice, language: Language, draft: &Draft, name: &str) -> Vec<Statement> {
    let is_quiet = language == Three && dice.percent(20);
    let rotations = if is_quiet { &language.rotations()[..2] } else { language.rotations() };
    let mut statements = statements(language, draft, name, |units| turned(dice, language, rotations, units));
    if language == Three && !is_quiet {
        let count = dice.pick(&[0, 0, 1, 1, 2, 3, 8]);
        put_phases(dice, &mut statements, count);
    }
    statements
}

// ------------------------------------------------------------ layouts

#[derive(Clone, Copy)]
enum Layout {
    /// Blanks where two words would be one without, and nothing else.
    Tight,
    /// As circuits are printed: one statement a line.
    Lines,
    /// Between any two words blanks and comments; one more with so many chances in a hundred.
    Loose(usize),
}

/// What comments say: much that would not be passed over outside.
const REMARKS: &[&str] = &[
    "", " turn", ";", " x q[0];", "\"", "/", "//;", " u1(pi/3) q[0];", "\r", "include \"other.inc\";", "*/ ;", " { ;",
    " \u{3b8} = \u{3c0}/4; \u{1f40d}", "OPENQASM 3.0;", "\t;\t", "-- ;",
];

fn comment(dice: &mut Dice) -> Vec<u8> {
    let remark = if dice.percent(20) {
        let length = dice.below(12);
        (0..length).map(|_| dice.below(256) as u8).filter(|&byte| byte != b'\n').collect()
    } else {
        dice.pick(REMARKS).as_bytes().to_vec()
    };
    [b"//", &remark[..]].concat()
}

/// A blank or a comment behind the text. A slash at its end would be the first of the comment's.
fn put_blank(dice: &mut Dice, text: &mut Vec<u8>) {
    if dice.percent(30) {
        if text.last() == Some(&b'/') {
            text.push(b' ');
        }
        text.extend(comment(dice));
        text.push(b'\n');
    } else {
        text.extend(dice.pick(&[" ", " ", "  ", "\t", "\n", "\n", "\r\n", "\r"]).bytes());
    }
}

fn would_run_on(text: &[u8], word: &str) -> bool {
    let is_plain = |byte: u8| byte.is_ascii_alphanumeric() || byte == b'_' || byte == b'.';
    text.last().is_some_and(|&last| is_plain(last) || last == b'"') && word.bytes().next().is_some_and(is_plain)
}

fn set(dice: &mut Dice, statements: &[Statement], layout: Layout) -> Vec<u8> {
    let mut text = vec![];
    for word in statements.iter().flatten() {
        match layout {
            Layout::Loose(chance) => {
                while dice.percent(chance) {
                    put_blank(dice, &mut text);
                }
            }
            Layout::Lines if text.ends_with(b";") => text.push(b'\n'),
            Layout::Lines if text.ends_with(b")") || word.starts_with('"') => text.push(b' '),
            _ => {}
        }
        if would_run_on(&text, word) {
            text.push(b' ');
        }
        text.extend(word.bytes());
    }
    match layout {
        Layout::Tight => {}
        Layout::Lines => text.push(b'\n'),
        Layout::Loose(chance) => {
            while dice.percent(chance) {
                put_blank(dice, &mut text);
            }
            if dice.percent(chance / 2) {
                text.extend(comment(dice));
            }
        }
    }
    text
}

/// As circuits are printed in 2.0.
fn as_printed(draft: &Draft) -> Vec<u8> {
    set(&mut Dice(0), &statements(Early, draft, "q", in_units), Layout::Lines)
}

/// A long circuit in a loose layout would be longer than a text may be.
fn any_layout(dice: &mut Dice, draft: &Draft) -> Layout {
    let chance = dice.pick(&[10, 30, 50, 70]);
    match dice.below(5) {
        0 => Layout::Tight,
        1 => Layout::Lines,
        _ if draft.gates.len() > 300 => Layout::Tight,
        _ => Layout::Loose(chance),
    }
}

/// A circuit drawn anyhow: its version, its name, its angles, its layout.
fn drawn(dice: &mut Dice, languages: Languages, draft: &Draft) -> Vec<u8> {
    let language = one_of(dice, languages);
    let name = dice.pick(language.names());
    let layout = any_layout(dice, draft);
    let statements = said(dice, language, draft, name);
    set(dice, &statements, layout)
}

// ------------------------------------------------------------ couplers beside

fn couplers_text(couplers: &[(usize, usize)]) -> Vec<u8> {
    couplers.iter().flat_map(|(a, b)| format!("e\t{a}\t{b}\n").into_bytes()).collect()
}

fn pair_of(dice: &mut Dice, languages: Languages, draft: &Draft) -> Pair {
    [couplers_text(&draft.couplers), drawn(dice, languages, draft)]
}

fn printed_pair(draft: &Draft) -> Pair {
    [couplers_text(&draft.couplers), as_printed(draft)]
}

/// Damaged as a job is, so perhaps by lines that are good ones in a job. Or too long by a byte, or not.
fn damaged_couplers(dice: &mut Dice, text: Vec<u8>) -> Vec<u8> {
    let line = dice.pick(&["e\t0\t1\n", "e\t1\t0\n", "e\t0\t65535\n", "c\t0\t1\n"]);
    let size = dice.pick(&[65_535, 65_536, 65_537, 70_000]);
    match dice.below(20) {
        0 => repeated("", line, size, b'\n'),
        1 => [&text[..], b"r\t0\t5\n"].concat(),
        2 => [b"q\t2\n", &text[..]].concat(),
        3 => vec![],
        _ => damage(dice, text),
    }
}

// ------------------------------------------------------------ damaged circuits

const ODD_CIRCUIT_BYTES: &[u8] = b"\0\t\n\r\x0b\x0c ////;;;,,()[]{}**--+.\"_0123456789piqxhcuQ\x7f\x80\x85\xa0\xc3\xff";

const ODD_WORDS: &[&str] = &[
    ";", ",", "(", ")", "[", "]", "{", "-", "+", "*", "/", "//", "// ;", "\"", "\"qelib1.inc\"", "\"stdgates.inc\"",
    "pi", "PI", "0", "00", "01", "1", "2", "3", "20", "255", "256", "0255", "32768", "65535", "65536", "4294967296",
    "1.0", "2.0", "3.0", ".", "q", "Q", "r", "q.r", "_", "cx", "CX", "x", "X", "h", "u1", "u2", "U", "rz", "OPENQASM",
    "include", "qreg", "creg", "qubit", "\u{3c0}", "#", "\u{b}", "\u{c}", "e", "",
];
const LATER_WORDS: &[&str] = &[
    "p", "rz", "gphase", "gphase", "qubit", "131071", "131072", "65536", "131072", "3", "3.1", "4", "P", "Rz", "phase",
];

/// Statements that are not carried, or not in this form, where the register is `q`. Some are two, and some
/// are good.
const ODD_STATEMENTS: &[&str] = &[
    ";", "x ;", "x q ;", "x q[0] q[0] ;", "x q[0],q[1] ;", "x [0] ;", "x q[] ;", "x q[0 ;", "x q0] ;", "x q(0) ;",
    "x r[0] ;", "x Q[0] ;", "x q[-1] ;", "x q[+1] ;", "x q[00] ;", "x q[01] ;", "x q[1.0] ;", "x q[255] ;",
    "x q[256] ;", "x q[260] ;", "x q[65536] ;", "x q[4294967296] ;", "X q[0] ;", "xq[0] ;", "x(0) q[0] ;", "x() q[0] ;",
    "h ;", "h q ;", "h q[0],q[1] ;", "h q[256] ;", "H q[0] ;", "h r[0] ;", "hq[0] ;", "cx ;", "cx q[0] ;",
    "cx q[0] q[1] ;", "cx q[0],,q[1] ;", "cx q[0],q[1], ;", "cx ,q[0],q[1] ;", "cx q[0],q[1],q[2] ;", "cx q,q ;",
    "cx q[0],r[1] ;", "cx r[0],q[1] ;", "cx q[256],q[0] ;", "cx q[0],q[256] ;", "cx q[255],q[0] ;", "cx q[0],q[255] ;",
    "cx q[0],q[0] ;", "CX q[0],q[1] ;", "cx(q[0],q[1]) ;", "cxq[0],q[1] ;", "cx q[0].q[1] ;", "u1 ;", "u1 q[0] ;",
    "u1 pi q[0] ;", "u1(pi) ;", "u1(pi) q ;", "u1(pi) q[0],q[1] ;", "u1(pi) r[0] ;", "u1(pi) q[256] ;",
    "u1(pi) q[00] ;", "u1(pi q[0] ;", "u1 pi) q[0] ;", "u1[pi] q[0] ;", "u1(pi)(pi) q[0] ;", "u1(pi)) q[0] ;",
    "u1((pi) q[0] ;", "u1((pi)) q[0] ;", "u1() q[0] ;", "u1 q[0](pi) ;", "(pi) q[0] ;", "u1(pi)q[0] ;",
    "u1(pi) q[0] u1(pi) q[0] ;", "u1(pi) q[0]) q[0] ;", "u1(x q[0]) q[0] ;", "u1(pi/3) q[256] ;", "u1(pi/3) r[0] ;",
    "u1(pi/3) q ;", "u1(pi/3) q[0],q[1] ;", "u1(pi/3)) q[0] ;", "u1(pi/3)( q[0] ;", "u1 (pi/3 q[0] ;",
    "u1/3(pi) q[0] ;", "U1(pi) q[0] ;", "u1.(pi) q[0] ;", "u(pi) q[0] ;", "u2(0,pi) q[0] ;", "u3(0,0,pi) q[0] ;",
    "U(0,0,pi) q[0] ;", "p(pi) q[0] ;", "rz(pi) q[0] ;", "gphase(pi) ;", "t q[0] ;", "s q[0] ;", "z q[0] ;",
    "id q[0] ;", "y q[0] ;", "cz q[0],q[1] ;", "ccx q[0],q[1],q[2] ;", "swap q[0],q[1] ;", "creg c[2] ;", "qreg q[2] ;",
    "qreg r[2] ;", "qubit[2] q ;", "qubit q[2] ;", "measure q[0] -> c[0] ;", "barrier q ;", "reset q[0] ;",
    "gate g a { x a; }", "opaque g a ;", "if(c==1) x q[0] ;", "OPENQASM 2.0 ;", "include \"qelib1.inc\" ;", "q[0] ;",
    "[0] ;", "pi ;", "0 ;", "\" ;", "\"x q[0]\" ;", "/ ;", "/ / ;", "x q[0] / ;", "{ ;", "} ;", "\u{3c0} ;", "\u{b} ;",
    "x\u{c}q[0] ;", "x\u{a0}q[0] ;", "x q[0]\\ ;", "x q[\u{661}] ;", "x/**/q[0] ;", "x # q[0] ;", "x ' q[0] ;",
    "x q[0]: ;",
];

/// The same since E5; most are good ones in 3.0, or in one of the versions.
const LATER_STATEMENTS: &[&str] = &[
    "rz(pi) q[0] ;", "rz(pi)q[0] ;", "rz ;", "rz q[0] ;", "rz pi q[0] ;", "rz(pi) ;", "rz(pi) q ;", "rz(pi) r[0] ;",
    "rz(pi) q[256] ;", "rz(pi) q[255] ;", "rz(pi) q[0],q[1] ;", "rz(pi q[0] ;", "rz pi) q[0] ;", "rz[pi] q[0] ;",
    "rz() q[0] ;", "rz((pi)) q[0] ;", "rz(pi)) q[0] ;", "rz(pi/3) q[0] ;", "rz(pi/3) q[256] ;", "rz(pi/3) r[0] ;",
    "rz(pi/3) q ;", "rz(pi) q[0] rz(pi) q[1] ;", "rz(u1(pi) q[0]) q[1] ;", "rz(65535*pi) q[0] ;",
    "rz(-65535*pi) q[0] ;", "rz(65536*pi) q[0] ;", "rz(131071*pi) q[0] ;", "rz(pi/65536) q[0] ;", "Rz(pi) q[0] ;",
    "RZ(pi) q[0] ;", "rz.(pi) q[0] ;", "rzz(pi) q[0],q[1] ;", "rx(pi) q[0] ;", "ry(pi) q[0] ;", "crz(pi) q[0],q[1] ;",
    "p(pi) q[0] ;", "p(pi)q[0] ;", "p ;", "p q[0] ;", "p pi q[0] ;", "p(pi) ;", "p(pi) q ;", "p(pi) r[0] ;",
    "p(pi) p[0] ;", "p(pi) q[256] ;", "p(pi) q[255] ;", "p(pi) q[0],q[1] ;", "p(pi q[0] ;", "p pi) q[0] ;",
    "p() q[0] ;", "p((pi)) q[0] ;", "p(pi/3) q[0] ;", "p(pi/3) q[256] ;", "p(pi/3) r[0] ;", "p(pi/3) ;",
    "p(p(pi) q[0]) q[1] ;", "p(65535*pi) q[0] ;", "p(65536*pi) q[0] ;", "p(pi/65536) q[0] ;", "P(pi) q[0] ;",
    "phase(pi) q[0] ;", "cp(pi) q[0],q[1] ;", "u1(pi) q[0] ;", "u1(pi) ;", "u1(pi/3) ;", "U(0,0,pi) q[0] ;",
    "gphase(pi) ;", "gphase (pi) ;", "gphase ;", "gphase() ;", "gphase( ;", "gphase) ;", "gphase)( ;", "gphase(pi ;",
    "gphase pi ;", "gphase pi) ;", "gphase[pi] ;", "gphase(pi)) ;", "gphase((pi)) ;", "gphase((pi) ;",
    "gphase(pi)(pi) ;", "gphase(pi), ;", "gphase(pi)/2 ;", "gphase(pi) pi ;", "gphase(pi) gphase(pi) ;",
    "gphase(gphase(pi)) ;", "gphase(pi) q[0] ;", "gphase(pi) q ;", "gphase(pi/3) ;", "gphase(pi/3) q[0] ;",
    "gphase(pi) q[0]) ;", "gphase q[0] ;", "gphase[0] ;", "gphase(q[0]) ;", "gphase(0) ;", "gphase(-0) ;",
    "gphase(131071*pi/65536) ;", "gphase(-131071*pi/65536) ;", "gphase(131072*pi/65536) ;", "gphase(131071*pi) ;",
    "gphase(131072*pi) ;", "gphase(pi/65536) ;", "gphase(pi/131072) ;", "gphase(1) ;", "gphase(pi,pi) ;",
    "Gphase(pi) ;", "GPHASE(pi) ;", "gphase.(pi) ;", "gphases(pi) ;", "ctrl @ gphase(pi) q[0] ;", "(pi) ;",
    "inv @ x q[0] ;", "qubit q ;", "qubit[3] q ;", "qubit[2] r ;", "qubit r[2] ;", "qreg r[3] ;", "bit c ;",
    "bit[2] c ;", "OPENQASM 3.0 ;", "include \"stdgates.inc\" ;", "reset q ;", "let a = q[0] ;", "// common phase ;",
];

/// What is no version.
const ODD_VERSIONS: &[&str] = &[
    "", ";", "OPENQASM ;", "OPENQASM", "OPENQASM 2.0", "OPENQASM 3.0", "OPENQASM 2 ;", "OPENQASM 3 ;", "OPENQASM 2.1 ;",
    "OPENQASM 3.1 ;", "OPENQASM 4.0 ;", "OPENQASM 0 ;", "OPENQASM 2.00 ;", "OPENQASM 3.00 ;", "OPENQASM 03.0 ;",
    "OPENQASM 3. ;", "OPENQASM .0 ;", "OPENQASM 3 . 0 ;", "OPENQASM 3 .0 ;", "OPENQASM 2 .0 ;", "OPENQASM2.0 ;",
    "OPENQASM3.0 ;", "OPENQASM \"2.0\" ;", "OPENQASM \"3.0\" ;", "OPENQASM 2.0 2.0 ;", "OPENQASM 2.0 3.0 ;",
    "OPENQASM 2.0,3.0 ;", "OPENQASM -2.0 ;", "OPENQASM (2.0) ;", "OPENQASM = 3.0 ;", "3.0 ;", "2.0 OPENQASM ;",
    "openqasm 2.0 ;", "openqasm 3.0 ;", "OpenQASM 3.0 ;", "QASM 2.0 ;", "OPENQASM 3.0.0 ;", "OPENQASM 3.0 qubit ;",
    "OPENQASM 3.0 include ;", "OPENQASM 3,0 ;", "OPENQASM two ;", "OPENQASM \u{663}.0 ;", "\u{feff}OPENQASM 3.0 ;",
    "OPENQASM 3.0\u{c} ;", "include \"stdgates.inc\" ;", "include \"qelib1.inc\" ;", "qubit[3] q ;", "qreg q[3] ;",
    "x q[0] ;", "gphase(pi) ;", "gphase(pi/3) ;", "u1(pi/3) q[0] ;", "// OPENQASM 2.0 ;", "{ ;", "\" ;",
];

/// What is no angle. Two of these are comments, which take the rest of the statement with them.
const ODD_ANGLES: &[&str] = &[
    "", "-", "+", "*", "/", "1", "2", "-1", "1/2", "0.5", ".5", "1e0", "0x1", "00", "-00", "000", "01", "+0", "+pi",
    "--pi", "---pi", "- -0", "-+pi", "Pi", "PI", "pi.", ".pi", "_pi", "pie", "p i", "pi pi", "pi 0", "0 pi", "0pi",
    "2pi", "2 pi", "pi2", "pi*", "*pi", "pi*2", "pi*pi", "2*", "2*2", "0*0", "2**pi", "2*-pi", "2*pi*2", "2*2*pi",
    "2.0*pi", "1.*pi", "02*pi", "00*pi", "065535*pi", "65536*pi", "65537*pi", "65540*pi", "99999*pi", "100000*pi",
    "131073*pi", "4294967296*pi", "4294967297*pi", "18446744073709551617*pi", "pi/", "pi//", "/pi", "pi/pi", "pi/0",
    "pi/00", "pi/01", "pi/02", "pi/3", "pi/5", "pi/6", "pi/7", "pi/12", "pi/24", "pi/100", "pi/1024.", "pi/1000",
    "pi/16385", "pi/32767", "pi/32769", "pi/49152", "pi/65535", "pi/65536", "pi/65537", "pi/65538", "pi/131072",
    "pi/4294967296", "pi/4294967297", "pi/18446744073709551617", "pi/-2", "pi/+2", "pi/2/2", "pi/2*2", "pi / / 2",
    "pi/2.0", "pi/2pi", "pi/(2)", "0/0", "0/3", "0/65536", "-0/3", "3/4", "1/2*pi", "3*pi/0", "3*pi/3", "3*pi/65536",
    "65536*pi/3", "65536*pi/2", "(pi)", "(pi", "pi)", "pi)(pi", ")", "(", "()", ")(", "pi,", "pi,pi", "0,pi", ",",
    "pi+pi", "pi-pi", "0-pi", "pi-", "pi^2", "sin(pi)", "-sin(0)", "q[0]", "pi]", "[pi]", "{pi}", "\"pi\"", "\"",
    "pi\"", "theta", "lambda", "\u{3c0}", "\u{3c0}/2", "\u{ff}", "\u{b}", "\u{c}pi", "pi\u{c}", "pi\u{85}", "pi\u{a0}",
    "-\u{b}pi", "pi/2\u{c}", "\0", "pi\\2", "pi:2", "pi'", "2\u{d7}pi", "u1(pi) q[0]", "pi// ) q[0]",
];

/// At the ends of what may stand in a `gphase`, and beyond; none of them is a rotation's.
const LATER_ANGLES: &[&str] = &[
    "131071*pi", "-131071*pi", "131072*pi", "-131072*pi", "131073*pi", "0131071*pi", "262143*pi", "1000000*pi",
    "131071*pi/65536", "-131071*pi/65536", "131072*pi/65536", "65536*pi/65536", "99999*pi/65536", "100000*pi/65536",
    "pi/65536", "-pi/65536", "0/65536", "pi/131072", "0/131072", "131071*pi/131072", "pi/65537", "pi/98304",
    "pi/065536", "131071*pi/3", "4295098367*pi", "pi/4295032832", "18446744073709682687*pi",
    "pi/18446744073709617152",
];

/// Blanks part words, and so do most of the bytes that are words by themselves.
fn cut_into_words(statement: &str) -> Statement {
    let marks = [";", ",", "(", ")", "[", "]", "*"];
    let parted = marks.iter().fold(statement.to_string(), |text, mark| text.replace(mark, &format!(" {mark} ")));
    parted.split(' ').filter(|word| !word.is_empty()).map(str::to_string).collect()
}

fn damage_words(dice: &mut Dice, language: Language, statement: &mut Statement) {
    let place = dice.below(statement.len().max(1));
    let other = dice.below(statement.len().max(1));
    let odd = dice.pick(&language.odd(ODD_WORDS, LATER_WORDS)).to_string();
    match dice.below(5) {
        0 => statement.insert(place, odd),
        1 if !statement.is_empty() => statement.insert(place, statement[other].clone()),
        2 if !statement.is_empty() => statement.swap(place, other),
        3 if !statement.is_empty() => statement[place] = odd,
        _ if !statement.is_empty() => drop(statement.remove(place)),
        _ => {}
    }
}

/// An angle that is none, or is none of this word.
fn with_odd_angle(dice: &mut Dice, language: Language) -> Statement {
    let words: &[&str] = if language == Three { &["u1", "rz", "p", "gphase", "gphase"] } else { language.rotations() };
    let word = one_of(dice, words);
    let angle = dice.pick(&language.odd(ODD_ANGLES, LATER_ANGLES));
    cut_into_words(&if word == "gphase" { format!("gphase({angle});") } else { format!("{word}({angle}) q[0];") })
}

fn damage_statements(dice: &mut Dice, language: Language, all: &mut Vec<Statement>) {
    // The few statements before the gates are not to be spared.
    let i = if dice.percent(40) { dice.below(all.len().min(4)) } else { dice.below(all.len()) };
    let j = dice.below(all.len());
    let behind_register = dice.between(3.min(all.len()), all.len());
    match dice.below(8) {
        0 | 1 => {
            let odd = dice.pick(&language.odd(ODD_STATEMENTS, LATER_STATEMENTS));
            all.insert(behind_register, cut_into_words(odd));
        }
        2 | 3 => all.insert(behind_register, with_odd_angle(dice, language)),
        4 => all.swap(i, j),
        5 => all.insert(i, all[j].clone()),
        6 if all.len() > 1 => drop(all.remove(i)),
        _ => damage_words(dice, language, &mut all[i]),
    }
}

/// A statement of the head is that of the other version, or the first one is of none.
fn damage_head(dice: &mut Dice, language: Language, name: &str, n: usize, all: &mut [Statement]) {
    let other = if language == Three { Two } else { Three };
    let i = dice.below(3);
    all[i] = other.head(name, n)[i].clone();
    if dice.percent(60) {
        all[0] = cut_into_words(dice.pick(ODD_VERSIONS));
    }
}

/// Damaged in its statements, in its bytes or in both, or cut at any byte.
fn damaged_circuit(dice: &mut Dice, languages: Languages, draft: &Draft) -> Vec<u8> {
    let language = one_of(dice, languages);
    let name = if dice.percent(70) { "q" } else { dice.pick(language.names()) };
    let mut statements = said(dice, language, draft, name);
    if language != Early && dice.percent(20) {
        damage_head(dice, language, name, draft.n, &mut statements);
    }
    let layout = any_layout(dice, draft);
    let (in_statements, in_bytes, cut) = dice.pick(&[
        (1, 0, false), (1, 0, false), (1, 0, false), (1, 0, false), (1, 0, false), (2, 0, false), (1, 1, false),
        (0, 1, false), (0, 2, false), (0, 0, true),
    ]);
    (0..in_statements).for_each(|_| damage_statements(dice, language, &mut statements));
    let mut text = set(dice, &statements, layout);
    (0..in_bytes).for_each(|_| damage_bytes(dice, &mut text, ODD_CIRCUIT_BYTES));
    if cut {
        text.truncate(dice.between(0, text.len()));
    }
    text
}

/// Bytes, letters or words of circuits, thrown together, alone or behind a good head.
fn noisy_circuit(dice: &mut Dice, languages: Languages) -> Vec<u8> {
    let language = one_of(dice, languages);
    let (head, behind) = match language {
        Three => ("OPENQASM 3.0;include\"stdgates.inc\";", ["", "qubit[2]q;", "qubit[2]q;rz(pi)q[0];\n"]),
        _ => ("OPENQASM 2.0;include\"qelib1.inc\";", ["", "qreg q[2];", "qreg q[2];x q[0];\n"]),
    };
    let head = [head, dice.pick(&behind)].concat();
    let mut text = if dice.percent(70) { head.into_bytes() } else { vec![] };
    for _ in 0..dice.below(40) {
        match dice.below(3) {
            0 => text.push(dice.pick(ODD_CIRCUIT_BYTES)),
            1 => text.extend([dice.pick(&language.odd(ODD_WORDS, LATER_WORDS)), " "].concat().bytes()),
            _ => text.push(dice.below(256) as u8),
        }
    }
    text
}

// ------------------------------------------------------------ limits

/// Rotations whose statements are short, so that a text can hold too many of them.
fn with_half_turns(n: usize, count: usize) -> Draft {
    let gates: Vec<Gate> = (0..count).map(|i| Rot(i % n, i % 3 % 2 * 32_768)).collect();
    Draft::new(n, &line(n), &gates)
}

fn circuit_at_a_limit(dice: &mut Dice) -> Draft {
    let n = dice.between(10, 20);
    let angle = dice.pick(&[0, 1, 65_535]);
    let gates = dice.pick(&[4_095, 4_096, 4_097]);
    match dice.below(12) {
        0 => with_x(dice.between(1, 20), gates),
        1 => with_half_turns(dice.between(1, 20), gates),
        2 => by_turns(gates),
        3 => many_stretches(dice),
        4 => with_couplers(dice.pick(&[189, 190, 191])),
        5 | 6 => with_parities(n, dice.pick(&[255, 256, 257, 300]), angle),
        7 => with_parities_met_twice(n, dice.pick(&[128, 129, 255, 256, 257])),
        8 => with_parities_in_stretches(n, &dice.pick(&[[256, 257], [257, 256], [255, 256]]), angle),
        9 if dice.percent(20) => far_apart(),
        _ => Draft::new(dice.pick(&[0, 1, 20, 21, 22, 127, 254, 255, 256, 300]), &[], &[]),
    }
}

/// Brought to this length by a comment or by blanks, in front, at the end or behind the register.
fn filled(dice: &mut Dice, text: &[u8], size: usize) -> Vec<u8> {
    let missing = size.saturating_sub(text.len());
    let mut filling = vec![dice.pick(b" \t\r\n;c\xff"); missing];
    if !filling.iter().all(u8::is_ascii_whitespace) && missing > 2 {
        filling[..2].copy_from_slice(b"//");
        filling[missing - 1] = b'\n';
    }
    let register = text.iter().enumerate().filter(|(_, &byte)| byte == b';').nth(2).map_or(0, |(i, _)| i + 1);
    let place = dice.pick(&[0, register, text.len()]);
    [&text[..place], &filling, &text[place..]].concat()
}

// ------------------------------------------------------------ random pairs

fn circuit_draft(dice: &mut Dice) -> Draft {
    let (small, any) = (dice.between(1, 6), dice.between(1, 20));
    let draft = match dice.below(100) {
        0..45 => reachable(dice, small, 25),
        45..50 => narrow(dice),
        50..60 => reachable(dice, any, 60),
        60..66 => crooked(dice),
        66..68 => reachable(dice, any, 700),
        68..70 => many_terms(dice),
        70..76 => conjugated(dice),
        76..82 => conjugated_with_flips(dice),
        82..92 => stretched(dice),
        _ => leaving(dice),
    };
    let draft = perhaps_with_flips(dice, draft);
    perhaps_with_hadamards(dice, draft)
}

fn small_circuit_draft(dice: &mut Dice) -> Draft {
    let n = dice.between(1, 8);
    let draft = reachable(dice, n, 10);
    let draft = perhaps_with_flips(dice, draft);
    perhaps_with_hadamards(dice, draft)
}

/// So few gates that reading accepts them where too little is lent.
fn tiny_circuit_draft(dice: &mut Dice) -> Draft {
    let n = dice.between(1, 3);
    let mut draft = reachable(dice, n, 3);
    if dice.percent(50) {
        draft.gates.insert(0, X(dice.below(n)));
    }
    draft
}

/// Some drawings of one meaning; between them the couplers are listed anew and the gates redrawn.
fn drawings(dice: &mut Dice, languages: Languages) -> Vec<Pair> {
    let draft = circuit_draft(dice);
    let others = [redrawn(dice, &draft), redrawn_with_flips(dice, &draft)];
    [&draft, &draft, &others[0], &others[1]].map(|draft| pair_of(dice, languages, draft)).into()
}

fn damaged_pair(dice: &mut Dice, languages: Languages) -> Pair {
    let draft = small_circuit_draft(dice);
    [couplers_text(&draft.couplers), damaged_circuit(dice, languages, &draft)]
}

fn good_or_damaged(dice: &mut Dice, languages: Languages, draft: &Draft) -> Vec<u8> {
    if dice.percent(60) { drawn(dice, languages, draft) } else { damaged_circuit(dice, languages, draft) }
}

/// Whatever is wrong with the circuit, the couplers come first.
fn pair_with_damaged_couplers(dice: &mut Dice, languages: Languages) -> Pair {
    let draft = small_circuit_draft(dice);
    [damaged_couplers(dice, couplers_text(&draft.couplers)), good_or_damaged(dice, languages, &draft)]
}

/// Rotations by angles at an end, on wires that bear nothing but their own qubit yet.
fn perhaps_with_end_angles(dice: &mut Dice, mut draft: Draft) -> Draft {
    if draft.n > 0 && dice.percent(30) {
        for _ in 0..dice.between(1, 3) {
            let (end, _) = dice.pick(END_ANGLES);
            draft.gates.insert(0, Rot(dice.below(draft.n), end));
        }
    }
    draft
}

/// Many `gphase`, up to more than a text can hold, and few gates.
fn pair_of_phases(dice: &mut Dice) -> Pair {
    let draft = small_circuit_draft(dice);
    let mut statements = statements(Three, &draft, "q", |units| turned(dice, Three, &["rz"], units));
    let count = dice.pick(&[20, 300, 2_000, 4_097, 5_000]);
    let phase = dice.pick(&["pi", "- pi / 2", "0", "pi / 65536"]);
    statements.splice(3..3, vec![words(&format!("gphase ( {phase} ) ;")); count]);
    put_phases(dice, &mut statements, 5);
    [couplers_text(&draft.couplers), set(dice, &statements, Layout::Tight)]
}

/// A circuit of about the length that may be read, now and then with damaged couplers.
fn long_pair(dice: &mut Dice) -> Pair {
    let draft = small_circuit_draft(dice);
    let [couplers, circuit] = [couplers_text(&draft.couplers), good_or_damaged(dice, BOTH, &draft)];
    let size = dice.pick(&[65_535, 65_536, 65_536, 65_537, 65_537, 65_538, 100_000]);
    let couplers = if dice.percent(20) { damaged_couplers(dice, couplers) } else { couplers };
    [couplers, filled(dice, &circuit, size)]
}

/// One pair, or some drawings of one.
fn random_pairs(dice: &mut Dice) -> Vec<Pair> {
    let draft = match dice.below(100) {
        0..45 => circuit_draft(dice),
        45..55 => return drawings(dice, BOTH),
        55..58 => circuit_at_a_limit(dice),
        58..64 => with_faults(dice),
        64..85 => return vec![damaged_pair(dice, BOTH)],
        85..89 => tiny_circuit_draft(dice),
        89 => return vec![pair_of_phases(dice)],
        90..92 => return vec![[couplers_text(&line(2)), noisy_circuit(dice, BOTH)]],
        92..98 => return vec![pair_with_damaged_couplers(dice, BOTH)],
        _ => return vec![long_pair(dice)],
    };
    let draft = perhaps_with_end_angles(dice, draft);
    vec![pair_of(dice, BOTH, &draft)]
}

pub fn circuits(count: usize, seed: u64) -> Vec<Pair> {
    let mut dice = Dice(seed);
    let mut pairs = vec![];
    while pairs.len() < count {
        pairs.extend(random_pairs(&mut dice));
    }
    pairs.truncate(count);
    pairs
}

// ------------------------------------------------------------ the fixed list

/// Its last line is 3, and the couplers beside it join all three qubits.
const HEAD: &str = "OPENQASM 2.0;\ninclude \"qelib1.inc\";\nqreg q[3];\n";
const BESIDE: &str = "e 0 1;e 1 2;";

fn beside(couplers: &str, circuit: impl Into<Vec<u8>>) -> Pair {
    [spelled_out(couplers), circuit.into()]
}

fn behind_head(statements: &str) -> Pair {
    beside(BESIDE, format!("{HEAD}{statements}"))
}

/// Angles, by groups that come to the same, but for the last three groups.
const ANGLES: &[&[&str]] = &[
    &["-pi/4", "7*pi/4", "-1*pi/4", "57344*pi/32768", "-8192*pi/32768", "-16385*pi/4", "65535*pi/4"],
    &["pi/4", "1*pi/4", "8192*pi/32768", "-7*pi/4", "9*pi/4"],
    &["0", "-0", "0/1", "0/4", "-0/32768", "0*pi", "-0*pi", "0*pi/2", "-0*pi/32768", "2*pi", "-2*pi", "65534*pi"],
    &["pi", "-pi", "pi/1", "-pi/1", "1*pi", "3*pi", "65535*pi", "-65535*pi", "32768*pi/32768", "-32768*pi/32768"],
    &["pi/2", "5*pi/2", "-3*pi/2", "16384*pi/32768", "65533*pi/2", "-65535*pi/2"],
    &["-pi/2", "3*pi/2", "65535*pi/2", "49152*pi/32768", "-5*pi/2"],
    &["pi/32768", "1*pi/32768", "-65535*pi/32768"],
    &["-pi/32768", "65535*pi/32768", "-1*pi/32768"],
    &["32767*pi/32768", "-32769*pi/32768"],
    &["32769*pi/32768", "-32767*pi/32768"],
    &["65535*pi/16384", "-pi/16384", "32767*pi/16384"],
    &["65535*pi/8", "-pi/8", "15*pi/8"],
    &["9*pi", "99*pi/4", "999*pi/8", "1000*pi/16", "9999*pi/32", "12345*pi/64", "54321*pi/2048", "40000*pi/32768"],
    &["pi/8", "pi/16", "pi/32", "pi/64", "pi/128", "pi/256", "pi/512", "pi/1024", "pi/2048", "pi/4096", "pi/8192"],
    // Blanks and comments within. A comment may take a divisor with it.
    &[
        " - pi / 4 ", "\n-\n3\n*\npi\n/\n4\n", "-//-\n3//*\n*//pi/2\npi //\n/ //;\n4", "\r\t- \r\n pi\t/\t4\r",
        "pi//4\n", "pi///4\n", "pi// /4\n", "pi//)\n/4", "pi/ //4\n2",
    ],
];

/// Each in a stretch of its own, so that all are printed.
fn angles() -> Vec<Pair> {
    let stretch = |angle: &&str| format!("u1({angle}) q[1];\nh q[1];\n");
    ANGLES.iter().map(|angles| behind_head(&angles.iter().map(stretch).collect::<String>())).collect()
}

/// Whole texts, most of which have no register.
const HEADS: &[&str] = &[
    // What ends before it: place 0.
    "", "\n", " \r\n\t", "//", "// OPENQASM 2.0;\n", "OPENQASM", "OPENQASM 2.0", "OPENQASM 2.0;", "\n\nOPENQASM 2.0;\n",
    "OPENQASM 2.0;\ninclude", "OPENQASM 2.0;\ninclude \"qelib1.inc\"", "OPENQASM 2.0;\ninclude \"qelib1.inc\";\n",
    "OPENQASM 2.0;\ninclude \"qelib1.inc\";\n\nqreg q[3]", "OPENQASM 2.0;\ninclude \"qelib1.inc\";\nqreg", "x q[0]",
    "\n\n\nq", "OPENQASM 2.0;\ninclude \"qelib1.inc\";\nqreg q[3] // ;",
    "OPENQASM 2.0;\ninclude \"qelib1.inc;\nqreg q[3]", "/", "\"", "OPENQASM 2.0;\nu1(pi/3) q[0]",
    // What is there and wrong has its line, though the text ends before the register.
    ";", "\n;", "OPENQASM 2.0;;", "OPENQASM 2.0;\n\n;", "OPENQASM;", "OPENQASM 2.0 2.0;", "OPENQASM2.0;",
    "OPENQASM 2 . 0;", "OPENQASM 2;", "OPENQASM 2.00;", "OPENQASM 02.0;", "OPENQASM 2.1;", "OPENQASM 3.0;",
    "openqasm 2.0;", "OPENQASM \"2.0\";", "\u{feff}OPENQASM 2.0;", "\n\n OPENQASM\n\n3.0\n\n;",
    "OPENQASM 2.0;\nu1(pi/3) q[0];", "OPENQASM 2.0;\n\nqreg q[3];", "OPENQASM 2.0;\ninclude;",
    "OPENQASM 2.0;\ninclude qelib1.inc;", "OPENQASM 2.0;\ninclude \"qelib1.inc;",
    "OPENQASM 2.0;\ninclude \"qelib1.inc\"\";", "OPENQASM 2.0;\ninclude \"\"qelib1.inc\";",
    "OPENQASM 2.0;\ninclude \"qelib1\".inc;", "OPENQASM 2.0;\ninclude \" qelib1.inc\";",
    "OPENQASM 2.0;\ninclude \"Qelib1.inc\";", "OPENQASM 2.0;\ninclude 'qelib1.inc';",
    "OPENQASM 2.0;\ninclude \"stdgates.inc\";", "OPENQASM 2.0;\ninclude \"qelib1.inc\"x;",
    "OPENQASM 2.0;\ninclude \"qelib1;.inc\";", "OPENQASM 2.0;\ninclude \"qelib1//.inc\";\n\";",
    "OPENQASM 2.0;\ninclude <qelib1.inc>;", "OPENQASM 2.0;\nINCLUDE \"qelib1.inc\";", "OPENQASM 2.0;\nOPENQASM 2.0;",
    "include \"qelib1.inc\";\nOPENQASM 2.0;\nqreg q[3];", "qreg q[3];\nx q[0];",
    "OPENQASM 2.0;\ninclude \"qelib1.inc\";\ninclude \"qelib1.inc\";\nqreg q[3];",
    "OPENQASM 2.0;\ninclude \"qelib1.inc\";\nx q[0];\nqreg q[3];",
    "OPENQASM 2.0;\ninclude \"qelib1.inc\";\n;\nqreg q[3];",
    "OPENQASM 2.0;\ninclude \"qelib1.inc\";\ncreg c[3];\nqreg q[3];",
    // Good ones, tight, wide and with comments.
    "OPENQASM 2.0;include\"qelib1.inc\";qreg q[3];", "OPENQASM 2.0;include \"qelib1.inc\";qreg q [3] ; x q[1] ;",
    "\n\nOPENQASM\n2.0\n;\r\ninclude\n\"qelib1.inc\"\n;\tqreg\nq\n[\n3\n]\n;\nx\nq\n[\n2\n]\n;\n",
    "//;\nOPENQASM//;\n2.0//;\n;//;\ninclude//\"\n\"qelib1.inc\"//\";\n;qreg//\u{e9}\nq//[\n[//3\n3//]\n]//;\n;// x q[0];",
];

/// The word between `qreg` and the size, and whether a gate can use it.
const REGISTERS: &[&str] = &[
    "q", "r", "pi", "cx", "u1", "x", "h", "qreg", "include", "a", "z", "q_", "qQ", "q0", "q_0Z", "if", "measure",
    "abcdefghijklmnopqrstuvwxyz", "Q", "_q", "0q", "3", "q.", "q.r", ".q", "OPENQASM", "q q", "\"q\"", "\"", "q\"",
    "-q", "q-", "\u{3c0}", "q\u{e9}", "[", "", "2.0",
];

/// What stands in the brackets of the register, and in those of a gate.
const SIZES: &[&str] = &[
    "0", "1", "2", "9", "10", "19", "20", "21", "99", "100", "127", "128", "199", "200", "254", "255", "256", "257",
    "299", "300", "512", "999", "1000", "65535", "65536", "65539", "4294967299", "18446744073709551619", "", "00", "03",
    "003", "0003", "+3", "-3", "3.0", "3.", "0x3", "3 3", "3,3", "n", "\u{663}", "3\u{c}", "(3)", "3]", "[3",
];

/// Behind the head; the first line is 4.
const BEHIND: &[&str] = &[
    // One of each gate, and what takes no room.
    "cx q[0],q[1];", "u1(pi/4) q[1];", "x q[2];", "h q[0];", "", "//", "// x", "\r\n\t ", "x q[0];// x q[1];",
    "x q[0];// x q[1];\n", "cx q[0],q[1];\nu1(pi/4) q[1];\nx q[2];\nh q[0];\n",
    "cx q[0],q[1];u1(pi/4)q[1];x q[2];h q[0];", "cx\nq\n[\n0\n]\n,\nq\n[\n1\n]\n;\nu1\n(\npi\n)\nq\n[\n1\n]\n;",
    "x\tq[0]\r;\r\nx q\r[1]\t;", "u1(pi)\nq[0];u1 (pi)q[1];",
    // Comments: with semicolons, quotes, gates, bytes outside ASCII, at the very end, between any two words.
    "// ; ;\nx q[0]; // ;\n//\n", "x// ;\nq[0];", "x q[0] // ; y\n; x q[1];", "x q[0];//\"\nx q[1];//\"",
    "x q[0];///\nx q[1];////\n",
    "cx//\nq//\n[//\n0//\n]//\n,//\nq//\n[//\n1//\n]//\n;//\nu1//\n(//\n-//\n3//\n*//\npi//\n/ //\n4//\n)//\nq//\n[//\n1//\n]//\n;//",
    "x q[0]; // \u{3b8}\u{3c0} \u{1f40d};\nx q[1];", "x q[0]; //\r x q[1];\nx q[2];",
    "x q[0]; // u1(pi/3) q[0];\nh q[0];",
    // What is left over at the end: the line where it begins.
    "x", "x q[0]", "x q[0];x q[1]", "x q[0];\n\nx\nq[1]\n", "x q[0];\n// ;\n x // ;\n q[1] // ;", "x q[0]; /",
    "x q[0];\n\n\n/", "\n\nu1(pi/3) q[0]", "x q[0];\n\"", "x q[0] //;", "x q[0];\n  }", "x q[0]; \u{c}",
    // Lines: that of the first word, not of the end, of the wrong word, of a comment before.
    "\n\ny q[0];", "x q[0];\n\n\ny q[0];", "// one\n// two;\ny q[0];", "//\ny q[0];", "x q[0]; // ;\ny q[0];",
    "x q[0]; // one\n\n// two\n y\nq[0]\n;\n", "x\n\n\nr[0];", "u1(pi\n/\n3)\nq[0];", "x q[0]; y\n\n;",
    "x q[0]; u1(\npi/3) q[0];", "\r\r\ry q[0];", "\r\n\r\ny q[0];", "x q[0];\n\n;\n", "x\n;\n;",
    "x q[0]; // \u{e9}\n// \u{ff}\u{fe}\ny;", "x q[0]; x q[1]; y q[2]; // all on line 4\n", "// \n // \n\t// \n y;",
    "x q[0];//\n\n\n//\n\n;", "\u{b}\n\ny q[0];", "x q[0\n];\nx\nq[1\n];\nx\nq[3 3];",
    // Two faults: the first statement decides.
    "u1(pi/3) q[0];\ny q[0];", "y q[0];\nu1(pi/3) q[0];", "u1(pi/3) q[0];\nx q[256];", "x q[256];\nu1(pi/3) q[0];",
    "u1(pi/3) q[0];\nx", "x;\nx", "\nu1(2) q[0];\nu1(3) q[0];", "u1(pi/3) q[3];\nx q[9];", "x q[9];\nu1(pi/3) q[0];",
    "x q[9];\ny q[0];",
    // Both in one statement: 13.
    "u1(pi/3) q[256];", "u1(pi/3) r[0];", "u1(pi/3) q;", "u1(pi/3) q[0],q[1];", "u1(pi/3 q[0];", "u1 pi/3) q[0];",
    "u1(pi/3);", "u1(pi/3) q[00];", "u1(pi/3) q[0] q[0];", "u1(pi/3) q[0])", "u1(pi/3) qq[0];", "rz(pi/3) q[0];",
    "U1(pi/3) q[0];", "x(pi/3) q[0];",
    // Only the angle is wrong, whatever stands for it.
    "u1() q[0];", "u1(pi) q[0] u1(pi) q[1];", "u1(pi)) q[0];", "u1((pi)) q[0];", "u1(;) q[0];", "u1(pi;) q[0];",
    "u1(//) q[0];\n) q[0];", "u1(pi) q[0]\nu1(pi) q[1];", "u1(x q[0]) q[255];", "u1(pi/3) q[255];", "u1(\0) q[0];",
    // Names that are like the register's.
    "x qq[0];", "x q0[0];", "x q_[0];", "x q.[0];", "x Q[0];", "x q2.0[0];", "cx q[0],qq[1];", "cx qq[0],q[1];",
    "u1(pi) qq[0];", "x p[0];",
    // Qubits: n and above are for test 5, with the gate's place; so are equal ends.
    "x q[3];", "x q[0];h q[3];", "x q[0];x q[1];x q[255];", "cx q[0],q[1];cx q[1],q[1];", "cx q[3],q[0];",
    "cx q[0],q[3];", "cx q[255],q[255];", "u1(0) q[3];", "u1(0) q[2];x q[4];x q[5];",
    "x q[0];x q[1];h q[2];x q[2];x q[3];", "x q[0];x q[0];x q[0];x q[0];x q[0];x q[7];", "h q[3];",
    // What is laid: sums over the whole circuit, Hadamards part it, phases go to their own line.
    "u1(pi/4) q[0];u1(pi/4) q[0];", "u1(pi) q[0];u1(-pi) q[0];", "u1(pi/2) q[0];h q[1];u1(-pi/2) q[0];",
    "x q[0];u1(pi/4) q[0];x q[0];", "x q[0];u1(pi/4) q[0];h q[0];x q[0];u1(-pi/4) q[0];",
    "x q[0];u1(pi/4) q[0];h q[0];x q[0];u1(pi/4) q[0];", "x q[0];u1(pi) q[0];u1(pi) q[0];", "cx q[0],q[2];",
    "cx q[2],q[0];u1(pi/8) q[0];cx q[2],q[0];", "cx q[0],q[1];cx q[1],q[0];cx q[0],q[1];",
    "h q[2];h q[0];h q[0];h q[1];", "x q[1];x q[1];", "u1(pi/32768) q[0];u1(9*pi/32768) q[1];u1(99*pi/32768) q[2];",
    "u1(65535*pi/32768) q[0];u1(1000*pi/32768) q[1];",
    // Reading is lent 4 gates: as many, and one more; a fault or a bad qubit behind them.
    "x q[0];x q[0];x q[0];x q[0];", "x q[0];x q[0];x q[0];x q[0];x q[0];", "x q[0];x q[0];x q[0];x q[0];x q[0];y q[0];",
    "x q[0];x q[0];x q[0];x q[0];x q[0];x q[3];", "x q[0];x q[0];x q[0];x q[0];x q[3];", "x q[0];x q[0];x q[0];x q[3];",
    "cx q[0],q[1];u1(0) q[0];x q[0];h q[0];", "cx q[0],q[1];u1(0) q[0];x q[0];h q[0];u1(pi/3) q[0];",
    "h q[0];h q[0];h q[0];h q[0];h q[0];h q[0]",
    // Writing is lent 100 bytes: 99, 100 and 101, and again; a bad gate in a text that is too long.
    "cx q[0],q[1];cx q[1],q[0];u1(1000*pi/32768) q[0];", "cx q[0],q[1];cx q[1],q[0];u1(10000*pi/32768) q[0];",
    "x q[0];cx q[0],q[1];u1(1000*pi/32768) q[0];h q[0];", "u1(100*pi/32768) q[0];u1(pi/32768) q[1];x q[1];",
    "u1(100*pi/32768) q[0];u1(10*pi/32768) q[1];h q[1];", "u1(100*pi/32768) q[0];u1(100*pi/32768) q[1];h q[1];",
    "u1(-0) q[0];u1(-0*pi) q[1];x q[1];", "u1(2*pi) q[0];u1(-2*pi) q[1];x q[1];",
    "u1(pi) q[0];u1(pi) q[0];u1(pi) q[0];u1(pi) q[3];", "u1(pi) q[0];cx q[2],q[2];u1(pi) q[0];u1(pi) q[0];",
];

/// The same with other couplers, spelled as in a job, and another register.
const OTHERWISE: &[(&str, &str, &str)] = &[
    // Writing, where n and the qubits have two digits: 99, 100, 100, 101 and 101 bytes.
    ("", "q[20]", "u1(10000*pi/32768) q[10];u1(1000*pi/32768) q[19];"),
    ("", "q[20]", "u1(10000*pi/32768) q[10];u1(65535*pi/32768) q[19];"),
    ("", "q[20]", "cx q[10],q[11];cx q[19],q[9];u1(pi/32768) q[0];"),
    ("", "q[20]", "cx q[10],q[11];cx q[19],q[9];u1(pi/32768) q[10];"),
    ("e 0 1;", "q[10]", "cx q[0],q[1];cx q[1],q[0];u1(10000*pi/32768) q[0];"),
    // Tests 1 to 3: n, the number of couplers, their ends; before a bad gate.
    ("", "q[0]", ""), ("", "q[0]", "x q[0];"), ("", "q[1]", ""), ("", "q[20]", "x q[19];"), ("", "q[20]", "x q[20];"),
    ("", "q[21]", "x q[21];"), ("e 0 1;", "q[1]", "x q[5];"), ("e 0 1;e 1 1;", "q[2]", "x q[5];"),
    ("e 0 1;e 2 0;", "q[2]", ""), ("e 0 2;", "q[2]", ""), ("e 0 65535;", "q[20]", ""), ("e 255 0;", "q[20]", ""),
    ("e 0 1;", "q[255]", ""), ("e 0 1;", "q[256]", ""), ("e 0 1;e 0 1;e 1 0;", "q[2]", "cx q[0],q[1];"),
    // Test 7: a wire, a term, and with a Hadamard the place of the stretch's first gate.
    ("", "q[2]", "cx q[0],q[1];"), ("e 0 1;", "q[3]", "x q[0];cx q[1],q[2];"),
    ("e 0 1;", "q[3]", "cx q[0],q[2];u1(pi) q[2];cx q[0],q[2];"),
    ("e 0 1;", "q[3]", "cx q[0],q[2];u1(pi/2) q[2];u1(-pi/2) q[2];cx q[0],q[2];"),
    ("e 0 1;", "q[3]", "x q[0];h q[2];x q[1];cx q[0],q[2];"), ("e 0 1;", "q[3]", "cx q[0],q[2];h q[1];cx q[0],q[2];"),
    ("e 2 0;", "q[3]", "cx q[0],q[2];u1(pi/4) q[2];x q[1];"),
    // The couplers' text comes first: 10 before 12, 13 and 1.
    ("q 2;", "q[0]", "y;"), ("e 0 1;x;", "q[3]", "y;"), ("e 0 1;e 1;", "q[3]", "u1(pi/3) q[0];"), ("x;", "q[0]", ""),
    ("c 0 1;", "q[3]", ""),
];

/// Texts of couplers, spelled as jobs are.
const COUPLERS: &[&str] = &[
    "", "e 0 1;", "e 1 0;", "e 0 1;e 1 2;e 1 0;", "e 1 2;e 0 1;", ";", ";e 0 1;", "e 0 1;;", "e 0 1;;e 1 2;", "e;",
    "e ;", "e 0;", "e 0 ;", "e 0 1 ;", "e 0 1 2;", "e  1;", " e 0 1;", "E 0 1;", "e0 1;", "ee 0 1;", "f 0 1;", "q 3;",
    "q 3;e 0 1;", "e 0 1;q 3;", "c 0 1;", "r 0 1;", "n 0;", "h 0;", "e 0 1;c 0 1;", "e 0 1;n 0;e 1 2;", "x 1 0;",
    "e 00 1;", "e 0 01;", "e +0 1;", "e 0 -1;", "e 0 1.0;", "e a 1;", "e 255 0;", "e 256 0;", "e 0 255;", "e 0 256;",
    "e 0 65535;", "e 0 65536;", "e 65536 1;", "e 0 65537;", "e 4294967296 1;", "e 0 4294967297;",
    "e 0 18446744073709551617;", "e 0 3;", "e 3 0;", "e 0 0;", "e 0 1;e 2 2;", "e 0 1;e 1 2;e 1", "e 0 1",
    "e 0 1;e 1 2", "e", "e 0 1;\r;", "e 0 1\r;", "// e 0 1;", "e 0 1;// two;", "OPENQASM", "e 0 1;e 1 2;x", "\0;",
    "e 0 \u{661};", "e 0 1;e 1 2;e 0 1;e 1 2;e 0 1;e 1 2;e 0 1;e 1 2;e 1;e 2;",
];

fn fixed_circuits() -> Vec<Pair> {
    let head = |register: &str| HEAD.replace("q[3]", register);
    let mut pairs = vec![behind_head("cx q[0],q[1];\nu1(8192*pi/32768) q[1];\n")];
    pairs.extend(example_drafts().iter().map(printed_pair));
    pairs.extend(angles());
    pairs.extend(ODD_ANGLES.iter().map(|angle| behind_head(&format!("x q[0];\nu1({angle}) q[1];\n"))));
    pairs.extend(HEADS.iter().map(|&text| beside(BESIDE, text)));
    pairs.extend(REGISTERS.iter().map(|name| beside(BESIDE, head(&format!("{name}[3]")) + &format!("x {name}[1];\n"))));
    pairs.extend(SIZES.iter().map(|size| beside("", head(&format!("q[{size}]")))));
    pairs.extend(SIZES.iter().map(|qubit| behind_head(&format!("x q[0];\nx q[{qubit}];\n"))));
    pairs.extend(BEHIND.iter().map(|statements| behind_head(statements)));
    pairs.extend(ODD_STATEMENTS.iter().map(|statement| behind_head(&format!("x q[0];\n{statement}\n"))));
    pairs.extend(OTHERWISE.iter().map(|(couplers, register, gates)| beside(couplers, head(register) + gates)));
    pairs.extend(COUPLERS.iter().map(|couplers| beside(couplers, format!("{HEAD}cx q[0],q[1];\n"))));
    pairs
}

/// Bytes that are taken for blanks elsewhere, and others, as they are: in the midst of a gate.
fn circuits_with_odd_bytes() -> Vec<Pair> {
    let with = |byte: u8| [HEAD.as_bytes(), b"x", &[byte], b" q[0];// ", &[byte], b"\n"].concat();
    b"\0\x0b\x0c\x1f\x7f\x80\x85\xa0\xff".iter().map(|&byte| beside(BESIDE, with(byte))).collect()
}

/// Cut before every third byte, and behind the name of the register before every one.
fn cut_circuits() -> Vec<Pair> {
    let text = "OPENQASM 2.0;\ninclude \"qelib1.inc\";\nqreg q[3];\n// ;\nu1(-3*pi/4) q[1];";
    (0..text.len()).filter(|end| end % 3 == 0 || *end > 40).map(|end| beside("", &text.as_bytes()[..end])).collect()
}

/// Text and then so much filling that there are `size` bytes.
fn filled_up(text: String, size: usize, filling: u8) -> Vec<u8> {
    let mut text = text.into_bytes();
    assert!(text.len() <= size, "nothing is cut off");
    text.resize(size, filling);
    text
}

/// As long as a text may be, and longer by one byte, with a fault that then does not matter; the same of the
/// couplers; as many gates as may be, and one more; 256 parities, and one more; 190 couplers, and one more.
/// Beside the circuit that is too long the couplers are bad and come first, but reading is not told of them.
fn circuits_at_their_limits() -> Vec<Pair> {
    let gates = |count: usize| format!("{HEAD}{}", "x q[0];".repeat(count));
    let couplers = |head: &str, size: usize| repeated(head, "e\t0\t1\n", size, b'\n');
    let longest = filled_up(gates(4_096) + "//", 65_536, b';');
    let one_too_long = filled_up("y;\n".to_string(), 65_537, b' ');
    // 65,536 is 4 above a multiple of 6, the length of the other lines.
    let longest_couplers = couplers("e\t0\t11\ne\t0\t11\ne\t0\t11\ne\t0\t11\n", 65_536);
    let mut pairs = vec![
        [spelled_out(BESIDE), longest],
        [b"x\n".to_vec(), one_too_long],
        [longest_couplers, format!("{HEAD}x q[0];\n").into_bytes()],
        [couplers("x\n", 65_537), b"y;\n".to_vec()],
        [spelled_out(BESIDE), gates(4_097).into_bytes()],
    ];
    for count in [256, 257] {
        let walk = with_parities(10, count, 0);
        let statements = statements(Early, &walk, "q", |_| "u1 ( 0 )".to_string());
        pairs.push([couplers_text(&walk.couplers), set(&mut Dice(0), &statements, Layout::Tight)]);
    }
    for count in [190, 191] {
        pairs.push(printed_pair(&with_couplers(count)));
    }
    pairs
}

/// Random ones that are not long.
fn seeded_circuits(seed: u64, languages: Languages) -> Vec<Pair> {
    let mut dice = Dice(seed);
    let mut pairs: Vec<Pair> = (0..60).map(|_| damaged_pair(&mut dice, languages)).collect();
    for _ in 0..40 {
        let draft = circuit_draft(&mut dice);
        pairs.push(pair_of(&mut dice, languages, &draft));
    }
    for _ in 0..15 {
        pairs.extend(drawings(&mut dice, languages));
    }
    pairs.extend((0..15).map(|_| pair_with_damaged_couplers(&mut dice, languages)));
    pairs.extend((0..15).map(|_| [vec![], noisy_circuit(&mut dice, languages)]));
    pairs.retain(|[couplers, circuit]| couplers.len() + circuit.len() < 500);
    pairs
}

// ------------------------------------------------------------ the fixed list since E5

const HEAD_3: &str = "OPENQASM 3.0;\ninclude \"stdgates.inc\";\nqubit[3] q;\n";

fn behind_head_3(statements: &str) -> Pair {
    beside(BESIDE, format!("{HEAD_3}{statements}"))
}

/// Half units of all kinds, each by a `gphase` alone.
const PHASES: &[&str] = &[
    "0", "-0", "0*pi", "0/4", "pi", "-pi", "1*pi", "2*pi", "-2*pi", "3*pi", "pi/2", "-pi/2", "3*pi/2", "-3*pi/2",
    "pi/4", "-pi/4", "7*pi/4", "pi/8", "pi/16", "pi/32", "pi/64", "pi/128", "pi/256", "pi/512", "pi/1024", "pi/2048",
    "pi/4096", "pi/8192", "pi/16384", "pi/32768", "-pi/32768", "65535*pi", "65536*pi", "65537*pi", "131070*pi",
    "65535*pi/65536", "65537*pi/65536", "98304*pi/65536", "131070*pi/65536", "131071*pi/32768", "131071*pi/2",
    "-131071*pi/2", "9*pi/65536", "10*pi/65536", "12345*pi/65536", "54321*pi/2048", "- // ;\n 3\t*\r\npi // pi\n/ 4 ",
    "pi// /2\n", "pi///2\n", "pi/ //4\n2", "\n-\npi\n",
];

/// Whole texts. Beside a version there is what belongs to it or to the other one.
const LATER_HEADS: &[&str] = &[
    // What ends before the register: 14 within the version, and then place 0.
    "OPENQASM 3.0", "OPENQASM 3.0 // ;", "\n\nOPENQASM 3.0", "OPENQASM 3.0;", "\n\n OPENQASM\n3.0\n;\n",
    "OPENQASM 3.0;\ninclude", "OPENQASM 3.0;\n\ninclude \"stdgates.inc\"", "OPENQASM 3.0;\ninclude \"stdgates.inc\";",
    "OPENQASM 3.0;\ninclude \"stdgates.inc\";\nqubit[3] q", "OPENQASM 3.0;\ninclude \"stdgates.inc\";\nqubit",
    "OPENQASM 3.0;\ngphase(pi/3)", "OPENQASM 2.0;\nOPENQASM 3.0",
    // What is there and wrong.
    "OPENQASM 3.0;;", "OPENQASM 3.0;\n\n;", "OPENQASM 3.0;\nOPENQASM 3.0;", "OPENQASM 3.0;\n\nOPENQASM 2.0;",
    "OPENQASM 2.0;\nOPENQASM 3.0;", "OPENQASM 3.0;\n\nqubit[3] q;", "OPENQASM 3.0;\ngphase(pi);",
    "OPENQASM 3.0;\ngphase(pi/3);", "OPENQASM 3.0;\ninclude \"stdgates.inc\";\n\ngphase(pi);\nqubit[3] q;",
    "OPENQASM 3.0;\ninclude \"stdgates.inc\";\nrz(pi/3) q[0];", "OPENQASM 3.0;\ninclude \"stdgates.inc;",
    "OPENQASM 3.0;\ninclude \"stdgates.inc\"\";", "OPENQASM 3.0;\ninclude \"Stdgates.inc\";",
    "OPENQASM 3.0;\ninclude \"stdgates\";", "OPENQASM 3.0;\ninclude stdgates.inc;",
    // Of the other version: the second statement, the third, both; then a gate.
    "OPENQASM 3.0;\ninclude \"qelib1.inc\";\nqubit[3] q;\n", "OPENQASM 3.0;\ninclude \"stdgates.inc\";\nqreg q[3];\n",
    "OPENQASM 3.0;\ninclude \"qelib1.inc\";\nqreg q[3];\n", "OPENQASM 2.0;\ninclude \"stdgates.inc\";\nqreg q[3];\n",
    "OPENQASM 2.0;\ninclude \"qelib1.inc\";\nqubit[3] q;\n", "OPENQASM 2.0;\ninclude \"stdgates.inc\";\nqubit[3] q;\n",
    "OPENQASM 2.0;\ninclude \"qelib1.inc\";\nqreg q[3];\np(pi) q[0];\n",
    "OPENQASM 2.0;\ninclude \"qelib1.inc\";\nqreg q[3];\nx q[0];\ngphase(pi);\n",
    // The register otherwise.
    "OPENQASM 3.0;\ninclude \"stdgates.inc\";\nqubit q;\n", "OPENQASM 3.0;\ninclude \"stdgates.inc\";\nqubit q[3];\n",
    "OPENQASM 3.0;\ninclude \"stdgates.inc\";\nqubit[3];\n", "OPENQASM 3.0;\ninclude \"stdgates.inc\";\nqubit(3) q;\n",
    "OPENQASM 3.0;\ninclude \"stdgates.inc\";\nqubit[3] q r;\n",
    "OPENQASM 3.0;\ninclude \"stdgates.inc\";\nbit[3] q;\n",
    "OPENQASM 3.0;\ninclude \"stdgates.inc\";\nqubit[3] q[3];\n",
    "OPENQASM 3.0;\ninclude \"stdgates.inc\";\nqubit[3] q, r;\n",
    "OPENQASM 3.0;\ninclude \"stdgates.inc\";\nqubit[1] q;\nqubit[1] r;\n",
    // Good ones, tight, wide and with comments.
    "OPENQASM 3.0;include\"stdgates.inc\";qubit[3]q;",
    "OPENQASM 3.0;include \"stdgates.inc\";qubit [3] q ; rz (pi) q[1] ;",
    "\n\nOPENQASM\n3.0\n;\r\ninclude\n\"stdgates.inc\"\n;\tqubit\n[\n3\n]\nq\n;\ngphase\n(\npi\n)\n;\n",
    "//;\nOPENQASM//2.0;\n3.0//;\n;//;\ninclude//\"\n\"stdgates.inc\"//\";\n;qubit//\u{e9}\n[//3\n3//]\n]//q\nq//;\n;// x q[0];",
];

/// Behind the head of 2.0: `rz` is as `u1`, and the common phase comes to the last line.
const BEHIND_2: &[&str] = &[
    "rz(pi/4) q[0];", "rz(2*pi) q[0];", "rz(4*pi) q[0];", "rz(-pi/32768) q[0];", "rz(pi) q[0];rz(pi) q[0];",
    "rz(pi/4) q[0];u1(pi/4) q[0];", "rz(pi/4) q[0];u1(-pi/4) q[0];", "x q[0];rz(pi/4) q[0];x q[0];",
    "x q[0];rz(pi/32768) q[0];", "x q[0];u1(-pi/32768) q[0];", "x q[0];rz(pi) q[0];", "x q[0];rz(2*pi) q[0];",
    "x q[0];rz(pi) q[0];u1(pi) q[0];", "x q[0];rz(65535*pi/32768) q[0];u1(pi/16384) q[0];",
    "x q[0];rz(pi/2) q[0];h q[0];x q[0];u1(pi/2) q[0];", "x q[0];rz(pi) q[0];h q[0];x q[0];rz(pi) q[0];",
    "x q[0];rz(pi/4) q[0];h q[1];x q[0];rz(-pi/4) q[0];", "x q[0];cx q[0],q[1];rz(pi/8) q[1];rz(pi/8) q[0];",
    // A comment that is read says nothing.
    "x q[0];\n// common phase 5*pi/65536\n", "x q[0];u1(pi) q[0];\n// common phase 65536*pi/65536\n",
    "rz(pi/3) q[0];\nrz(pi) q[256];", "rz(pi) q[256];\nrz(pi/3) q[0];", "rz(pi/3) q[0]", "\n\nrz(\npi/3) q[0];",
    "rz(pi) q[3];", "x q[0];rz(0) q[0];x q[0];rz(0) q[0];x q[0];",
];

/// Behind the head of 3.0.
const BEHIND_3: &[&str] = &[
    // An angle is kept modulo two turns until the common phase is taken.
    "rz(2*pi) q[0];", "rz(4*pi) q[0];", "rz(6*pi) q[0];", "rz(-2*pi) q[0];", "rz(pi) q[0];rz(pi) q[0];",
    "rz(2*pi) q[0];rz(2*pi) q[1];", "rz(2*pi) q[0];rz(2*pi) q[1];rz(2*pi) q[2];", "rz(3*pi) q[0];rz(-pi) q[0];",
    "gphase(131071*pi/65536);", "rz(-pi/32768) q[0];", "rz(pi/32768) q[0];", "p(2*pi) q[0];", "u1(2*pi) q[0];",
    // One record and three readings; all of them in one sum, and against each other.
    "u1(pi/4) q[0];", "p(pi/4) q[0];", "rz(pi/4) q[0];", "u1(pi/4) q[0];p(pi/4) q[0];rz(pi/4) q[0];",
    "rz(pi/4) q[0];rz(-pi/4) q[0];", "rz(pi/4) q[0];p(-pi/4) q[0];", "p(pi/4) q[0];u1(-pi/4) q[0];",
    "cx q[0],q[1];\np(8192*pi/32768) q[1];\nx q[2];\nh q[0];\n",
    "cx q[0],q[1];\np(8192*pi/32768) q[1];\nx q[2];\nh q[0];\ngphase(5*pi/65536);\n",
    // On a flipped wire: what is read and what laying returns.
    "x q[0];u1(pi/4) q[0];", "x q[0];p(pi/4) q[0];", "x q[0];rz(pi/4) q[0];", "x q[0];rz(pi/4) q[0];x q[0];",
    "x q[0];rz(pi/32768) q[0];", "x q[0];rz(-pi/32768) q[0];", "x q[0];rz(pi) q[0];", "x q[0];rz(2*pi) q[0];",
    "x q[0];rz(3*pi) q[0];", "x q[0];rz(65535*pi/32768) q[0];", "x q[0];rz(pi/4) q[0];x q[0];rz(pi/4) q[0];",
    "x q[0];cx q[0],q[1];rz(pi/8) q[1];rz(pi/8) q[0];", "x q[0];rz(pi) q[0];rz(pi) q[0];",
    "x q[0];p(pi) q[0];p(pi) q[0];", "x q[0];p(65535*pi/32768) q[0];p(pi/16384) q[0];",
    // Sums that come to a full turn, and almost.
    "gphase(pi);gphase(pi);", "gphase(131071*pi/65536);gphase(pi/65536);", "gphase(131071*pi/65536);gphase(pi/32768);",
    "gphase(131071*pi/65536);gphase(131071*pi/65536);", "gphase(pi/3);gphase(pi);", "rz(2*pi) q[0];gphase(pi);",
    "rz(2*pi) q[0];gphase(-pi);", "rz(pi/32768) q[0];gphase(pi/65536);", "rz(pi/32768) q[0];gphase(pi/32768);",
    "x q[0];rz(pi/4) q[0];gphase(-pi/8);x q[0];", "x q[0];p(pi) q[0];gphase(-pi);",
    "x q[0];p(pi/4) q[0];gphase(-pi/4);",
    "x q[0];p(pi/2) q[0];gphase(pi/65536);", "x q[0];p(pi) q[0];gphase(65535*pi/65536);", "gphase(0);gphase(-0);",
    // Anywhere among the gates, and over several stretches.
    "gphase(pi/65536);x q[0];gphase(pi/65536);h q[0];gphase(pi/65536);", "h q[0];gphase(pi/4);h q[0];",
    "gphase(pi/2);cx q[0],q[1];gphase(-pi/4);cx q[1],q[0];gphase(-pi/4);", "rz(pi/2) q[0];h q[1];rz(-pi/2) q[0];",
    "rz(pi/2) q[0];h q[1];rz(pi/2) q[0];", "x q[0];rz(pi/4) q[0];h q[0];x q[0];rz(pi/4) q[0];",
    "x q[0];rz(pi/4) q[0];h q[0];x q[0];rz(-pi/4) q[0];", "x q[0];p(pi) q[0];h q[0];x q[0];p(pi) q[0];",
    "x q[0];p(pi) q[0];h q[0];x q[0];p(pi/2) q[0];gphase(pi/65536);h q[1];gphase(pi/2);",
    "x q[0];p(pi/2) q[0];h q[0];rz(pi/2) q[1];h q[0];x q[2];rz(2*pi) q[2];h q[2];gphase(3*pi/4);",
    // It is no gate: places in tests 5 and 7, and the 4 gates that reading is lent.
    "gphase(pi);x q[3];", "gphase(pi);gphase(pi);x q[0];gphase(pi);x q[3];gphase(pi);",
    "x q[0];gphase(pi);cx q[1],q[1];",
    "gphase(pi);gphase(pi);gphase(pi);gphase(pi);gphase(pi);",
    "gphase(pi);x q[0];x q[0];gphase(pi);x q[0];x q[0];gphase(pi);",
    "x q[0];x q[0];x q[0];x q[0];gphase(pi);", "gphase(pi);x q[0];x q[0];gphase(pi);x q[0];x q[0];x q[0];gphase(0);",
    "x q[0];x q[0];x q[0];x q[0];x q[0];gphase(pi/3);", "x q[0];x q[0];x q[0];x q[3];gphase(pi);",
    "rz(0) q[0];rz(0) q[0];rz(0) q[0];rz(0) q[0];", "rz(0) q[0];rz(0) q[0];rz(0) q[0];rz(0) q[0];rz(2*pi) q[0];",
    // Writing is lent 100 bytes: 99, 100 and 101, with and without a last line.
    "cx q[0],q[1];cx q[1],q[0];p(10*pi/32768) q[0];", "cx q[0],q[1];cx q[1],q[0];p(100*pi/32768) q[0];",
    "cx q[0],q[1];cx q[1],q[0];p(1000*pi/32768) q[0];", "cx q[0],q[1];x q[1];x q[0];gphase(9*pi/65536);",
    "cx q[0],q[1];x q[1];x q[0];gphase(10*pi/65536);", "x q[0];x q[1];x q[2];gphase(131071*pi/65536);",
    "rz(-99*pi/32768) q[0];gphase(-90*pi/65536);", "rz(pi/32768) q[0];", "rz(pi/32768) q[0];h q[0];",
    "p(pi) q[0];h q[0];x q[0];",
    "cx q[0],q[1];x q[1];x q[0];gphase(-0);", "x q[0];cx q[2],q[2];x q[0];gphase(pi);",
    // Two faults: the first statement decides. Both in one: 13.
    "gphase(pi/3);\ny q[0];", "y q[0];\ngphase(pi/3);", "gphase(pi);\n\nrz(pi/3) q[0];\ngphase(pi/3);",
    "gphase(pi/3);\nx q[9];", "x q[9];\ngphase(pi/3);", "x q[9];\ngphase(pi) q[0];", "p(pi/3) q[0];\np(pi) q[256];",
    "gphase(pi/3) q[0];", "rz(pi/3) q[256];", "p(pi/3) r[0];",
    // What is left over, and lines.
    "gphase(pi)", "x q[0];\ngphase(pi/3)", "gphase(pi);\n\ngphase", "\n\ngphase(\npi/3\n)\n;", "gphase(pi)\nq[0];",
    "gphase(pi); gphase\n\n(pi;", "// one; gphase(pi);\n\n gphase // ;\n() ;", "gphase(;)", "gphase(pi;);",
    "gphase(//);\n);",
    // Comments and blanks within, and names.
    "gphase//\n(//\n-//\n3//\n*//\npi//\n/ //\n4//\n)//\n;//", "gphase\t(\rpi\n)\r\n;", "gphase(pi);// gphase(pi);\n//",
    "rz//\n(//\n-//\n3//\n*//\npi//\n/ //\n4//\n)//\nq//\n[//\n1//\n]//\n;//", "p(pi)\nq[0];rz (pi)q[1];",
    "// common phase 5*pi/65536\n", "gphase(5*pi/65536);\n// common phase 5*pi/65536\n",
];

/// The same with other couplers and another number of qubits.
const OTHERWISE_3: &[(&str, &str, &str)] = &[
    // Test 7: places of stretches do not count `gphase`, wires are no places.
    ("e 0 1;", "3", "gphase(pi);x q[0];h q[2];gphase(pi);x q[1];gphase(pi);cx q[0],q[2];"),
    ("e 0 1;", "3", "gphase(pi);gphase(pi);cx q[0],q[2];"), ("e 0 1;", "3", "cx q[0],q[2];rz(pi) q[2];cx q[0],q[2];"),
    ("e 0 1;", "3", "cx q[0],q[2];rz(2*pi) q[2];cx q[0],q[2];"),
    ("e 0 1;", "3", "h q[0];gphase(pi);h q[0];cx q[0],q[2];"),
    // Tests 1 to 3 before them; 10 before 12, 13 and 14.
    ("", "0", "gphase(pi);"), ("", "21", "gphase(pi);"), ("e 0 1;", "1", "rz(pi) q[0];"),
    ("e 0 0;", "2", "gphase(pi);"),
    ("", "1", "gphase(pi);"), ("", "20", "rz(pi) q[19];gphase(pi);"), ("", "256", "gphase(pi);"),
    ("x;", "3", "gphase(pi/3);"), ("e 0 1;e 1;", "3", "gphase(pi);"),
    // A whole phase on few and on many qubits.
    (
        "e 0 1;e 1 2;e 2 3;e 3 4;e 4 5;", "6",
        "x q[0];cx q[0],q[5];rz(pi/4) q[5];cx q[5],q[2];p(pi/8) q[2];gphase(pi/65536);",
    ),
    (
        "e 0 1;e 1 2;", "20",
        "x q[19];rz(pi/4) q[19];x q[2];cx q[2],q[0];p(-pi/4) q[0];rz(3*pi) q[0];h q[9];x q[9];rz(pi) q[9];",
    ),
    ("", "20", "p(pi/32768) q[10];p(pi/32768) q[11];gphase(pi/65536);"),
    ("", "20", "p(pi/32768) q[10];p(pi/32768) q[11];x q[9];"),
];

/// Each by itself in 3.0, where all matter; by groups for the rotations that have no common phase.
fn later_angles() -> Vec<Pair> {
    let mut pairs: Vec<Pair> = vec![];
    let stretch = |word: &str, angle: &str| format!("{word}({angle}) q[1];\nh q[1];\n");
    for &angles in ANGLES {
        let in_stretches = |word: &str| angles.iter().map(|angle| stretch(word, angle)).collect::<String>();
        pairs.push(behind_head(&in_stretches("rz")));
        pairs.extend(["p", "rz"].map(|word| behind_head_3(&in_stretches(word))));
        pairs.extend(angles.iter().map(|angle| behind_head_3(&format!("rz({angle}) q[1];\n"))));
    }
    pairs.extend(PHASES.iter().map(|angle| behind_head_3(&format!("gphase({angle});\n"))));
    for (i, angle) in ODD_ANGLES.iter().chain(LATER_ANGLES).enumerate() {
        pairs.push(match i % 4 {
            0 => behind_head(&format!("x q[0];\nrz({angle}) q[1];\n")),
            word => behind_head_3(&format!("x q[0];\n{}({angle}) q[1];\n", ["", "rz", "p", "u1"][word])),
        });
        pairs.push(behind_head_3(&format!("x q[0];\ngphase({angle});\n")));
    }
    pairs
}

/// What is no version, before what is good and before faults, on any line; and behind couplers that are none.
fn odd_versions() -> Vec<Pair> {
    let in_2 = HEAD.strip_prefix("OPENQASM 2.0;").expect("its version comes first");
    let in_3 = HEAD_3.strip_prefix("OPENQASM 3.0;").expect("its version comes first");
    let with = |version: &&str| {
        let before_faults = format!("\n\n{version}\nOPENQASM 3.0;\ny;\nu1(pi/3) q[0];");
        let texts = [format!("{version}{in_2}x q[0];"), format!("\n{version}{in_3}x q[0];"), before_faults];
        texts.map(|text| beside(BESIDE, text))
    };
    let behind_couplers = beside("e 0 1;x;", "OPENQASM 1.0;\n");
    ODD_VERSIONS.iter().flat_map(with).chain([behind_couplers]).collect()
}

/// Cut before every third byte, and behind the name of the register before every one.
fn cut_circuits_3() -> Vec<Pair> {
    let text = "OPENQASM 3.0;\ninclude \"stdgates.inc\";\nqubit[3] q;\n// ;\nrz(-3*pi/4) q[1];gphase(-3*pi/4);";
    (0..=text.len()).filter(|end| end % 3 == 0 || *end > 40).map(|end| beside("", &text.as_bytes()[..end])).collect()
}

/// As long as a text may be, of `gphase` alone; longer by one byte, and of no version; as many gates as may be
/// and `gphase` between them, and one gate more; 256 parities, and one more, with `gphase` before each.
fn phases_at_their_limits() -> Vec<Pair> {
    let phases = format!("{HEAD_3}{}//", "gphase(pi/65536);".repeat(3_851));
    let longest = filled_up(phases, 65_536, b';');
    let one_too_long = filled_up("OPENQASM 1.0;\n".to_string(), 65_537, b' ');
    let gates = |count: usize| format!("{HEAD_3}{}{}", "gphase(pi/2);".repeat(2_047), "x q[0];".repeat(count));
    let mut pairs = vec![beside(BESIDE, longest), beside("", one_too_long)];
    pairs.extend([4_096, 4_097].map(|count| beside(BESIDE, gates(count))));
    for count in [256, 257] {
        let walk = with_parities(10, count, 0);
        let statements = statements(Three, &walk, "q", |_| "gphase ( pi / 4 ) ; rz ( 0 )".to_string());
        pairs.push([couplers_text(&walk.couplers), set(&mut Dice(0), &statements, Layout::Tight)]);
    }
    pairs
}

fn since_e5() -> Vec<Pair> {
    let head_3 = |size: &str| HEAD_3.replace("[3]", &format!("[{size}]"));
    let named = |name: &str| HEAD_3.replace(" q;", &format!(" {name};"));
    let mut pairs: Vec<Pair> = BEHIND_3.iter().map(|statements| behind_head_3(statements)).collect();
    pairs.extend(BEHIND_2.iter().map(|statements| behind_head(statements)));
    pairs.extend(OTHERWISE_3.iter().map(|(couplers, size, gates)| beside(couplers, head_3(size) + gates)));
    pairs.extend(later_angles());
    pairs.extend(LATER_HEADS.iter().map(|&text| beside(BESIDE, text)));
    pairs.extend(odd_versions());
    let names = REGISTERS.iter().chain(LATER_NAMES);
    pairs.extend(names.map(|name| beside(BESIDE, named(name) + &format!("rz(pi) {name}[1];gphase(pi);\n"))));
    pairs.extend(SIZES.iter().map(|size| beside("", head_3(size))));
    for statement in LATER_STATEMENTS {
        pairs.push(behind_head(&format!("x q[0];\n{statement}\n")));
        pairs.push(behind_head_3(&format!("x q[0];\n{statement}\n")));
    }
    pairs.extend(ODD_STATEMENTS.iter().map(|statement| behind_head_3(&format!("x q[0];\n{statement}\n"))));
    pairs.extend(BEHIND.iter().map(|statements| behind_head_3(statements)));
    pairs.extend(cut_circuits_3());
    pairs.extend(phases_at_their_limits());
    pairs.extend(seeded_circuits(305, BOTH));
    pairs
}

/// New ones go to the end.
pub fn qasm_vectors() -> Vec<Pair> {
    let mut pairs = fixed_circuits();
    pairs.extend(circuits_with_odd_bytes());
    pairs.extend(cut_circuits());
    pairs.extend(circuits_at_their_limits());
    pairs.extend(seeded_circuits(101, EARLY));
    pairs.extend(since_e5());
    pairs
}

// ------------------------------------------------------------ one long run

/// A chip, and a circuit in 3.0 for it of several stretches with comments: what is laid for it has more bytes
/// than may be read. Its common phase comes from all there is: `rz`, `gphase` and rotations on flipped wires.
fn long_run() -> Draft {
    let mut dice = Dice(65_536);
    let mut couplers = singapore();
    rewrite_couplers(&mut dice, &mut couplers);
    let mut gates = vec![];
    for stretch in 0..50 {
        gates.push(X(stretch % 20));
        for _ in 0..5 {
            gates.extend(cnots_anywhere(&mut dice, 20, 2));
            gates.push(Rot(dice.below(20), any_angle(&mut dice)));
        }
        gates.push(H(7 * stretch % 20));
    }
    Draft::new(20, &couplers, &gates)
}

pub fn qasm_couplers() -> Vec<u8> {
    couplers_text(&long_run().couplers)
}

pub fn qasm_circuit() -> Vec<u8> {
    let mut dice = Dice(2);
    let mut statements = said(&mut dice, Three, &long_run(), "wire");
    put_phases(&mut dice, &mut statements, 20);
    set(&mut dice, &statements, Layout::Loose(12))
}

// ------------------------------------------------------------ for a foreign reader

/// Circuits in 2.0 of few qubits, one statement a line, with comments on lines of their own: what most readers
/// of OpenQASM take.
pub fn plain_circuits(count: usize, seed: u64) -> Vec<Pair> {
    let mut dice = Dice(seed);
    let plain = |_| {
        let n = dice.between(1, 4);
        let draft = reachable(&mut dice, n, 20);
        let draft = perhaps_with_flips(&mut dice, draft);
        let draft = perhaps_with_hadamards(&mut dice, draft);
        let statements = said(&mut dice, Two, &draft, "q");
        let mut lines = lines_of(&set(&mut dice, &statements, Layout::Lines));
        lines.insert(dice.between(1, lines.len()), b"// drawn by hand; x q[0];\n".to_vec());
        [couplers_text(&draft.couplers), lines.concat()]
    };
    (0..count).map(plain).collect()
}
