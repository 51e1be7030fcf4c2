//! Damaged sheets: every way in which the text of a sheet can be wrong, and near misses.

use crate::rng::Rng;
use crate::sheet::LONGEST;

pub type Text = Vec<u8>;

/// A sheet of plain lines. `values` has its lines parted by semicolons.
pub fn sheet(names: &str, values: &str) -> Text {
    let lines = values.split(';').map(str::trim).filter(|line| !line.is_empty());
    let text: String = lines.map(|line| format!("{line}\n")).collect();
    format!("{names}\n{text}").into_bytes()
}

/// A sheet of rows.
pub fn rows<const N: usize>(names: &str, rows: impl IntoIterator<Item = [u64; N]>) -> Text {
    let mut text = format!("{names}\n");
    for row in rows {
        let words: Vec<String> = row.iter().map(u64::to_string).collect();
        text += &(words.join(" ") + "\n");
    }
    text.into_bytes()
}

fn lines(text: &[u8]) -> Vec<Text> {
    text.split_inclusive(|byte| *byte == b'\n').map(|line| line.to_vec()).collect()
}

/// Changes one line (0 is the names line), its line feed included.
pub fn edit_line(text: &[u8], line: usize, edit: impl Fn(&[u8]) -> Text) -> Text {
    let mut lines = lines(text);
    if let Some(found) = lines.get_mut(line) {
        *found = edit(found);
    }
    lines.concat()
}

/// Widens the first gap of the first value line until the sheet has this many bytes.
pub fn padded(text: &[u8], bytes: usize) -> Text {
    let missing = bytes.saturating_sub(text.len());
    edit_line(text, 1, |line| replace_first(line, b' ', &vec![b' '; missing + 1]))
}

fn replace_first(line: &[u8], byte: u8, by: &[u8]) -> Text {
    match line.iter().position(|b| *b == byte) {
        Some(at) => [&line[..at], by, &line[at + 1..]].concat(),
        None => line.to_vec(),
    }
}

fn before_line_feed(line: &[u8], extra: &[u8]) -> Text {
    [line.strip_suffix(b"\n").unwrap_or(line), extra, b"\n"].concat()
}

fn last_gap(line: &[u8]) -> usize {
    line.iter().rposition(|b| *b == b' ').unwrap_or(0)
}

/// Bytes next to the digits, the space and the line feed, and others.
const ODD_BYTES: [u8; 16] = [0, 9, 11, 13, 31, 33, 45, 43, 46, 47, 58, 65, 127, 128, 160, 255];

/// One way to change a line.
type Edit = fn(&[u8]) -> Text;

const LINE_EDITS: [Edit; 20] = [
    |line| [b" ", line].concat(),
    |line| before_line_feed(line, b" "),
    |line| replace_first(line, b' ', b"  "),
    |line| replace_first(line, b' ', b"                 "),
    |line| replace_first(line, b' ', b"\t"),
    |line| replace_first(line, b' ', b" \t "),
    |line| before_line_feed(line, b"\r"),
    |_| b"\n".to_vec(),
    |_| b" \n".to_vec(),
    |_| b"\r\n".to_vec(),
    |line| before_line_feed(&line[..last_gap(line)], b""),
    |line| before_line_feed(line, b" 0"),
    |line| [b"000000000", line].concat(),
    |line| [b"0000000000", line].concat(),
    |line| before_line_feed(&line[..last_gap(line)], b" 0000000000"),
    |line| before_line_feed(&line[..last_gap(line)], b" 00000000000"),
    |line| before_line_feed(&line[..last_gap(line)], b" 9999999999"),
    |line| before_line_feed(&line[..last_gap(line)], b" 4294967296"),
    |line| replace_first(line, b' ', b"\n"),
    |line| replace_first(line, b'\n', b" "),
];

/// Damages of the names line, and of a sheet's beginning.
fn damaged_names(base: &[u8]) -> Vec<Text> {
    let names = lines(base)[0].clone();
    let bare = names[..names.len() - 1].to_vec();
    let with_first = |edit: &dyn Fn(&[u8]) -> Text| edit_line(base, 0, edit);
    vec![
        vec![],
        b"\n".to_vec(),
        bare.clone(),
        names.clone(),
        bare[..bare.len() - 1].to_vec(),
        [&bare[..], b" "].concat(),
        [&bare[..], b"\r\n"].concat(),
        [&names[..], b"\n"].concat(),
        with_first(&|line| [b" ", line].concat()),
        with_first(&|line| before_line_feed(line, b" ")),
        with_first(&|line| before_line_feed(line, b"\r")),
        with_first(&|line| replace_first(line, b' ', b"  ")),
        with_first(&|line| replace_first(line, b' ', b"\t")),
        with_first(&|line| line.to_ascii_uppercase()),
        with_first(&|line| line[1..].to_vec()),
        with_first(&|line| before_line_feed(&line[..line.len() - 2], b"")),
        with_first(&|_| vec![]),
        with_first(&|line| [b"\n", line].concat()),
        with_first(&|line| [line, line].concat()),
        with_first(&|line| line[..line.len() - 1].to_vec()),
        with_first(&|line| before_line_feed(line, b" x")),
        [&[0xef, 0xbb, 0xbf], base].concat(),
    ]
}

/// Damages of a sheet's end.
fn damaged_end(base: &[u8]) -> Vec<Text> {
    let mut damaged = vec![base[..base.len() - 1].to_vec()];
    for after in [&b"\n"[..], b"\n\n", b" ", b"\t", b"\r", b"\0", b"0", b"x", b" \n", b"\r\n"] {
        damaged.push([base, after].concat());
    }
    damaged.push([base, &lines(base)[1][..lines(base)[1].len() - 1]].concat());
    damaged
}

/// The edits of single lines, each at a line of its own as far as there are enough.
fn damaged_lines(base: &[u8]) -> Vec<Text> {
    let values = lines(base).len() - 1;
    let at = |index: usize| 1 + index % values;
    let edited = LINE_EDITS.iter().enumerate().map(|(i, edit)| edit_line(base, at(i), edit));
    let odd = ODD_BYTES.iter().enumerate().map(|(i, odd)| {
        let put = |line: &[u8]| match i % 3 {
            0 => [&[*odd], line].concat(),
            1 => replace_first(line, b' ', &[*odd]),
            _ => before_line_feed(line, &[*odd]),
        };
        edit_line(base, at(i), put)
    });
    edited.chain(odd).collect()
}

/// The sheet at and beyond its greatest length, alone and with a wrong names line.
fn damaged_length(base: &[u8]) -> Vec<Text> {
    let wrong_names = |text: Text| edit_line(&text, 0, |line| line.to_ascii_uppercase());
    vec![
        padded(base, LONGEST),
        padded(base, LONGEST + 1),
        wrong_names(padded(base, LONGEST)),
        wrong_names(padded(base, LONGEST + 1)),
    ]
}

/// All damages of a sheet with at least one value line.
pub fn damaged(base: &[u8]) -> Vec<Text> {
    let mut all = damaged_names(base);
    all.extend(damaged_end(base));
    all.extend(damaged_lines(base));
    all.extend(damaged_length(base));
    all
}

/// A sheet of `most` lines and one beyond, alone and with faults for the order of refusals.
pub fn crowded(names: &str, line: &str, most: usize) -> Vec<Text> {
    let head = format!("{names}\n").into_bytes();
    let full = [head, format!("{line}\n").repeat(most).into_bytes()].concat();
    let beyond = |extra: &str| [&full[..], extra.as_bytes()].concat();
    let over = beyond(&format!("{line}\n"));
    vec![
        full.clone(),
        over.clone(),
        beyond(line),
        beyond("x\n"),
        beyond("\n"),
        beyond(" "),
        beyond("99999 0 0 0 0 0\n"),
        beyond(&format!("{line}\n{line}\n")),
        edit_line(&over, most, |_| b"x\n".to_vec()),
        edit_line(&over, 1, |text| replace_first(text, b' ', b" 99999 ")),
        edit_line(&over, most / 2, |text| [&b"9999"[..], text].concat()),
        edit_line(&full, most, |text| text[..text.len() - 1].to_vec()),
    ]
}

/// Puts a random value, often at a border, into a random field of a random value line.
fn change_value(rng: &mut Rng, text: &[u8]) -> Text {
    const BORDERS: [&str; 29] = [
        "0", "1", "2", "3", "4", "7", "8", "9", "15", "16", "31", "32", "63", "64", "255", "256",
        "65535", "65536", "99999", "00000", "000000", "5", "4294967295", "4294967296", "4294967297",
        "9999999999", "0000000000", "00000000000", "10000000000",
    ];
    let value = rng.pick(&BORDERS);
    let field = rng.below(6) as usize;
    let line = random_line(rng, text);
    edit_line(text, line, |line| {
        let words = line.strip_suffix(b"\n").unwrap_or(line).split(|b| *b == b' ');
        let mut words: Vec<&[u8]> = words.filter(|word| !word.is_empty()).collect();
        let place = field % words.len().max(1);
        if place < words.len() {
            words[place] = value.as_bytes();
        }
        [&words.join(&b' ')[..], b"\n"].concat()
    })
}

fn random_line(rng: &mut Rng, text: &[u8]) -> usize {
    let values = lines(text).len().saturating_sub(1).max(1);
    rng.between(1, values as u64) as usize
}

fn drop_line(rng: &mut Rng, text: &[u8]) -> Text {
    let line = random_line(rng, text);
    edit_line(text, line, |_| vec![])
}

fn repeat_line(rng: &mut Rng, text: &[u8]) -> Text {
    let line = random_line(rng, text);
    edit_line(text, line, |line| [line, line].concat())
}

/// One random damage, more often of a value than of the form; none of a sheet that has hardly anything left to damage.
pub fn random_damage(rng: &mut Rng, text: &[u8]) -> Text {
    let left = lines(text);
    if left.len() < 2 || left[0].len() < 3 {
        return text.to_vec();
    }
    match rng.below(10) {
        0..=4 => change_value(rng, text),
        5 => drop_line(rng, text),
        6 => repeat_line(rng, text),
        7 | 8 => {
            let (line, edit) = (random_line(rng, text), rng.pick(&LINE_EDITS));
            edit_line(text, line, edit)
        }
        _ => {
            let all = damaged(text);
            let short = all.len() - damaged_length(text).len();
            all[rng.below(short as u64) as usize].clone()
        }
    }
}

/// The same values with other spaces and leading zeros.
pub fn respaced(rng: &mut Rng, text: &[u8]) -> Text {
    let mut lines = lines(text);
    for line in lines.iter_mut().skip(1) {
        let words = line.strip_suffix(b"\n").unwrap_or(line).split(|b| *b == b' ');
        let words: Vec<String> = words.map(|word| widened(rng, word)).collect();
        let mut spaced = String::new();
        for (index, word) in words.iter().enumerate() {
            let gap = if rng.percent(20) { rng.between(2, 5) } else { 1 };
            spaced += &" ".repeat(if index == 0 { 0 } else { gap as usize });
            spaced += word;
        }
        *line = (spaced + "\n").into_bytes();
    }
    lines.concat()
}

fn widened(rng: &mut Rng, word: &[u8]) -> String {
    let word = String::from_utf8_lossy(word);
    let width = if rng.percent(20) { rng.between(1, 5) as usize } else { 1 };
    format!("{word:0>width$}")
}
