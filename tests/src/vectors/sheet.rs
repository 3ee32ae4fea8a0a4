//! Writes cases as literal data of antt, one definition for each file, each trie and each list of cases.

use crate::door::number_and_words;
use crate::model::calls::Answer;
use crate::model::file::{File, HEADER};
use crate::model::trie::{Cell, Side, Trie, PAST_THE_COUNT};

/// No line is longer.
const WIDTH: usize = 120;

/// How the written file begins.
const HEAD: &str = "\
-- Cases made by the model in tests/src/model and written by tests/tests/vectors.rs. Do not edit.
use Rattle.std.specs.Prelude.{false, true, List, [], ◌∷◌}
use Rattle.model.specs.declared.Side.TheVariants.{Cell as further, Slot as slot}
use Rattle.model.specs.declared.Trie.{Trie}
use Rattle.vectors.specs.Vectors.{Case, Parts, agrees, arranged, blanks, byte, cell, checks, creates, grows, \
inside, legal, lists, looks_up, ordered, puts, rebuilds, recovers, removes, splits, text, trie, zeros}

";

/// The lists of cases, and the files and tries that they name.
#[derive(Default)]
pub struct Sheet {
    files: Vec<Vec<u8>>,
    tries: Vec<Trie>,
    lists: Vec<(&'static str, Vec<String>)>,
}

impl Sheet {
    /// The name of a file, or of other bytes. The same bytes are written once.
    pub fn file(&mut self, bytes: &[u8]) -> String {
        let place = self.files.iter().position(|file| file == bytes).unwrap_or(self.files.len());
        if place == self.files.len() {
            self.files.push(bytes.to_vec());
        }
        format!("file{place}")
    }

    /// The name of a trie. The same trie is written once.
    pub fn trie(&mut self, trie: &Trie) -> String {
        let place = self.tries.iter().position(|other| other == trie).unwrap_or(self.tries.len());
        if place == self.tries.len() {
            self.tries.push(trie.clone());
        }
        format!("trie{place}")
    }

    /// Adds a case to a list: what kind it is, and its words.
    pub fn case(&mut self, list: &'static str, kind: &str, words: &[String]) {
        let case = format!("{kind} {}", words.join(" "));
        match self.lists.iter_mut().find(|(name, _)| *name == list) {
            Some((_, cases)) => cases.push(case),
            None => self.lists.push((list, vec![case])),
        }
    }

    /// The text of the file.
    pub fn written(&self) -> String {
        let mut text = HEAD.to_string();
        for (place, file) in self.files.iter().enumerate() {
            // The header has a line, and so has each slot.
            let length = File::read(file).map_or(file.len(), |read| read.header.slot_length()).max(1);
            let (header, slots) = file.split_at(HEADER.min(file.len()));
            let chunks = [header].into_iter().chain(slots.chunks(length)).filter(|chunk| !chunk.is_empty());
            let chunks: Vec<String> = chunks.map(|chunk| parts(chunk).join(" ∷ ")).collect();
            text += &definition(&format!("file{place}"), "Parts", "", &chunks, "");
        }
        for (place, trie) in self.tries.iter().enumerate() {
            let cells: Vec<String> = trie.cells[..written_cells(trie)].iter().map(cell).collect();
            let before = format!("trie {} {} (", trie.count, trie.first_leaf);
            let cells = if cells.is_empty() { vec![] } else { vec![cells.join(" ∷ ")] };
            text += &definition(&format!("trie{place}"), "Trie", &before, &cells, ")");
        }
        for (name, cases) in &self.lists {
            text += &definition(name, "List Case", "", cases, "");
        }
        text.trim_end().to_string() + "\n"
    }
}

/// How many cells of a trie are written: what lies behind them is zero.
pub fn written_cells(trie: &Trie) -> usize {
    trie.cells.iter().rposition(|cell| *cell != PAST_THE_COUNT).map_or(0, |last| last + 1)
}

/// A definition of a list. Each thing begins a line, and goes on in a further one where it is too long.
fn definition(name: &str, type_of: &str, before: &str, things: &[String], after: &str) -> String {
    let mut text = format!("abbrev pub {name} : {type_of}\n{name} =\n");
    let mut things: Vec<String> = things.to_vec();
    match things.last_mut() {
        Some(last) => *last += " ∷ []",
        None => things.push("[]".to_string()),
    }
    for thing in format!("{before}{}{after}", things.join("\n∷ ")).lines() {
        let mut line = String::new();
        for piece in pieces(thing) {
            if !line.is_empty() && 5 + line.chars().count() + piece.chars().count() > WIDTH {
                text += &format!("    {line}\n");
                line.clear();
            }
            line += if line.is_empty() { "" } else { " " };
            line += &piece;
        }
        text += &format!("    {line}\n");
    }
    text + "\n"
}

/// The pieces of a line between which it may be broken: each begins with `∷` or a parenthesis. A pair is one piece, because the
/// layout has a broken pair on lines of its own.
fn pieces(line: &str) -> Vec<String> {
    let opens_pair = |word: &str| word.starts_with('(') && word.ends_with(',');
    let in_pair = |piece: &str| piece.split(' ').next().is_some_and(opens_pair) && !piece.contains(')');
    let mut pieces: Vec<String> = Vec::new();
    for word in line.split(' ') {
        match pieces.last_mut() {
            Some(piece) if in_pair(piece) || word != "∷" && !word.starts_with('(') => *piece += &format!(" {word}"),
            _ => pieces.push(word.to_string()),
        }
    }
    pieces
}

/// Bytes in parts: texts, zeros, blanks, single bytes.
fn parts(bytes: &[u8]) -> Vec<String> {
    let is_text = |byte: &u8| (0x21..=0x7D).contains(byte) && !b"\"\\".contains(byte);
    let mut parts = Vec::new();
    let mut rest = bytes;
    while let Some(first) = rest.first() {
        let same = rest.iter().take_while(|byte| *byte == first).count();
        let text = rest.iter().take_while(|byte| is_text(byte)).count();
        let (length, part) = match first {
            0x00 if same > 1 => (same, format!("zeros {same}")),
            0x20 if same > 1 => (same, format!("blanks {same}")),
            _ if text > 0 => (text, format!("text \"{}\"", String::from_utf8_lossy(&rest[..text]))),
            _ => (1, format!("byte {first:#04X}")),
        };
        parts.push(part);
        rest = &rest[length..];
    }
    parts
}

/// Things as a list, in parentheses.
pub fn list(things: &[String]) -> String {
    match things.is_empty() {
        true => "[]".to_string(),
        false => format!("({} ∷ [])", things.join(" ∷ ")),
    }
}

/// A name, or a bound.
pub fn bytes(bytes: &[u8]) -> String {
    list(&parts(bytes))
}

pub fn truth(is: bool) -> String {
    is.to_string()
}

/// The answer's number and values.
pub fn said(answer: Answer) -> String {
    let (number, words) = number_and_words(answer);
    let words: String = words.iter().map(|word| format!("{word} ∷ ")).collect();
    format!("({number}, {words}[])")
}

fn side(side: Side) -> String {
    match side {
        Side::Slot(slot) => format!("(slot {slot})"),
        Side::Cell(cell) => format!("(further {cell})"),
    }
}

fn cell(cell: &Cell) -> String {
    format!("cell {:#04X} {} {} {}", cell.digit, cell.number, side(cell.left), side(cell.right))
}
