//! The trie: its cells and the walk (section 5 of the rules), agreement, rebuilding (6) and growth (8).

use std::collections::BTreeSet;

use super::file::{Bucket, File, Slot};
use super::names::{is_within, Bound, Filled};

/// R5.1: the number of cells.
pub const CELLS: usize = 256;

/// R5.1: where a side leads.
#[derive(Clone, Copy, PartialEq, Eq, Debug)]
pub enum Side {
    Slot(usize),
    Cell(usize),
}

/// R5.1: a cell.
#[derive(Clone, Copy, PartialEq, Eq, Debug)]
pub struct Cell {
    pub digit: u8,
    pub number: usize,
    pub left: Side,
    pub right: Side,
}

/// R5.3: a cell past the count.
pub const PAST_THE_COUNT: Cell = Cell { digit: 0, number: 0, left: Side::Slot(0), right: Side::Slot(0) };

/// R5.1 and R5.2: the cells with their count and first leaf. There are always 256 cells here.
#[derive(Clone, PartialEq, Eq, Debug)]
pub struct Trie {
    pub count: usize,
    pub first_leaf: usize,
    pub cells: Vec<Cell>,
}

impl Trie {
    /// R9.1: a new file's trie, or one with another first leaf.
    pub fn empty(first_leaf: usize) -> Trie {
        Trie { count: 0, first_leaf, cells: vec![PAST_THE_COUNT; CELLS] }
    }

    /// Where a walk begins. R5.1: cell 0 is the root; R5.6: with count 0 the walk ends at the first leaf.
    pub fn root(&self) -> Side {
        if self.count == 0 {
            Side::Slot(self.first_leaf)
        } else {
            Side::Cell(0)
        }
    }

    /// Lets the side at a place lead elsewhere.
    pub fn set(&mut self, place: Place, side: Side) {
        match (place, side) {
            (Place::Root, Side::Slot(slot)) => self.first_leaf = slot,
            // Cell 0 is the root by its number; the first leaf is 0 from then on.
            (Place::Root, Side::Cell(cell)) => {
                assert_eq!(cell, 0);
                self.first_leaf = 0;
            }
            (Place::Left(cell), _) => self.cells[cell].left = side,
            (Place::Right(cell), _) => self.cells[cell].right = side,
        }
    }
}

/// Where a leaf hangs.
#[derive(Clone, Copy, PartialEq, Eq, Debug)]
pub enum Place {
    Root,
    Left(usize),
    Right(usize),
}

/// R5.4: a cell's string.
pub fn string_of(cell: &Cell, path: &Bound) -> Bound {
    let mut string = path.beginning(cell.number);
    string.0.push(cell.digit);
    string
}

/// A leaf, with the path on which the walk arrives at it.
#[derive(Clone, Debug)]
pub struct Leaf {
    pub place: Place,
    pub slot: usize,
    pub path: Bound,
}

/// The walk, by R5.4 to R5.6.
///
/// None is stale, by R11.3 to R11.7.
pub fn walk(trie: &Trie, name: &Filled, slots: usize) -> Option<Leaf> {
    if trie.count > CELLS {
        return None;
    }
    let mut path = Bound::empty();
    let mut place = Place::Root;
    let mut side = trie.root();
    let mut cells_met = 0;
    loop {
        match side {
            Side::Slot(slot) => {
                return (slot < slots).then_some(Leaf { place, slot, path });
            }
            Side::Cell(number) => {
                cells_met += 1;
                if number >= trie.count || cells_met > trie.count {
                    return None;
                }
                let cell = &trie.cells[number];
                if cell.number > path.len() || cell.number > 23 {
                    return None;
                }
                let string = string_of(cell, &path);
                if is_within(name, &string) {
                    path = string;
                    place = Place::Left(number);
                    side = cell.left;
                } else {
                    place = Place::Right(number);
                    side = cell.right;
                }
            }
        }
    }
}

/// A trie from left to right: one leaf, then a string and a leaf for each cell.
pub struct Row {
    pub strings: Vec<Bound>,
    /// The cells' numbers, in the order of their strings.
    pub cells: Vec<usize>,
    pub leaves: Vec<Leaf>,
}

/// The row of a trie, None unless R5.9 and R5.10 hold. A side that leads to a cell at or past the count has no place in
/// such a trie.
pub fn row(trie: &Trie) -> Option<Row> {
    let mut row = Row { strings: Vec::new(), cells: Vec::new(), leaves: Vec::new() };
    let mut reached = vec![false; trie.count];
    lay_out(trie, trie.root(), Place::Root, &Bound::empty(), &mut reached, &mut row)?;
    reached.iter().all(|cell| *cell).then_some(row)
}

fn lay_out(trie: &Trie, side: Side, place: Place, path: &Bound, reached: &mut [bool], row: &mut Row) -> Option<()> {
    match side {
        Side::Slot(slot) => row.leaves.push(Leaf { place, slot, path: path.clone() }),
        Side::Cell(number) => {
            if number >= trie.count || reached[number] {
                return None;
            }
            reached[number] = true;
            let cell = &trie.cells[number];
            if cell.number > path.len() {
                return None;
            }
            let string = string_of(cell, path);
            lay_out(trie, cell.left, Place::Left(number), &string, reached, row)?;
            row.strings.push(string);
            row.cells.push(number);
            lay_out(trie, cell.right, Place::Right(number), path, reached, row)?;
        }
    }
    Some(())
}

/// R5.7: the strings of a file, in ascending order.
pub fn strings(file: &File) -> BTreeSet<Bound> {
    strings_of(file.used().flat_map(|(_, bucket)| [&bucket.lower, &bucket.upper]))
}

/// The same of any bounds. The empty one has no non-empty beginning.
pub fn strings_of<'a>(bounds: impl Iterator<Item = &'a Bound>) -> BTreeSet<Bound> {
    let bounds: BTreeSet<&Bound> = bounds.collect();
    bounds.iter().flat_map(|bound| (1..=bound.len()).map(|length| bound.beginning(length))).collect()
}

/// R5.12: whether a leaf between two strings may lead to a bucket. No string on a side means no limit there.
pub fn fits(bucket: &Bucket, left: Option<&Bound>, right: Option<&Bound>) -> bool {
    let lower_is_not_above = bucket.lower.is_empty() || left.is_some_and(|left| bucket.lower <= *left);
    let upper_is_not_below = bucket.upper.is_empty() || right.is_some_and(|right| bucket.upper >= *right);
    lower_is_not_above && upper_is_not_below
}

/// Whether a trie agrees with a sound file, rule by rule.
pub fn agrees(trie: &Trie, file: &File) -> bool {
    // R5.8, R5.3 and R5.2: the count, what lies past it, and the first leaf.
    if trie.count > CELLS {
        return false;
    }
    if trie.cells[trie.count..].iter().any(|cell| *cell != PAST_THE_COUNT) {
        return false;
    }
    if trie.count > 0 && trie.first_leaf != 0 {
        return false;
    }
    // R5.9 and R5.10, in `row`.
    let Some(row) = row(trie) else { return false };
    // R5.11: the cells' strings are the strings of the file, in ascending order.
    if !row.strings.iter().eq(strings(file).iter()) {
        return false;
    }
    // R5.12: where each leaf leads.
    row.leaves.iter().enumerate().all(|(place, leaf)| {
        let left = place.checked_sub(1).map(|before| &row.strings[before]);
        let right = row.strings.get(place);
        match file.slots.get(leaf.slot) {
            Some(Slot::Used(bucket)) => fits(bucket, left, right),
            _ => false,
        }
    })
}

/// R6.1: rebuild, from the strings in order. None if there are more strings than cells.
pub fn rebuilt(file: &File) -> Option<Trie> {
    let strings: Vec<Bound> = strings(file).into_iter().collect();
    if strings.len() > CELLS {
        return None;
    }
    let mut trie = Trie::empty(0);
    let root = rebuild_run(&strings, None, None, file, &mut trie);
    trie.set(Place::Root, root);
    Some(trie)
}

/// R6.2: the root of a run; R6.3: the runs left and right of it; R6.5: the cells' numbers.
///
/// `left` and `right` are the strings just beside the run. The answer leads to the run's root, or is its only leaf.
fn rebuild_run(run: &[Bound], left: Option<&Bound>, right: Option<&Bound>, file: &File, trie: &mut Trie) -> Side {
    let Some(fewest) = run.iter().map(Bound::len).min() else {
        let (slot, _) = file.used().find(|(_, bucket)| fits(bucket, left, right)).expect("one bucket fits a leaf");
        return Side::Slot(slot);
    };
    let shortest: Vec<usize> = (0..run.len()).filter(|place| run[*place].len() == fewest).collect();
    let middle = shortest[(shortest.len() - 1) / 2];
    let root = &run[middle];
    let cell = trie.count;
    trie.count += 1;
    let left_side = rebuild_run(&run[..middle], left, Some(root), file, trie);
    let right_side = rebuild_run(&run[middle + 1..], Some(root), right, file, trie);
    let digit = root.0[root.len() - 1];
    trie.cells[cell] = Cell { digit, number: root.len() - 1, left: left_side, right: right_side };
    Side::Cell(cell)
}

/// R8.1: what the last store of a split makes of the trie. Bucket A was split by the string s, the new bucket is in
/// slot `new`.
pub fn grow(trie: &mut Trie, s: &Bound, split_key: &Filled, a: usize, new: usize) {
    let before = row(trie).expect("a trie that agrees has a row");
    let mut new_cells = Vec::new();
    // R8.2: where s is a cell's string already, no cell is added.
    if !before.strings.contains(s) {
        // R8.3: walk with the split key to a leaf, whose path is C.
        let leaf = walk(trie, split_key, usize::MAX).expect("a trie that agrees leads every name to a leaf");
        // R8.3: how many first digits s and C share.
        let shared = s.0.iter().zip(&leaf.path.0).take_while(|(of_s, of_c)| of_s == of_c).count();
        // R8.4: a cell for each later digit, the first in the place of the leaf, each further one left of the one
        // before.
        let mut place = leaf.place;
        for number in shared..s.len() {
            let cell = trie.count;
            trie.count += 1;
            trie.cells[cell] = Cell { digit: s.0[number], number, left: Side::Slot(a), right: Side::Slot(new) };
            trie.set(place, Side::Cell(cell));
            new_cells.push(cell);
            place = Place::Left(cell);
        }
    }
    // R8.5: A's leaves above s, and the new cells' right sides, lead to the new slot.
    for leaf in row(trie).expect("a grown trie has a row").leaves {
        if leaf.slot == a && leaf.path > *s {
            trie.set(leaf.place, Side::Slot(new));
        }
    }
    for cell in new_cells {
        trie.cells[cell].right = Side::Slot(new);
    }
}
