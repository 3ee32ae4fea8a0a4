//! Names and bounds: section 1 of the rules.

use std::cmp::Ordering;
use std::fmt;

/// R1.4: the length of a filled name.
pub const DIGITS: usize = 24;

/// R1.1: the smallest digit.
pub const BLANK: u8 = 0x20;

/// A name filled to 24 digits. R1.4: names have the order of these arrays.
pub type Filled = [u8; DIGITS];

/// R1.2 and R1.3: a legal name. A blank may stand anywhere in it but first and last.
pub fn is_legal_name(name: &[u8]) -> bool {
    (1..=DIGITS).contains(&name.len())
        && name.iter().all(|byte| (0x20..=0x7D).contains(byte))
        && name.first() != Some(&BLANK)
        && name.last() != Some(&BLANK)
}

/// R1.4: filled with blanks to 24 digits.
pub fn filled(name: &[u8]) -> Filled {
    let mut digits = [BLANK; DIGITS];
    digits[..name.len()].copy_from_slice(name);
    digits
}

/// The bytes before the filling. A legal name does not end in a blank, so the filling begins behind the last other digit.
pub fn unfilled(digits: &[u8]) -> &[u8] {
    let end = digits.iter().rposition(|digit| *digit != BLANK).map_or(0, |last| last + 1);
    &digits[..end]
}

/// A bound, or a cell's string. The strings of a damaged trie are held here too, so any byte may stand in it.
#[derive(Clone, PartialEq, Eq)]
pub struct Bound(pub Vec<u8>);

impl Bound {
    /// The empty bound: no limit.
    pub fn empty() -> Bound {
        Bound(Vec::new())
    }

    pub fn is_empty(&self) -> bool {
        self.0.is_empty()
    }

    pub fn len(&self) -> usize {
        self.0.len()
    }

    /// R1.5: a bound.
    pub fn is_legal(&self) -> bool {
        self.len() <= DIGITS && self.0.iter().all(|digit| (0x20..=0x7D).contains(digit))
    }

    /// The first `length` digits.
    pub fn beginning(&self, length: usize) -> Bound {
        Bound(self.0[..length].to_vec())
    }

    /// R1.7: continued by a digit greater than every other.
    fn continued(&self, place: usize) -> u16 {
        const ABOVE_ALL_OTHERS: u16 = 0x100;
        self.0.get(place).map_or(ABOVE_ALL_OTHERS, |digit| *digit as u16)
    }
}

/// R1.7: "i " is below "i", and "i" below "o"; the empty bound is above all.
impl Ord for Bound {
    fn cmp(&self, other: &Bound) -> Ordering {
        // Past the longer of the two both are continued by the same digit.
        (0..self.len().max(other.len()))
            .map(|place| self.continued(place).cmp(&other.continued(place)))
            .find(|order| *order != Ordering::Equal)
            .unwrap_or(Ordering::Equal)
    }
}

impl PartialOrd for Bound {
    fn partial_cmp(&self, other: &Bound) -> Option<Ordering> {
        Some(self.cmp(other))
    }
}

impl fmt::Debug for Bound {
    fn fmt(&self, f: &mut fmt::Formatter) -> fmt::Result {
        write!(f, "[{}]", String::from_utf8_lossy(&self.0))
    }
}

/// What the comparison of a name with a bound gives.
#[derive(Clone, Copy, PartialEq, Eq, Debug)]
pub struct Compared {
    /// R1.6: the name is within the bound.
    pub within: bool,
    /// The number of the first digit in which they differ, counted from 0, or the bound's length if they don't.
    pub differs_at: usize,
}

/// R1.6: the first digits of a name, as many as the bound p has, compared with p.
pub fn compared(name: &Filled, p: &Bound) -> Compared {
    let differs_at = (0..p.len()).find(|number| name[*number] != p.0[*number]).unwrap_or(p.len());
    Compared { within: name[..p.len()] <= p.0[..], differs_at }
}

/// R1.6: a name within a bound p.
pub fn is_within(name: &Filled, p: &Bound) -> bool {
    compared(name, p).within
}

/// R1.8: the names in a range.
pub fn is_in_range(name: &Filled, lower: &Bound, upper: &Bound) -> bool {
    is_within(name, upper) && (lower.is_empty() || !is_within(name, lower))
}

/// The bound of a range that a name breaks, as the comparison with it gives: None for a name in the range. It is never both:
/// a name within the lower bound is within the upper, which is above it.
pub fn broken_bound(name: &Filled, lower: &Bound, upper: &Bound) -> Option<Compared> {
    let below = Some(compared(name, lower)).filter(|compared| !lower.is_empty() && compared.within);
    let above = Some(compared(name, upper)).filter(|compared| !compared.within);
    assert!(below.is_none() || above.is_none(), "at most one bound is broken");
    below.or(above)
}

#[cfg(test)]
mod tests {
    use super::*;

    fn bound(digits: &str) -> Bound {
        Bound(digits.as_bytes().to_vec())
    }

    #[test]
    fn lengths_and_bytes_of_names() {
        assert!(is_legal_name(&[b'a'; 24]));
        assert!(!is_legal_name(&[]));
        assert!(!is_legal_name(&[b'a'; 25]));
        assert!(is_legal_name(&[0x21]) && is_legal_name(&[0x7D]));
        assert!(!is_legal_name(&[0x20]) && !is_legal_name(&[0x7E]));
        assert_eq!(unfilled(&filled(b"ab")), b"ab");
        assert_eq!(unfilled(&filled(&[b'x'; 24])), &[b'x'; 24]);
    }

    #[test]
    fn a_blank_is_legal_inside_a_name_alone() {
        for name in [&b"a b"[..], b"a  b", b"GDP real", b"! !", b"} }", b"a b c d"] {
            assert!(is_legal_name(name));
            assert_eq!(unfilled(&filled(name)), name);
        }
        for name in [&b" "[..], b"  ", b" a", b"a ", b" a b", b"a b ", b" a ", &[BLANK; 24]] {
            assert!(!is_legal_name(name));
        }
        let parted = |blanks: usize| [&b"a"[..], &vec![BLANK; blanks], b"b"].concat();
        assert!(is_legal_name(&parted(22)) && !is_legal_name(&parted(23)));
        // A blank at each place of a name of 24 bytes: legal at all but the first and the last.
        for place in 0..DIGITS {
            let mut name = [b'a'; DIGITS];
            name[place] = BLANK;
            assert_eq!(is_legal_name(&name), (1..23).contains(&place));
        }
    }

    #[test]
    fn names_with_blanks_have_the_order_of_their_fillings() {
        let ascending: [&[u8]; 7] = [b"a", b"a  !", b"a  b", b"a !", b"a b", b"a b c", b"a!"];
        assert!(ascending.windows(2).all(|pair| filled(pair[0]) < filled(pair[1])));
        // "a" and "a  b" begin with "a  ", "a b" does not; all of them are within "a ", and "a!" is not.
        assert!(is_within(&filled(b"a"), &bound("a  ")) && is_within(&filled(b"a  b"), &bound("a  ")));
        assert!(!is_within(&filled(b"a b"), &bound("a  ")));
        assert!(is_within(&filled(b"a b c"), &bound("a ")) && !is_within(&filled(b"a!"), &bound("a ")));
    }

    #[test]
    fn i_is_within_i_blank_and_in_is_not() {
        assert!(is_within(&filled(b"i"), &bound("i ")));
        assert!(!is_within(&filled(b"in"), &bound("i ")));
        assert!(is_within(&filled(b"in"), &bound("i")));
        assert!(is_within(&filled(b"}}}"), &Bound::empty()));
    }

    #[test]
    fn the_first_digit_that_differs() {
        let at = |name: &[u8], digits: &str| {
            let compared = compared(&filled(name), &bound(digits));
            (compared.within, compared.differs_at)
        };
        // Equal in as many digits as the bound has: its length.
        assert_eq!(at(b"in", ""), (true, 0));
        assert_eq!(at(b"in", "i"), (true, 1));
        assert_eq!(at(b"i", "i "), (true, 2));
        assert_eq!(at(b"in", "in"), (true, 2));
        assert_eq!(at(b"abcdefghijklmnopqrstuvwx", "abcdefghijklmnopqrstuvwx"), (true, 24));
        // Below and above it: the first digit that differs, though later ones differ too.
        assert_eq!(at(b"h", "i"), (true, 0));
        assert_eq!(at(b"hz", "in"), (true, 0));
        assert_eq!(at(b"ia", "in"), (true, 1));
        assert_eq!(at(b"j", "i"), (false, 0));
        assert_eq!(at(b"in", "i "), (false, 1));
        assert_eq!(at(b"i", "in"), (true, 1));
        assert_eq!(at(b"rate3", "rate2"), (false, 4));
        assert_eq!(at(b"abcdefghijklmnopqrstuvwy", "abcdefghijklmnopqrstuvwx"), (false, 23));
        assert_eq!(at(b"abcdefghijklmnopqrstuvw", "abcdefghijklmnopqrstuvwx"), (true, 23));
    }

    #[test]
    fn the_bound_that_is_broken() {
        let broken = |name: &[u8], lower: &str, upper: &str| {
            let broken = broken_bound(&filled(name), &bound(lower), &bound(upper));
            assert_eq!(broken.is_none(), is_in_range(&filled(name), &bound(lower), &bound(upper)));
            broken.map(|broken| (broken.within, broken.differs_at))
        };
        // Within the lower bound: below it, or equal to all of it. Not within the upper: always different.
        assert_eq!(broken(b"in", "i ", "i"), None);
        assert_eq!(broken(b"i", "i ", "i"), Some((true, 2)));
        assert_eq!(broken(b"h", "i ", "i"), Some((true, 0)));
        assert_eq!(broken(b"of", "i ", "i"), Some((false, 0)));
        assert_eq!(broken(b"rb", "rate2", "ra"), Some((false, 1)));
        assert_eq!(broken(b"rate", "rate2", "ra"), Some((true, 4)));
        assert_eq!(broken(b"rate2x", "rate2", "ra"), Some((true, 5)));
        assert_eq!(broken(b"}", "", ""), None);
        assert_eq!(broken(b"}", "", "}"), None);
        assert_eq!(broken(b"}", "", "|"), Some((false, 0)));
    }

    #[test]
    fn order_of_bounds() {
        let ascending = [" ", "a ", "a!", "a", "i ", "i", "o", "}", ""];
        for (low, left) in ascending.iter().enumerate() {
            for (high, right) in ascending.iter().enumerate() {
                assert_eq!(bound(left).cmp(&bound(right)), low.cmp(&high), "{left:?} {right:?}");
            }
        }
    }
}
