//! What both texts are made of: lines one after the other, their fields, the
//! first line's numbers and the lines of the faults. Written from the sentences
//! of the paper and of notes 4 and 8, and nothing else.

use crate::walsh::{refuse, test_argument, Refusal};
use std::ops::RangeInclusive;

/// "text over 16,384 bytes" is refused.
pub const TEXT_LIMIT: usize = 16_384;
/// The highest line: 8 inputs and 48 gates.
pub(crate) const LINE_LIMIT: usize = 56;

#[derive(Clone, Copy, Debug, PartialEq, Eq)]
pub struct StuckLine {
    pub line: usize,
    pub value: bool,
}

/// One to three stuck lines, or "one bridge to a line": two inputs.
#[derive(Clone, Debug, PartialEq, Eq)]
pub enum Fault {
    Stuck(Vec<StuckLine>),
    Bridge { first: usize, second: usize },
}

impl Fault {
    /// The stuck lines; none of a bridge.
    pub fn stuck(&self) -> &[StuckLine] {
        match self {
            Fault::Stuck(lines) => lines,
            Fault::Bridge { .. } => &[],
        }
    }

    /// The bridged inputs.
    pub fn bridge(&self) -> Option<(usize, usize)> {
        match *self {
            Fault::Stuck(_) => None,
            Fault::Bridge { first, second } => Some((first, second)),
        }
    }
}

/// The fault of this number, from 1: none for 0, and 12 where there is no such
/// fault.
pub(crate) fn fault_of(faults: &[Fault], fault: u32) -> Result<Option<&Fault>, Refusal> {
    let fault = fault as usize;
    test_argument(fault <= faults.len())?;
    Ok(fault.checked_sub(1).map(|at| &faults[at]))
}

/// "1 to 4 decimal digits, with no leading zero except in `0` itself".
fn number_in(field: &[u8]) -> Option<usize> {
    let leading_zero = field.len() > 1 && field[0] == b'0';
    let good =
        (1..=4).contains(&field.len()) && !leading_zero && field.iter().all(u8::is_ascii_digit);
    good.then(|| {
        field
            .iter()
            .fold(0, |number, digit| 10 * number + usize::from(digit - b'0'))
    })
}

/// A number, or "written with `-`" its negative: "`-0` is a bad number".
fn signed_number_in(field: &[u8]) -> Option<i32> {
    match field.strip_prefix(b"-") {
        None => number_in(field).map(|number| number as i32),
        Some(size) => match number_in(size)? {
            0 => None,
            size => Some(-(size as i32)),
        },
    }
}

fn is_comma(byte: &u8) -> bool {
    *byte == b','
}

/// One line of the text; its fields are taken from the left. All of them are
/// taken, and 2 given where one is bad, before 3 to 6 and 19 are tested.
pub(crate) struct Line<'a> {
    place: usize,
    fields: std::slice::Split<'a, u8, fn(&u8) -> bool>,
}

impl Line<'_> {
    /// Refuses by `number` at this line unless `good`.
    pub(crate) fn test(&self, number: u32, good: bool) -> Result<(), Refusal> {
        if good {
            Ok(())
        } else {
            refuse(number, self.place)
        }
    }

    pub(crate) fn word(&mut self, word: &str) -> Result<(), Refusal> {
        let field = self.fields.next();
        self.test(2, field == Some(word.as_bytes()))
    }

    /// What `of` finds in the next field; 2 where it finds nothing.
    pub(crate) fn read<T>(&mut self, of: fn(&[u8]) -> Option<T>) -> Result<T, Refusal> {
        match self.fields.next().and_then(of) {
            Some(found) => Ok(found),
            None => refuse(2, self.place),
        }
    }

    pub(crate) fn number(&mut self) -> Result<usize, Refusal> {
        self.read(number_in)
    }

    /// A number that may have a sign.
    pub(crate) fn signed_number(&mut self) -> Result<i32, Refusal> {
        self.read(signed_number_in)
    }

    pub(crate) fn is_over(&self) -> bool {
        self.fields.clone().next().is_none()
    }

    pub(crate) fn end(&self) -> Result<(), Refusal> {
        self.test(2, self.is_over())
    }

    /// The first line: its word and a number in each of the ranges.
    pub(crate) fn sizes<const N: usize>(
        mut self,
        word: &str,
        ranges: [RangeInclusive<usize>; N],
    ) -> Result<[usize; N], Refusal> {
        self.word(word)?;
        let mut sizes = [0; N];
        for size in &mut sizes {
            *size = self.number()?;
        }
        self.end()?;
        for (size, range) in sizes.iter().zip(ranges) {
            self.test(3, range.contains(size))?;
        }
        Ok(sizes)
    }

    /// A fault by the line's word, which chooses its kind.
    fn fault(mut self, inputs: usize, last: usize) -> Result<Fault, Refusal> {
        match self.fields.next() {
            Some(b"fault") => self.stuck_lines(last),
            Some(b"bridge") => self.bridge(inputs),
            _ => refuse(2, self.place),
        }
    }

    /// After the word of `bridge,I,J`: "19 where I or J is above N or they do
    /// not rise".
    fn bridge(mut self, inputs: usize) -> Result<Fault, Refusal> {
        let (first, second) = (self.number()?, self.number()?);
        self.end()?;
        for input in [first, second] {
            self.test(3, (1..=LINE_LIMIT).contains(&input))?;
        }
        self.test(19, first <= inputs && second <= inputs)?;
        self.test(19, first < second)?;
        Ok(Fault::Bridge { first, second })
    }

    /// After the word of `fault,LINE,VALUE`, "with one to three LINE,VALUE
    /// pairs"; lines above `last` are not there.
    fn stuck_lines(mut self, last: usize) -> Result<Fault, Refusal> {
        let mut pairs = Vec::with_capacity(3);
        while !self.is_over() {
            pairs.push((self.number()?, self.number()?));
        }
        self.test(2, (1..=3).contains(&pairs.len()))?;
        for &(line, value) in &pairs {
            self.test(3, (1..=LINE_LIMIT).contains(&line) && value <= 1)?;
        }
        self.test(5, pairs.iter().all(|&(line, _)| line <= last))?;
        self.test(6, pairs.windows(2).all(|two| two[0].0 < two[1].0))?;
        let stuck = pairs.into_iter().map(|(line, value)| StuckLine {
            line,
            value: value == 1,
        });
        Ok(Fault::Stuck(stuck.collect()))
    }
}

/// What is left of the text, and how many lines were taken: "1 first, then line
/// by line".
pub(crate) struct Reader<'a> {
    rest: &'a [u8],
    taken: usize,
}

impl<'a> Reader<'a> {
    pub(crate) fn new(text: &'a [u8]) -> Result<Reader<'a>, Refusal> {
        if text.len() > TEXT_LIMIT {
            return refuse(1, 0);
        }
        Ok(Reader {
            rest: text,
            taken: 0,
        })
    }

    /// The bytes of the next due line; 2 where it is missing or has no line end.
    pub(crate) fn bytes(&mut self) -> Result<&'a [u8], Refusal> {
        self.taken += 1;
        let Some(end) = self.rest.iter().position(|&byte| byte == b'\n') else {
            return self.refuse(2);
        };
        let bytes = &self.rest[..end];
        self.rest = &self.rest[end + 1..];
        Ok(bytes)
    }

    /// The same as fields.
    pub(crate) fn line(&mut self) -> Result<Line<'a>, Refusal> {
        let bytes = self.bytes()?;
        Ok(Line {
            place: self.taken,
            fields: bytes.split(is_comma),
        })
    }

    /// Refuses by `number` at the line that was taken last.
    pub(crate) fn refuse<T>(&self, number: u32) -> Result<T, Refusal> {
        refuse(number, self.taken)
    }

    /// The lines of the faults, the last of a text, which may bridge inputs and
    /// stick lines up to `last`: 7 is due only where every line before it was
    /// good.
    pub(crate) fn faults(
        mut self,
        count: usize,
        inputs: usize,
        last: usize,
    ) -> Result<Vec<Fault>, Refusal> {
        let mut faults = Vec::with_capacity(count);
        for _ in 0..count {
            faults.push(self.line()?.fault(inputs, last)?);
        }
        if !self.rest.is_empty() {
            return refuse(7, self.taken + 1);
        }
        Ok(faults)
    }
}

/// The field call: where in the text the field starts, and its length.
pub fn field(text: &[u8], number: usize) -> (usize, usize) {
    let mut start = 0;
    for (index, part) in text.split(is_comma).enumerate() {
        if index == number {
            return (start, part.len());
        }
        start += part.len() + 1;
    }
    (text.len(), 0)
}

#[cfg(test)]
mod tests {
    use super::*;

    #[test]
    fn numbers_with_and_without_a_sign() {
        for number in 0..=9_999 {
            let [plain, negative] = [number.to_string(), format!("-{number}")];
            assert_eq!(number_in(plain.as_bytes()), Some(number));
            assert_eq!(number_in(negative.as_bytes()), None, "{negative}");
            let size = number as i32;
            assert_eq!(signed_number_in(plain.as_bytes()), Some(size));
            let due = (size != 0).then_some(-size);
            assert_eq!(signed_number_in(negative.as_bytes()), due, "{negative}");
        }
        for bad in [
            "",
            "-",
            "--",
            "--5",
            "-+5",
            "+5",
            "+-5",
            "00",
            "-00",
            "05",
            "-05",
            "10000",
            "-10000",
            " 5",
            "- 5",
            " -5",
            "5-",
            "-5-",
            "5-1",
            "-5 ",
            "-5\r",
            "-5.",
            "-x",
            "\u{2212}5",
            "-0-5",
        ] {
            assert_eq!(number_in(bad.as_bytes()), None, "{bad:?}");
            assert_eq!(signed_number_in(bad.as_bytes()), None, "{bad:?}");
        }
    }

    #[test]
    fn fields_of_a_piece() {
        for (number, due) in [(0, (0, 2)), (1, (3, 0)), (2, (4, 1)), (3, (6, 0))] {
            assert_eq!(field(b"ab,,c,", number), due, "field {number}");
        }
        assert_eq!(field(b"ab,,c,", 4), (6, 0));
        assert_eq!(field(b"ab,,c,", usize::MAX), (6, 0));
        assert_eq!(field(b"ab", 1), (2, 0));
        assert_eq!(field(b"", 0), (0, 0));
        assert_eq!(field(b"", 1), (0, 0));
    }
}
