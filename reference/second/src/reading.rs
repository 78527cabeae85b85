//! The reading and the pair call, written from the sentences of the paper and of
//! note 4, and nothing else, in whole numbers only: the sum over the rows that
//! agree, their count, and the bits of the binary64 that is the one divided by the
//! other. "Readings may be negative"; none is minus zero.

use crate::netlist::{self, Netlist};
use crate::walsh::{test_argument, Refusal};

/// The bits of a binary64's significand, without the leading one.
const SIGNIFICAND: u32 = 52;
/// What is added to its exponent.
const BIAS: u32 = 1_023;

/// "The answer is a case"; a reading is given by its bits.
#[derive(Clone, Copy, Debug, PartialEq, Eq)]
pub enum Reading {
    PlainSyndrome { bits: u64 },
    WeightedSum { bits: u64 },
    Constrained { bits: u64, fixed: u32 },
    Refused(Refusal),
}

/// "the sound reading, the faulty one and sound minus faulty", by their bits.
#[derive(Clone, Copy, Debug, PartialEq, Eq)]
pub struct Pair {
    pub sound: u64,
    pub faulty: u64,
    pub difference: u64,
}

/// The whole sum of the rows that agree, and how many they are.
#[derive(Clone, Copy, Debug, PartialEq, Eq)]
pub struct Whole {
    pub sum: i64,
    pub count: u64,
}

impl Whole {
    pub fn of(rows: &[i32], mask: u32, values: u32) -> Whole {
        let mut whole = Whole { sum: 0, count: 0 };
        for (row, &value) in (0..).zip(rows) {
            let row: u32 = row;
            if row & mask == values {
                whole.sum += i64::from(value);
                whole.count += 1;
            }
        }
        whole
    }

    fn bits(self) -> u64 {
        quotient(self.sum, self.count)
    }
}

/// The bits of sum / count; the count is a power of two, so that it moves the
/// exponent and nothing else.
pub fn quotient(sum: i64, count: u64) -> u64 {
    assert!(count.is_power_of_two(), "{count} is no power of two");
    let size = sum.unsigned_abs();
    if size == 0 {
        return 0;
    }
    let highest = size.ilog2();
    assert!(highest <= SIGNIFICAND, "{sum} is beyond 53 bits");
    let leading = 1 << SIGNIFICAND;
    let significand = (size << (SIGNIFICAND - highest)) - leading;
    let exponent = u64::from(BIAS + highest - count.ilog2());
    u64::from(sum < 0) << 63 | exponent << SIGNIFICAND | significand
}

/// "12 unless the mask is below 2^N and values lie within it".
pub fn test_fixture(netlist: &Netlist, mask: u32, values: u32) -> Result<(), Refusal> {
    test_argument(mask < 1 << netlist.inputs && values & mask == values)
}

/// "12 unless 1 to Q".
pub fn test_fault(netlist: &Netlist, fault: u32) -> Result<(), Refusal> {
    test_argument((1..=netlist.faults.len()).contains(&(fault as usize)))
}

/// The reading call: of the inputs in the mask the values are fixed.
pub fn reading(text: &[u8], mask: u32, values: u32) -> Reading {
    measure(text, mask, values).unwrap_or_else(Reading::Refused)
}

fn measure(text: &[u8], mask: u32, values: u32) -> Result<Reading, Refusal> {
    let netlist = netlist::parse(text)?;
    test_fixture(&netlist, mask, values)?;
    let bits = Whole::of(&netlist.rows(0)?, mask, values).bits();
    // "mask not 0; this case goes first"
    if mask != 0 {
        let fixed = mask.count_ones();
        return Ok(Reading::Constrained { bits, fixed });
    }
    // "M above 1", or "Any weight other than 1"
    let outputs = &netlist.outputs;
    if outputs.len() > 1 || outputs.iter().any(|output| output.weight != 1) {
        return Ok(Reading::WeightedSum { bits });
    }
    Ok(Reading::PlainSyndrome { bits })
}

/// The pair call: the same, sound and under a fault.
pub fn pair(text: &[u8], fault: u32, mask: u32, values: u32) -> Result<Pair, Refusal> {
    let netlist = netlist::parse(text)?;
    test_fixture(&netlist, mask, values)?;
    test_fault(&netlist, fault)?;
    let sound = Whole::of(&netlist.rows(0)?, mask, values);
    let faulty = Whole::of(&netlist.rows(fault)?, mask, values);
    Ok(Pair {
        sound: sound.bits(),
        faulty: faulty.bits(),
        difference: quotient(sound.sum - faulty.sum, sound.count),
    })
}

#[cfg(test)]
mod tests {
    use super::*;
    use crate::bridge_texts::LISTING_WITH_A_BRIDGE;
    use crate::circuits::{with_line, HALF_AND_A_ROW, LISTING, STUCK_INPUTS, TWO_OUTPUTS};
    use crate::lines::TEXT_LIMIT;
    use crate::netlist::CIRCUIT_LIMIT;
    use crate::signed_texts::{every_weight, SUBTRACTED_LISTING};
    use crate::table_texts::{ANOTHER_MARK, SMALL};
    use crate::walsh::refuse;

    fn refused(number: u32, place: usize) -> Reading {
        Reading::Refused(Refusal { number, place })
    }

    #[test]
    fn bits_by_hand() {
        for (sum, count, bits) in [
            (0, 1, 0),
            (0, 256, 0),
            (1, 1, 0x3ff0_0000_0000_0000),
            (-1, 1, 0xbff0_0000_0000_0000),
            (1, 2, 0x3fe0_0000_0000_0000),
            (1, 256, 0x3f70_0000_0000_0000),
            (-1, 256, 0xbf70_0000_0000_0000),
            (129, 256, 0x3fe0_2000_0000_0000),
            (5, 8, 0x3fe4_0000_0000_0000),
            (-3, 4, 0xbfe8_0000_0000_0000),
            (60, 1, 0x404e_0000_0000_0000),
            (15_360, 256, 0x404e_0000_0000_0000),
            (-15_360, 256, 0xc04e_0000_0000_0000),
            ((1 << 53) - 1, 1, 0x433f_ffff_ffff_ffff),
        ] {
            assert_eq!(quotient(sum, count), bits, "{sum} / {count}");
        }
    }

    #[test]
    fn bits_of_every_sum_of_a_circuit() {
        // The machine's own division, which the answers do without.
        for sum in -CIRCUIT_LIMIT..=CIRCUIT_LIMIT {
            for fixed in 0..=8 {
                let count = 256_u64 >> fixed;
                let due = (f64::from(sum) / count as f64).to_bits();
                assert_eq!(quotient(i64::from(sum), count), due, "{sum} / {count}");
            }
        }
    }

    #[test]
    fn rows_that_agree() {
        let rows = [1, 10, 100, 1000];
        for (mask, values, sum, count) in [
            (0, 0, 1111, 4),
            (1, 0, 101, 2),
            (1, 1, 1010, 2),
            (2, 0, 11, 2),
            (2, 2, 1100, 2),
            (3, 0, 1, 1),
            (3, 1, 10, 1),
            (3, 2, 100, 1),
            (3, 3, 1000, 1),
        ] {
            assert_eq!(Whole::of(&rows, mask, values), Whole { sum, count });
        }
    }

    #[test]
    fn half_of_the_rows_and_one() {
        let (half, bits) = (0x3fe0_0000_0000_0000, 0x3fe0_2000_0000_0000);
        let text = HALF_AND_A_ROW.as_bytes();
        assert_eq!(reading(text, 0, 0), Reading::PlainSyndrome { bits });
        let due = Pair {
            sound: bits,
            faulty: half,
            difference: 0x3f70_0000_0000_0000,
        };
        assert_eq!(pair(text, 1, 0, 0), Ok(due));
    }

    #[test]
    fn cases_of_the_answer() {
        let [half, three_quarters, one] = [(1, 2), (3, 4), (1, 1)].map(|(a, b)| quotient(a, b));
        let text = LISTING.as_bytes();
        assert_eq!(reading(text, 0, 0), Reading::PlainSyndrome { bits: half });
        let twice = with_line(LISTING, 6, "output,7,2");
        let two = TWO_OUTPUTS.as_bytes();
        for text in [&twice, two] {
            assert_eq!(reading(text, 0, 0), Reading::WeightedSum { bits: one });
        }
        for (text, mask, values, fixed, bits) in [
            (two, 1, 0, 1, half),
            (two, 3, 1, 2, one),
            (text, 1, 1, 1, three_quarters),
            (text, 7, 3, 3, one),
            (text, 7, 6, 3, 0),
        ] {
            let due = Reading::Constrained { bits, fixed };
            assert_eq!(reading(text, mask, values), due, "mask {mask}");
        }
    }

    #[test]
    fn cases_of_signed_weights() {
        let text = SUBTRACTED_LISTING.as_bytes();
        let bits = 0xbfe0_0000_0000_0000;
        assert_eq!(reading(text, 0, 0), Reading::WeightedSum { bits });
        // Rows 0, 0, 0, -1, -1, -1, 0, -1; a sum of 0 has no sign.
        for (mask, values, fixed, sum, count) in [
            (1, 0, 1, -1, 4),
            (1, 1, 1, -3, 4),
            (6, 4, 2, -2, 2),
            (7, 3, 3, -1, 1),
            (7, 6, 3, 0, 1),
        ] {
            let bits = quotient(sum, count);
            let due = Reading::Constrained { bits, fixed };
            assert_eq!(reading(text, mask, values), due, "mask {mask}");
        }
        for weight in every_weight() {
            let one = format!("circuit,1,0,1,1,1\noutput,1,{weight}\nfault,1,0\n");
            let two = format!("circuit,1,0,2,1,1\noutput,1,{weight}\noutput,1,1\nfault,1,0\n");
            let [bits, with_1] = [weight, weight + 1].map(|sum| quotient(sum.into(), 2));
            let due = match weight {
                1 => Reading::PlainSyndrome { bits },
                _ => Reading::WeightedSum { bits },
            };
            assert_eq!(reading(one.as_bytes(), 0, 0), due, "{weight}");
            let due = Reading::WeightedSum { bits: with_1 };
            assert_eq!(reading(two.as_bytes(), 0, 0), due, "{weight} and 1");
            for (values, sum) in [(0, 0), (1, weight)] {
                let bits = quotient(sum.into(), 1);
                let due = Reading::Constrained { bits, fixed: 1 };
                assert_eq!(reading(one.as_bytes(), 1, values), due, "{weight}");
            }
            let due = Pair {
                sound: bits,
                faulty: 0,
                difference: bits,
            };
            assert_eq!(pair(one.as_bytes(), 1, 0, 0), Ok(due), "{weight}");
        }
    }

    #[test]
    fn pairs_of_x1x2_or_x3() {
        let text = STUCK_INPUTS.as_bytes();
        for (fault, faulty) in [(1, 4), (2, 6), (3, 2), (4, 8)] {
            let due = Pair {
                sound: quotient(5, 8),
                faulty: quotient(faulty, 8),
                difference: quotient(5 - faulty, 8),
            };
            assert_eq!(pair(text, fault, 0, 0), Ok(due), "fault {fault}");
        }
    }

    #[test]
    fn pairs_under_a_bridge() {
        // The rows 0, 0, 0, 1, 1, 1, 0, 1 become 0, 0, 0, 0, 0, 1, 0, 1.
        let text = LISTING_WITH_A_BRIDGE.as_bytes();
        for (mask, values, sound, faulty, count) in [
            (0, 0, 4, 2, 8),
            (1, 0, 1, 0, 4),
            (1, 1, 3, 2, 4),
            (4, 0, 1, 0, 4),
            (5, 1, 1, 0, 2),
            (5, 5, 2, 2, 2),
            (7, 3, 1, 0, 1),
        ] {
            let due = Pair {
                sound: quotient(sound, count),
                faulty: quotient(faulty, count),
                difference: quotient(sound - faulty, count),
            };
            assert_eq!(pair(text, 2, mask, values), Ok(due), "mask {mask}");
        }
        let bits = quotient(4, 8);
        assert_eq!(reading(text, 0, 0), Reading::PlainSyndrome { bits });
        let no_inputs = with_line(LISTING_WITH_A_BRIDGE, 8, "bridge,3,3");
        assert_eq!(reading(&no_inputs, 8, 0), refused(19, 8));
        assert_eq!(pair(&no_inputs, 0, 0, 0), refuse(19, 8));
    }

    #[test]
    fn refusals() {
        let text = LISTING.as_bytes();
        for (mask, values) in [(8, 0), (8, 8), (u32::MAX, 0), (0, 1), (5, 2), (7, 8)] {
            assert_eq!(reading(text, mask, values), refused(12, 0));
            assert_eq!(pair(text, 1, mask, values), refuse(12, 0));
            assert_eq!(reading(b"", mask, values), refused(2, 1));
            assert_eq!(pair(b"", 0, mask, values), refuse(2, 1));
        }
        for fault in [0, 3, 257, u32::MAX] {
            assert_eq!(pair(text, fault, 0, 0), refuse(12, 0));
            assert_eq!(pair(&text[1..], fault, 0, 0), refuse(2, 1));
        }
    }

    #[test]
    fn tables_are_not_read() {
        let long = SMALL.to_string() + &"0".repeat(TEXT_LIMIT);
        for (text, number, place) in [
            (SMALL, 2, 1),
            (ANOTHER_MARK, 2, 1),
            ("table", 2, 1),
            (&long[..TEXT_LIMIT], 2, 1),
            (&long[..TEXT_LIMIT + 1], 1, 0),
        ] {
            let text = text.as_bytes();
            for (fault, mask, values) in [(1, 0, 0), (1, 3, 1), (0, 0, 0), (9, 256, 1)] {
                assert_eq!(reading(text, mask, values), refused(number, place));
                assert_eq!(pair(text, fault, mask, values), refuse(number, place));
            }
        }
    }
}
