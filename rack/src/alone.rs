//! A drive among the others and alone: by the theorem of the drives' separation it is given the same orders and images,
//! and delivers the same bytes. What is not the same is told with the first that differs.

use crate::board::Board;
use crate::story::{hex, order_words, Entry, Lane};

/// How a drive that was run alone compares with the whole run.
#[derive(Clone, Debug, PartialEq, Eq)]
pub struct Alone {
    pub drive: u8,
    pub same: bool,
    pub words: String,
    /// What happened when it was alone.
    pub entries: Vec<Entry>,
}

/// An order, and the image of a write.
type Given = ([u8; 6], Vec<u8>);

impl Alone {
    /// Both boards must have kept their orders.
    pub fn of(drive: u8, rack: &Board, alone: &Board, entries: Vec<Entry>) -> Alone {
        let number = usize::from(drive);
        let (orders, delivered) = (&rack.orders_given[number], &rack.bytes_delivered[number]);
        let differences: Vec<String> = [
            other_order(orders, &alone.orders_given[number]),
            other_delivery(delivered, &alone.bytes_delivered[number]),
        ]
        .into_iter()
        .flatten()
        .collect();
        let words = match differences.is_empty() {
            true => {
                let bytes: usize = delivered.iter().map(Vec::len).sum();
                format!("the same {} orders and images, and the same {bytes} bytes delivered", orders.len())
            }
            false => format!("NOT THE SAME: {}", differences.join("; ")),
        };
        Alone { drive, same: differences.is_empty(), words, entries }
    }

    /// Whether an entry stands in the lane of this drive.
    pub fn is_lane(&self, entry: &Entry) -> bool {
        entry.lane == Lane::Drive(self.drive)
    }
}

/// The first of two lists that differs, from 0.
fn first_other<T: PartialEq>(one: &[T], other: &[T]) -> Option<usize> {
    let common = one.len().min(other.len());
    (0..common).find(|at| one[*at] != other[*at]).or((one.len() != other.len()).then_some(common))
}

fn other_order(rack: &[Given], alone: &[Given]) -> Option<String> {
    let at = first_other(rack, alone)?;
    let told = |given: Option<&Given>| match given {
        Some((six, _)) => format!("{} ({})", order_words(*six), hex(six)),
        None => "none".to_string(),
    };
    Some(match (rack.get(at), alone.get(at)) {
        (Some((six, one)), Some((same, other))) if six == same => {
            format!("order {}, {}, has another image: {}", at + 1, order_words(*six), other_bytes(one, other))
        }
        (one, other) => format!("order {} in the rack is {}, alone {}", at + 1, told(one), told(other)),
    })
}

fn other_delivery(rack: &[Vec<u8>], alone: &[Vec<u8>]) -> Option<String> {
    let at = first_other(rack, alone)?;
    let none = Vec::new();
    let (one, other) = (rack.get(at).unwrap_or(&none), alone.get(at).unwrap_or(&none));
    Some(format!("delivery {}: {}", at + 1, other_bytes(one, other)))
}

fn other_bytes(rack: &[u8], alone: &[u8]) -> String {
    if rack.len() != alone.len() {
        return format!("{} bytes in the rack, {} alone", rack.len(), alone.len());
    }
    match first_other(rack, alone) {
        Some(at) => {
            format!("of {} bytes the one at place {at} is {:02X}, alone {:02X}", rack.len(), rack[at], alone[at])
        }
        None => format!("the same {} bytes", rack.len()),
    }
}

#[cfg(test)]
mod tests {
    use super::*;

    #[test]
    fn the_first_that_differs_is_told() {
        let read = ([0x40, 2, 0, 1, 0, 0], Vec::new());
        let write = |byte| ([0x50, 2, 0, 1, 0, 3], vec![0x80, 1, 5, byte]);
        let skip = ([0x21, 2, 0, 1, 0, 0x21], Vec::new());
        let told = |one: &[Given], other: &[Given]| other_order(one, other).unwrap_or_default();
        assert_eq!(told(&[read.clone(), write(6)], &[read.clone(), write(6)]), "");
        assert_eq!(
            told(&[read.clone(), write(6), skip.clone()], &[read.clone(), write(7)]),
            "order 2, write, track 0, GCR, has another image: of 4 bytes the one at place 3 is 06, alone 07"
        );
        assert_eq!(
            told(&[skip.clone()], &[read.clone(), skip.clone()]),
            "order 1 in the rack is skip reverse, track 0, GCR (210200010021), alone read, track 0, GCR (400200010000)"
        );
        assert_eq!(
            told(&[read.clone()], &[read.clone(), skip]),
            "order 2 in the rack is none, alone skip reverse, track 0, GCR (210200010021)"
        );
        assert_eq!(
            other_delivery(&[vec![1, 2], vec![3]], &[vec![1, 2], vec![3, 4]]).unwrap(),
            "delivery 2: 1 bytes in the rack, 2 alone"
        );
        assert_eq!(other_delivery(&[vec![1, 2]], &[vec![1, 2]]), None);
    }
}
