//! What turning an input leaves, and where two turns differ.

use super::{difference, list_difference};
use crate::columns::Way;

/// What turning an input answers, and the output that it writes to.
#[derive(Clone, Debug, PartialEq)]
pub struct Turned {
    pub number: u32,
    pub output: Vec<u8>,
}

impl Turned {
    /// Before: a number that is never answered, and bytes each of which is another than those near it.
    pub fn before(lent: usize) -> Turned {
        let output = (0..lent).map(|place| (165 + 89 * place) as u8).collect();
        let number = u32::MAX;
        Turned { number, output }
    }

    /// Turns the input by the reference.
    pub fn by_reference(&mut self, way: Way, input: &[u8]) {
        self.number = way.turn(input, &mut self.output);
    }

    /// Where the library's turn differs first from this one, the reference's.
    pub fn difference(&self, library: &Turned) -> Option<String> {
        difference("number", self.number, library.number)
            .or_else(|| list_difference("output", &self.output, &library.output))
    }
}

#[cfg(test)]
mod tests {
    use super::*;

    #[test]
    fn every_change_of_a_turn_is_a_difference() {
        let mut turned = Turned::before(14);
        let tail = turned.output[12..].to_vec();
        turned.by_reference(Way::ToColumns, &[0, 3, 1, 0, 0, 0, 0, 0, 0, 1, 0, 255]);
        assert_eq!((turned.number, turned.output[11]), (0, 255));
        assert_eq!(turned.output[12..], tail);
        assert_eq!(turned.difference(&turned.clone()), None);
        let seen = |change: &dyn Fn(&mut Turned)| {
            let mut other = turned.clone();
            change(&mut other);
            turned.difference(&other).expect("a difference")
        };
        let number = seen(&|other| other.number = 15);
        assert_eq!(number, "number: reference 0, library 15");
        let script = seen(&|other| other.output[11] = 9);
        assert_eq!(script, "output[11]: reference 255, library 9");
        for place in 0..14 {
            seen(&|other| other.output[place] ^= 1);
        }
    }
}
