//! Amounts in words, mostly of input rows, masks and triples.

use crate::forecast::course::Counts;

/// The name of one of each kind.
const KINDS: [&str; 3] = ["input row", "mask", "triple"];

/// `1 byte`, and else `0 bytes`.
pub fn counted(count: usize, name: &str) -> String {
    match count {
        1 => format!("1 {name}"),
        _ => format!("{count} {name}s"),
    }
}

/// `3 input rows`, `0 masks` and `1 triple`.
pub fn plain(counts: Counts) -> [String; 3] {
    std::array::from_fn(|kind| counted(counts[kind], KINDS[kind]))
}

/// `2 of 3 input rows`, `0 of 0 masks` and `1 of 1 triples`.
pub fn part_of(counts: Counts, given: Counts) -> [String; 3] {
    std::array::from_fn(|kind| format!("{} of {} {}s", counts[kind], given[kind], KINDS[kind]))
}

/// All three kinds.
pub fn listed([inputs, masks, triples]: [String; 3]) -> String {
    format!("{inputs}, {masks} and {triples}")
}

/// The kinds of which at least one is needed.
pub fn needed(needs: Counts) -> String {
    joined(needs, plain(needs))
}

/// How much is left of these kinds.
pub fn left_of(needs: Counts, left: Counts, given: Counts) -> String {
    joined(needs, part_of(left, given))
}

fn joined(needs: Counts, parts: [String; 3]) -> String {
    let of_needed = needs.into_iter().zip(parts).filter(|(count, _)| *count > 0);
    let parts: Vec<String> = of_needed.map(|(_, part)| part).collect();
    parts.join(" and ")
}

#[cfg(test)]
mod tests {
    use super::*;

    #[test]
    fn only_one_is_in_the_singular() {
        let bytes = [0, 1, 2, 21].map(|count| counted(count, "byte"));
        assert_eq!(bytes, ["0 bytes", "1 byte", "2 bytes", "21 bytes"]);
    }

    #[test]
    fn kinds_that_are_not_needed_are_left_out() {
        assert_eq!(needed([1, 0, 0]), "1 input row");
        assert_eq!(needed([0, 1, 26]), "1 mask and 26 triples");
        let left = left_of([0, 1, 26], [9, 0, 1], [9, 1, 27]);
        assert_eq!(left, "0 of 1 masks and 1 of 27 triples");
    }

    #[test]
    fn all_kinds_are_listed() {
        let listed_plain = listed(plain([1, 0, 2]));
        assert_eq!(listed_plain, "1 input row, 0 masks and 2 triples");
        let listed_part = listed(part_of([1, 0, 1], [1, 0, 1]));
        let expected = "1 of 1 input rows, 0 of 0 masks and 1 of 1 triples";
        assert_eq!(listed_part, expected);
    }
}
