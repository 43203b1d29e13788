//! The lists of examples/lists.

pub const NAMES: [&str; 2] = ["three-calls", "refused"];

/// The calls that the example sheet of this name shares, the last not answered. The first name has a
/// comma and quotes in it, the second a line break.
const THREE_CALLS: &str = "\
\"Booth 3, \"\"north\"\" hall\",1036800,1036807,1036986\r
\"Lift\r
car 2\",1040400,1040404,1040532\r
Gate,1044000,,1044030\r
";

/// The second call ends before it is answered.
const REFUSED: &str = "\
Gate,1036800,1036807,1036986\r
Lift,1040400,1040532,1040404\r
";

/// The bytes of the list with this name.
pub fn named(name: &str) -> Option<&'static [u8]> {
    match name {
        "three-calls" => Some(THREE_CALLS.as_bytes()),
        "refused" => Some(REFUSED.as_bytes()),
        _ => None,
    }
}

#[cfg(test)]
mod tests {
    use super::*;
    use crate::calls::case::printed;
    use crate::sheets::examples::CALLS;

    #[test]
    fn every_name_is_printed_as_it_should() {
        let ends = ["179\n128\n0\nend 0 calls 3\n", "179\nend 32 calls 1\n"];
        for (name, end) in NAMES.into_iter().zip(ends) {
            assert_eq!(printed(named(name).expect(name)), end, "{name}");
        }
        assert_eq!(named("nothing"), None);
    }

    #[test]
    fn the_sheet_shares_the_calls_of_the_list() {
        let calls: String = CALLS.iter().map(|call| format!("{call}\n")).collect();
        let list = named("three-calls").expect("the list is there");
        assert!(printed(list).starts_with(&calls));
    }
}
