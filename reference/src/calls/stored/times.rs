//! What a time is, in each of the three places.

use super::{good, refused, Told};
use crate::refusal::{NONE, TIME};

/// No times; the last six stand in quotes.
const MALFORMED: [&str; 28] = [
    "00000001",
    "12345678",
    "00000000",
    "99999999",
    "+1",
    "-1",
    " 1",
    "1 ",
    " ",
    "1 2",
    "/",
    ":",
    "1/",
    "1:",
    "/1",
    ":1",
    "123456/",
    "1.5",
    "1e3",
    "0x1",
    "a",
    "1_0",
    "\"1,5\"",
    "\"1,\"",
    "\"1\"\"\"",
    "\"1\r\"",
    "\"1\n\"",
    "\"1\r\n\"",
];

/// Malformed times stand beside 0 and 9999999, with which every time would be in order.
pub fn all() -> Vec<Told> {
    let mut all = read();
    for time in MALFORMED {
        all.extend(refused(
            TIME,
            [
                format!("a,{time},9999999,9999999").as_str(),
                &format!("a,0,{time},9999999"),
                &format!("a,0,0,{time}\r\n"),
            ],
        ));
    }
    all.extend(quoted());
    all.extend(empty());
    all
}

/// Seconds by hand: digits of every count, and leading zeros.
fn read() -> Vec<Told> {
    let mut all = good([
        ("a,0,0,0", &[0]),
        ("a,0,1,9", &[8]),
        ("a,0000000,0000001,0000009", &[8]),
        ("a,01,002,0003", &[1]),
        ("a,9,09,10", &[1]),
        ("a,8,9,010", &[1]),
        ("a,0,0,1234567", &[1_234_567]),
        ("a,9999999,9999999,9999999", &[0]),
        ("a,0,0,9999999", &[9_999_999]),
        ("a,0,,9999999", &[0]),
        ("a,1000000,1000001,9999999", &[8_999_998]),
    ]);
    let ended = [7, 17, 317, 4_317, 54_317, 654_317, 7_654_317];
    all.extend(ended.map(|ended| (format!("a,3,7,{ended}").into(), NONE, vec![ended - 7])));
    all
}

/// Quotes are taken off before a time is looked at.
fn quoted() -> Vec<Told> {
    let mut all = good([
        ("a,\"1\",2,3", &[1]),
        ("a,1,\"2\",3", &[1]),
        ("a,1,2,\"3\"", &[1]),
        ("a,\"0000001\",\"0000002\",\"0000003\"\r\n", &[1]),
        ("a,1,\"\",3", &[0]),
        ("a,\"1\",\"\",\"3\"", &[0]),
    ]);
    all.extend(refused(
        TIME,
        [
            "a,\"1\"\"\",2,3",
            "a,1,\"\"\"\",3",
            "a,1,\"2\"\"\",3",
            "a,1,2,\"\"\"3\"",
            "a,1,2,\"3\"\"3\"",
            "a,\"00000001\",2,3",
            "a,1,\"12345678\",3",
            "a,1,2,\"00000003\"",
            "a,1,\" \",3",
            "a,1,\"\r\n\",3",
            "a,\" 1\",2,3",
        ],
    ));
    all
}

/// Only the time of the answer may be empty.
fn empty() -> Vec<Told> {
    let mut all = good([("a,1,,3", &[0]), ("a,3,,3", &[0])]);
    all.extend(refused(
        TIME,
        [
            "a,,2,3",
            "a,1,2,",
            "a,,,3",
            "a,1,,",
            "a,,2,",
            "a,\"\",2,3",
            "a,1,2,\"\"",
            "a,1,,\"\"\r\n",
            // nothing is not 0
            "a,0,,",
            "a,0,0,",
            "a,0,0,\"\"",
        ],
    ));
    all
}
