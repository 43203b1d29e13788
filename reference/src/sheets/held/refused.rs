//! Sheets that 1 to 8 refuse: each ground alone, against the next one in the order, and at its last good value.

use super::Held;

pub fn all() -> Vec<Held> {
    let mut all = headers();
    all.extend(parties());
    all.extend(lengths());
    all.extend(shares());
    all.extend(rows());
    all.extend(masks());
    all.extend(triples());
    all.extend(limits());
    all
}

/// Field 0, three parties, threshold 1, so many input rows, masks and triples, and a script of END.
fn small(says: &'static str, counts: (u8, u8, u8), shares: &[u32]) -> Held {
    let (inputs, masks, triples) = counts;
    let header = [0, 3, 1, inputs, 0, masks, 0, triples, 0, 1, 0];
    Held::plain(says, &header, &[0], shares)
}

fn headers() -> Vec<Held> {
    let none = |says, header: &[u8]| Held::plain(says, header, &[], &[]);
    vec![
        none("1: no byte", &[]),
        none("1: ten bytes", &[0, 3, 1, 0, 0, 0, 0, 0, 0, 0]),
        none("1 before 2", &[4, 3, 1, 0, 0, 0, 0, 0, 0, 0]),
        none(
            "10: eleven bytes, an empty script",
            &[0, 3, 1, 0, 0, 0, 0, 0, 0, 0, 0],
        ),
        none("2: field 4", &[4, 3, 1, 0, 0, 0, 0, 0, 0, 1, 0, 0]),
        none("2 before 3", &[4, 8, 1, 0, 0, 0, 0, 0, 0, 1, 0, 0]),
        none("2 before 4", &[255, 3, 1, 65, 0, 0, 0, 0, 0, 1, 0, 0]),
    ]
}

/// Each number of parties with its largest threshold, and with one more.
fn parties() -> Vec<Held> {
    let with = |says, n, t| Held::plain(says, &[0, n, t, 0, 0, 0, 0, 0, 0, 1, 0], &[0], &[]);
    let mut all = vec![
        with("3: two parties", 2, 1),
        with("3: two parties, threshold 0", 2, 0),
        with("3: eight parties", 8, 3),
        with("3: threshold 0", 3, 0),
    ];
    for (n, t) in [(3, 1), (4, 1), (5, 2), (6, 2), (7, 3), (7, 1)] {
        all.push(with("2t + 1 is at most n", n, t));
    }
    for (n, t) in [(3, 2), (4, 2), (5, 3), (6, 3), (7, 4)] {
        all.push(with("3: 2t + 1 is more than n", n, t));
    }
    all.push(Held::plain(
        "3 before 4",
        &[0, 8, 3, 65, 0, 0, 0, 0, 0, 1, 0],
        &[0],
        &[],
    ));
    all.push(Held::plain(
        "3 before 4: the threshold",
        &[0, 3, 0, 0, 0, 0, 0, 0, 0, 2, 0],
        &[0],
        &[],
    ));
    all
}

/// The length that the header implies, a byte less and a byte more, and the four counts' second bytes.
fn lengths() -> Vec<Held> {
    let end = |says, header: &[u8]| Held::plain(says, header, &[0], &[]);
    vec![
        end("4: a byte is missing", &[0, 3, 1, 0, 0, 0, 0, 0, 0, 2, 0]),
        end("4: a byte more", &[0, 3, 1, 0, 0, 0, 0, 0, 0, 0, 0]),
        end("4: 256 input rows", &[0, 3, 1, 0, 1, 0, 0, 0, 0, 1, 0]),
        end("4: 256 masks", &[0, 3, 1, 0, 0, 0, 1, 0, 0, 1, 0]),
        end(
            "4: 256 triples are missing",
            &[0, 3, 1, 0, 0, 0, 0, 0, 1, 1, 0],
        ),
        end(
            "4: 256 bytes of script are missing",
            &[0, 3, 1, 0, 0, 0, 0, 0, 0, 1, 1],
        ),
        small(
            "a row, a mask of four rows and a triple of three",
            (1, 1, 1),
            &[0; 24],
        ),
        small("4: a row is missing", (1, 1, 1), &[0; 21]),
        small("4: a row more", (1, 1, 1), &[0; 27]),
        Held::plain(
            "a row is n shares",
            &[0, 4, 1, 1, 0, 0, 0, 1, 0, 1, 0],
            &[0],
            &[0; 16],
        ),
        Held::plain(
            "a mask is 8 rows in field 1",
            &[1, 3, 1, 0, 0, 1, 0, 0, 0, 1, 0],
            &[0],
            &[0; 24],
        ),
        Held::plain(
            "a mask is 16 rows in field 2",
            &[2, 3, 1, 0, 0, 1, 0, 0, 0, 1, 0],
            &[0],
            &[0; 48],
        ),
        Held::plain(
            "a mask is 31 rows in field 3",
            &[3, 3, 1, 0, 0, 1, 0, 0, 0, 1, 0],
            &[0],
            &[0; 93],
        ),
        small("4 before 5", (1, 1, 0), &[13, 13, 13]),
    ]
}

/// The last good share and the first bad one, in inputs, masks and triples.
fn shares() -> Vec<Held> {
    let at = |place: usize, value: u32| {
        let mut shares = vec![0; 24];
        shares[place] = value;
        shares
    };
    let mut seven = vec![250; 7];
    seven[6] = 251;
    vec![
        small("12 is a share in field 0", (1, 0, 0), &[12, 12, 12]),
        small("5: 13 is none", (1, 0, 0), &[13, 13, 13]),
        small("5: the first share of an input row", (1, 1, 1), &at(0, 13)),
        small("5: the last share of an input row", (1, 1, 1), &at(2, 13)),
        small("5: a share of a mask", (1, 1, 1), &at(14, 13)),
        small("5: the last share of a triple", (1, 1, 1), &at(23, 13)),
        small("5: a share is four bytes", (1, 1, 1), &at(1, 1 << 24)),
        Held::plain("5: party 7, field 1", &[1, 7, 3, 1, 0, 0, 0, 0, 0, 1, 0], &[0], &seven),
        Held::plain("250 is a share in field 1", &[1, 7, 3, 1, 0, 0, 0, 0, 0, 1, 0], &[0], &[250; 7]),
        Held::plain("65520 is a share in field 2", &[2, 3, 1, 1, 0, 0, 0, 0, 0, 1, 0], &[0], &[65_520; 3]),
        Held::plain("5: 65521 is none", &[2, 3, 1, 1, 0, 0, 0, 0, 0, 1, 0], &[0], &[65_521; 3]),
        Held::plain("2147483646 is a share in field 3", &[3, 3, 1, 1, 0, 0, 0, 0, 0, 1, 0], &[0], &[2_147_483_646; 3]),
        Held::plain("5: 2147483647 is none", &[3, 3, 1, 1, 0, 0, 0, 0, 0, 1, 0], &[0], &[2_147_483_647; 3]),
        small("5 before 6, over the whole sheet: the first row is no sharing, a share of the second is 13", (2, 0, 0), &[0, 0, 1, 0, 0, 13]),
        small("5 before 6: an input row that is no sharing, the last share of a triple", (1, 0, 1), &[0, 0, 1, 0, 0, 0, 0, 0, 0, 0, 0, 13]),
    ]
}

/// Rows that are no sharing, in inputs, masks and triples, and powers of the party's number.
fn rows() -> Vec<Held> {
    let powers =
        |n: u32, power: u32, p: u32| -> Vec<u32> { (1..=n).map(|j| j.pow(power) % p).collect() };
    let row = |says, field, n: u8, t, power, p| {
        Held::plain(
            says,
            &[field, n, t, 1, 0, 0, 0, 0, 0, 1, 0],
            &[0],
            &powers(n.into(), power, p),
        )
    };
    let at = |place: usize| {
        let mut shares = vec![0; 24];
        shares[place] = 1;
        shares
    };
    vec![
        row("a line, threshold 1", 0, 3, 1, 1, 13),
        row("6: a parabola, threshold 1", 0, 3, 1, 2, 13),
        row("a parabola, threshold 2", 0, 5, 2, 2, 13),
        row("6: a cubic, threshold 2", 1, 5, 2, 3, 251),
        row("a cubic, threshold 3", 1, 7, 3, 3, 251),
        row("6: a fourth power, threshold 3", 1, 7, 3, 4, 251),
        small("6: the first share of an input row", (1, 1, 1), &at(0)),
        small("6: the last share of an input row", (1, 1, 1), &at(2)),
        small("6: a row of a mask", (1, 1, 1), &at(13)),
        small("6: a triple's row a", (1, 1, 1), &at(15)),
        small("6: a triple's row b", (1, 1, 1), &at(20)),
        small("6: a triple's row c", (1, 1, 1), &at(23)),
        small("6 before 7, over the whole sheet: bit 0 of the mask is 2, the triple's row c is no sharing", (0, 1, 1), &[
            2, 2, 2, 0, 0, 0, 0, 0, 0, 0, 0, 0, 0, 0, 0, 0, 0, 0, 0, 0, 1,
        ]),
        small("6 before 8", (0, 0, 2), &[1, 1, 1, 1, 1, 1, 2, 2, 2, 0, 0, 1, 0, 0, 0, 0, 0, 0]),
    ]
}

/// The bits of masks, bit 0 first, as constant rows.
fn mask(bits: &[u32]) -> Vec<u32> {
    bits.iter().flat_map(|&bit| [bit; 3]).collect()
}

fn masks() -> Vec<Held> {
    let one = |says, bits: [u32; 4]| small(says, (0, 1, 0), &mask(&bits));
    let two = |says, bits: [u32; 8]| small(says, (0, 2, 0), &mask(&bits));
    let mut both = mask(&[1, 0, 1, 1]);
    both.extend([1, 1, 1, 1, 1, 1, 2, 2, 2]);
    vec![
        one("a mask of 12, below p", [0, 0, 1, 1]),
        one("7: a mask of 13", [1, 0, 1, 1]),
        one("7: bit 0 is 2", [2, 0, 0, 0]),
        one("7: bit 3 is 12, that is -1", [0, 0, 0, 12]),
        two("7: the second mask", [0, 0, 1, 1, 0, 2, 0, 0]),
        small(
            "7: a bit is a secret, not a share: 1, 3, 5 is a sharing of 12",
            (0, 1, 0),
            &[1, 3, 5, 0, 0, 0, 0, 0, 0, 0, 0, 0],
        ),
        small(
            "0, 12, 11 is a sharing of 1",
            (0, 1, 0),
            &[0, 12, 11, 0, 0, 0, 0, 0, 0, 0, 0, 0],
        ),
        small("7 before 8", (0, 1, 1), &both),
    ]
}

fn triples() -> Vec<Held> {
    let one = |says, [a, b, c]: [u32; 3]| small(says, (0, 0, 1), &[a, a, a, b, b, b, c, c, c]);
    let script = |says, script: &[u8]| {
        let header = [0, 3, 1, 0, 0, 0, 0, 1, 0, script.len() as u8, 0];
        Held::plain(says, &header, script, &[1, 1, 1, 1, 1, 1, 2, 2, 2])
    };
    vec![
        one("2 times 3 is 6", [2, 3, 6]),
        one("8: 2 times 3 is not 5", [2, 3, 5]),
        one("5 times 8 is 1 modulo 13", [5, 8, 1]),
        one("8: 40 is 1 modulo 13, not 2", [5, 8, 2]),
        small(
            "8: the second triple",
            (0, 0, 2),
            &[2, 2, 2, 3, 3, 3, 6, 6, 6, 1, 1, 1, 1, 1, 1, 2, 2, 2],
        ),
        small(
            "8: the secrets 0, 2 and 2, though 1 times 2 is 2 for party 1",
            (0, 0, 1),
            &[1, 2, 3, 2, 2, 2, 2, 2, 2],
        ),
        small(
            "a triple of sharings: 2, 3 and 6",
            (0, 0, 1),
            &[3, 4, 5, 5, 7, 9, 9, 12, 2],
        ),
        script("8 before 9", &[15]),
        script("8 before 10", &[]),
        script("8 before 11", &[1, 64, 0]),
    ]
}

/// Each count at its limit and one over it. A sheet of 512 triples is let through to 5, and a script of 1,024 bytes to 9.
fn limits() -> Vec<Held> {
    let small = |says, counts, shares: usize| small(says, counts, &vec![0; shares]);
    let triples = |says, count: u16, first| {
        let [low, high] = count.to_le_bytes();
        let mut shares = vec![0; 9 * usize::from(count)];
        shares[0] = first;
        Held::plain(says, &[0, 3, 1, 0, 0, 0, 0, low, high, 1, 0], &[0], &shares)
    };
    let script = |says, length: u16| {
        let [low, high] = length.to_le_bytes();
        let mut script = vec![0; usize::from(length)];
        script[0] = 15;
        Held::plain(says, &[0, 3, 1, 0, 0, 0, 0, 0, 0, low, high], &script, &[])
    };
    vec![
        small("64 input rows", (64, 0, 0), 192),
        small("4: 65 input rows", (65, 0, 0), 195),
        small("16 masks", (0, 16, 0), 192),
        small("4: 17 masks", (0, 17, 0), 204),
        triples("5: 512 triples, the first share is 13", 512, 13),
        triples("4: 513 triples", 513, 13),
        script("9: 1,024 bytes of script, the first is 0F", 1024),
        script("4: 1,025 bytes of script", 1025),
    ]
}
