//! The paper's MUL sheet through the C ABI: how its run would end, the run, and the run once more with a firm's machine down; a secret shared, recovered
//! and summed, numbers encoded and decoded, calls taken from an exchange's list, the sheet cut into the parties' parts and put together again, and one
//! firm's column replayed from its part and the record. Exits with 1 if an answer is wrong.
mod jundrethol;

use std::process::exit;

fn expect(holds: bool, what: &str) {
    if !holds {
        eprintln!("wrong: {what}");
        exit(1);
    }
}

/// The head of the sheet: header and script.
fn make_head() -> Vec<u8> {
    // field 0, n 3, t 1; 2 inputs, 0 masks, 1 triple, a script of 11 bytes
    let mut head = vec![0, 3, 1, 2, 0, 0, 0, 1, 0, 11, 0];
    // LOAD 0, LOAD 1, MUL 2 0 1, REVEAL 2, END
    head.extend([0x01, 0, 0x01, 1, 0x06, 2, 0, 1, 0x0C, 2, 0x00]);
    head
}

/// Its head, two input rows and a triple's three.
fn make_sheet() -> Vec<u8> {
    let mut sheet = make_head();
    for share in [7u32, 9, 11, 7, 11, 2, 2, 3, 4, 5, 8, 11, 7, 12, 4] {
        sheet.extend(share.to_le_bytes());
    }
    sheet
}

/// Three parties: bit 0 is party 1's, bit 1 party 2's, bit 2 party 3's.
const EVERYONE: u8 = 0b111;
const PARTY_1_ABSENT: u8 = 0b110;

fn run_sheet() {
    let sheet = make_sheet();
    let mut record = vec![0; jundrethol::RECORD_LENGTH];
    let mut revealed = vec![0; jundrethol::REVEALED_LENGTH];
    let ran = jundrethol::run(&sheet, EVERYONE, &mut record, &mut revealed);
    let [place, inputs, masks, triples, openings, values] = ran.counts;
    for shares in record.chunks(3).take(openings as usize) {
        println!("opened {} {} {}", shares[0], shares[1], shares[2]);
    }
    for value in revealed.iter().take(values as usize) {
        let signed = jundrethol::decode(0, *value).expect("a revealed value is a field value");
        println!("revealed {value} signed {signed}");
    }
    println!("end {} at {place} inputs {inputs} masks {masks} triples {triples} openings {openings}", ran.number);
    expect(ran.number == 0 && revealed[0] == 2, "5 times 3 is 2 modulo 13");
    expect(ran.registers[14..18] == [7, 12, 4, 0], "register 2 shares the product");
    expect(ran.marks[2] == 1 && ran.marks[3] == 0, "three registers are set");
    let cut = jundrethol::run(&sheet[..sheet.len() - 1], EVERYONE, &mut record, &mut revealed);
    expect(cut.number == 4 && cut.counts == [0; jundrethol::COUNTS_LENGTH] && record[0] == 5, "a cut sheet is refused by 4");
}

/// What a run of the MUL sheet leaves: it opens three rows of three shares and reveals one value.
fn run_with(present: u8) -> (jundrethol::Ran, [u32; 9], u32) {
    let (mut record, mut revealed) = ([0; 9], [0; 1]);
    let ran = jundrethol::run(&make_sheet(), present, &mut record, &mut revealed);
    (ran, record, revealed[0])
}

fn forecast_run() {
    let mut head = make_head();
    let (number, place) = jundrethol::forecast(&head);
    println!("forecast: end {number} at {place}");
    expect((number, place) == (0, 10), "the run comes to END");
    let (ran, ..) = run_with(EVERYONE);
    expect((ran.number, ran.counts[0]) == (number, place), "the run ends as forecast");
    // The same head with no triple.
    head[7] = 0;
    let (number, place) = jundrethol::forecast(&head);
    println!("forecast without the triple: end {number} at {place}");
    expect((number, place) == (24, 4), "MUL takes a triple");
    expect(jundrethol::forecast(&make_sheet()) == (4, 0), "a whole sheet is longer than its head");
}

fn run_with_a_firm_absent() {
    let (all, whole, value) = run_with(EVERYONE);
    let (absent, record, revealed) = run_with(PARTY_1_ABSENT);
    expect((all.number, absent.number) == (0, 0), "two of three parties are enough");
    for (row, all) in record.chunks(3).zip(whole.chunks(3)) {
        println!("party 1 absent: opened {} {} {}, with everyone present {} {} {}", row[0], row[1], row[2], all[0], all[1], all[2]);
    }
    println!("party 1 absent: revealed {revealed}, with everyone present {value}");
    let [_, inputs, masks, triples, openings, _] = absent.counts;
    let same = if absent.counts == all.counts { "the same" } else { "others" };
    println!("party 1 absent: inputs {inputs} masks {masks} triples {triples} openings {openings}, with everyone present {same}");
    expect(absent.counts == all.counts && revealed == value, "values and counts are the same");
    expect(absent.registers == all.registers && absent.marks == all.marks, "the absent party's column is worked too");
    for (i, share) in record.into_iter().enumerate() {
        let expected = if i % 3 == 0 { 13 } else { whole[i] };
        expect(share == expected, "p stands for the absent share, and no other number differs");
    }
    let (sum, whole_sum) = (3 * record[1] + 11 * record[2], 2 * whole[0] + 12 * whole[1]);
    expect(sum % 13 == whole_sum % 13, "3 times share 2 less 2 times share 3 is twice share 1 less share 2");
    let (refused, ..) = run_with(0b100);
    expect(refused.number == 12 && refused.counts == [0; jundrethol::COUNTS_LENGTH], "one of three parties is too few");
    expect(run_with(EVERYONE | 0b1000).0.number == 12, "there is no party 4");
}

fn share_and_recover() {
    let mut shares = [0; 3];
    expect(jundrethol::share(0, 3, 1, 5, &[2], &mut shares) == Ok(()), "5 is shared");
    println!("shares {} {} {}", shares[0], shares[1], shares[2]);
    let mut found = [0; 1];
    let secret = jundrethol::recover(0, 3, 1, &shares, &mut found).expect("the row is a sharing");
    println!("secret {secret} coefficient {}", found[0]);
    expect(secret == 5 && found == [2], "recovery undoes sharing");
    let sum = jundrethol::sum(0, 3, 1, &shares).expect("a row that is recovered has a sum");
    println!("sum {sum} remainder {}", sum % 13);
    expect(sum == 2 * 7 + 12 * 9 && sum % 13 == u64::from(secret), "the sum's remainder is the secret");
    expect(jundrethol::recover(0, 3, 1, &[7, 9, 12], &mut found) == Err(6), "7 9 12 is no sharing");
    expect(jundrethol::sum(0, 3, 1, &[7, 9, 12]) == Err(6), "and has no sum");
}

fn encode_and_decode() {
    let value = jundrethol::encode(0, 3, -4).expect("-4 has 3 bits");
    let number = jundrethol::decode(0, value).expect("a coded number is a field value");
    println!("coded {value} signed {number}");
    expect(value == 9 && number == -4, "reading undoes coding");
    expect(jundrethol::encode(0, 3, 4) == Err(11), "4 has more than 3 bits");
}

/// examples/sheets/three-calls.sheet shares the calls of this list.
const LIST: &[u8] = include_bytes!("../lists/three-calls.csv");

fn import_calls() {
    let mut seconds = [99; 4];
    let (number, calls) = jundrethol::import(LIST, &mut seconds);
    for call in seconds.iter().take(calls as usize) {
        println!("call {call}");
    }
    println!("end {number} calls {calls}");
    expect((number, calls) == (0, 3), "the list has three calls");
    expect(seconds == [179, 128, 0, 99], "a call lasts from its answer to its end");
    // There is room for two of the three; of a line that is cut off nothing is taken.
    expect(jundrethol::import(LIST, &mut seconds[..2]) == (33, 2), "the calls before a refusal stand");
    expect(jundrethol::import(&LIST[..20], &mut seconds) == (31, 0), "a quote is not closed");
}

/// Header and script, and the parties' parts. `cut` leaves them in the column form; `join` takes them from anywhere, so also as the firms sent
/// them back.
struct Pieces<'a> {
    head: &'a [u8],
    parts: Vec<&'a [u8]>,
}

/// Where the pieces of a column form stand. Header and length are not tested: `to_columns` wrote what is cut here. A column form from elsewhere
/// may be cut if `to_sheet` does not refuse it.
fn cut(columns: &[u8]) -> Pieces<'_> {
    let parties = usize::from(columns[1]);
    let script = usize::from(u16::from_le_bytes([columns[9], columns[10]]));
    let (head, shares) = columns.split_at(11 + script);
    let length = shares.len() / parties;
    let parts = (0..parties).map(|i| &shares[i * length..][..length]).collect();
    Pieces { head, parts }
}

/// Header and script, then the parts in order, are the column form again.
fn join(pieces: &Pieces) -> Vec<u8> {
    [pieces.head, &pieces.parts.concat()].concat()
}

fn print_part(party: usize, start: usize, part: &[u8]) {
    let shares = part.chunks_exact(4).map(|share| u32::from_le_bytes([share[0], share[1], share[2], share[3]]));
    let shares: String = shares.map(|share| format!(" {share}")).collect();
    println!("part {party} from {start} bytes {} shares{shares}", part.len());
}

/// An output of which every place has another byte, so that a byte from another place is seen.
fn filled() -> Vec<u8> {
    (100..228).collect()
}

fn cut_and_join() {
    let sheet = make_sheet();
    let mut columns = filled();
    expect(jundrethol::to_columns(&sheet, &mut columns) == Ok(()), "the sheet has a column form");
    expect(columns[sheet.len()..] == filled()[sheet.len()..], "a longer output keeps its tail");
    let pieces = cut(&columns[..sheet.len()]);
    let mut start = pieces.head.len();
    for (i, part) in pieces.parts.iter().enumerate() {
        print_part(i + 1, start, part);
        start += part.len();
    }
    let joined = join(&pieces);
    let mut back = filled();
    expect(jundrethol::to_sheet(&joined, &mut back) == Ok(()), "header, script and parts are a column form");
    // The whole output: the sheet, and past it the bytes from before.
    let expected = [&sheet, &filled()[sheet.len()..]].concat();
    println!("put together {} bytes {}", joined.len(), if back == expected { "same" } else { "other" });
    expect(back == expected, "the sheet is the same again, and the tail is kept");
    let mut short = filled();
    expect(jundrethol::to_sheet(&joined, &mut short[..sheet.len() - 1]) == Err(15), "an output that is too short is refused");
    expect(short == filled(), "a refusal writes nothing");
}

fn replay(party: u32, pieces: &Pieces, record: &[u32]) -> jundrethol::Replayed {
    jundrethol::replay(party, pieces.head, pieces.parts[party as usize - 1], record)
}

/// The script sets registers 0 to 2.
fn print_replay(what: &str, replayed: &jundrethol::Replayed) {
    let [place, inputs, masks, triples, openings, _] = replayed.counts;
    let [first, second, third, ..] = replayed.cells;
    let end = format!("end {} at {place} inputs {inputs} masks {masks} triples {triples} openings {openings}", replayed.number);
    println!("replay by {what}: cells {first} {second} {third} {end}");
}

/// Number, column and counts are those of the run.
fn as_run(party: usize, replayed: &jundrethol::Replayed, ran: &jundrethol::Ran) -> bool {
    let column = ran.registers.chunks(7).map(|row| row[party - 1]);
    replayed.number == ran.number && replayed.cells.into_iter().eq(column) && replayed.counts == ran.counts
}

fn replay_damaged(pieces: &Pieces, whole: [u32; 9]) {
    // Party 3's share of the second opening is 4: 2 3 5 are on no line. MUL is undone.
    let mut record = whole;
    record[5] = 5;
    let replayed = replay(2, pieces, &record);
    print_replay("party 2, a share of party 3 changed", &replayed);
    expect((replayed.number, replayed.counts[0]) == (42, 4), "a changed share is found");
    expect(replayed.cells[1..3] == [11, 0], "what was before MUL stands, and MUL is undone");
    // 1 2 3 are on a line, but party 2 opened 6.
    let mut record = whole;
    record[..3].copy_from_slice(&[1, 2, 3]);
    let replayed = replay(2, pieces, &record);
    print_replay("party 2, a row exchanged", &replayed);
    expect((replayed.number, replayed.counts[0]) == (41, 4), "the own share is compared");
    // REVEAL's opening lacks a number.
    let replayed = replay(2, pieces, &whole[..8]);
    print_replay("party 2, a number cut off", &replayed);
    expect((replayed.number, replayed.counts[0]) == (43, 8), "a short record is found");
    expect(replayed.cells[2] == 12, "MUL stands");
}

fn replay_column() {
    let sheet = make_sheet();
    let mut columns = vec![0; sheet.len()];
    expect(jundrethol::to_columns(&sheet, &mut columns) == Ok(()), "the sheet has a column form");
    let pieces = cut(&columns);
    let (all, whole, _) = run_with(EVERYONE);
    let replayed = replay(2, &pieces, &whole);
    print_replay("party 2", &replayed);
    expect(as_run(2, &replayed, &all), "party 2's column is that of the run");
    let (absent, record, _) = run_with(PARTY_1_ABSENT);
    let replayed = replay(2, &pieces, &record);
    print_replay("party 2, party 1 absent", &replayed);
    expect(as_run(2, &replayed, &absent), "and with party 1 absent");
    let replayed = replay(1, &pieces, &record);
    print_replay("party 1, itself absent", &replayed);
    expect(as_run(1, &replayed, &absent), "an absent own share is not compared");
    replay_damaged(&pieces, whole);
    // A whole sheet is no head, and there is no party 4; of a list that is too short the rest stays.
    let (mut cells, mut counts) = ([99; 2], [99; 3]);
    let number = jundrethol::replay_lent(2, &sheet, pieces.parts[1], &whole, &mut cells[..1], &mut counts[..2]);
    expect(number == 4, "a whole sheet is longer than its head");
    expect(cells == [0, 99] && counts == [0, 0, 99], "what has no place is not written");
    let none = jundrethol::replay(4, pieces.head, pieces.parts[1], &whole);
    expect(none.number == 3 && none.cells == [0; jundrethol::CELLS_LENGTH], "there is no party 4");
}

fn main() {
    forecast_run();
    run_sheet();
    run_with_a_firm_absent();
    share_and_recover();
    encode_and_decode();
    import_calls();
    cut_and_join();
    replay_column();
}
