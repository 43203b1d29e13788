/* The paper's MUL sheet through the C ABI: how its run would end, the run, and the run once more with a firm's machine down; a secret shared, recovered
 * and summed, numbers encoded and decoded, calls taken from an exchange's list, the sheet cut into the parties' parts and put together again, and one
 * firm's column replayed from its part and the record. Exits with 1 if an answer is wrong. */
#include <inttypes.h>
#include <stdio.h>
#include <stdlib.h>
#include <string.h>

#include "jundrethol.h"

#if JUNDRETHOL_VERSION_MAJOR != 3 || JUNDRETHOL_VERSION_MINOR < 3
#error "written for version 3 of the library, from 3.3 on"
#endif

#define COUNT(list) (sizeof(list) / sizeof((list)[0]))

static void expect(int holds, const char *what)
{
    if (!holds) {
        fprintf(stderr, "wrong: %s\n", what);
        exit(1);
    }
}

/* Shares of four bytes, the lowest first. */
static size_t put_shares(uint8_t *sheet, size_t at, const uint32_t *shares, size_t count)
{
    for (size_t i = 0; i < 4 * count; i++)
        sheet[at + i] = (uint8_t)(shares[i / 4] >> 8 * (i % 4));
    return at + 4 * count;
}

/* The head of the sheet: header and script. */
static const uint8_t head[] = {
    0, 3, 1, 2, 0, 0, 0, 1, 0, 11, 0,              /* field 0, n 3, t 1; 2 inputs, 0 masks, 1 triple, a script of 11 bytes */
    0x01, 0, 0x01, 1, 0x06, 2, 0, 1, 0x0C, 2, 0x00 /* LOAD 0, LOAD 1, MUL 2 0 1, REVEAL 2, END */
};

/* Its head, two input rows and a triple's three. */
static size_t make_sheet(uint8_t *sheet)
{
    static const uint32_t rows[] = {7, 9, 11, 7, 11, 2, 2, 3, 4, 5, 8, 11, 7, 12, 4};
    for (size_t i = 0; i < COUNT(head); i++)
        sheet[i] = head[i];
    return put_shares(sheet, COUNT(head), rows, COUNT(rows));
}

static void print_run(const uint32_t *record, const uint32_t *revealed, const uint64_t *counts, uint32_t number)
{
    for (uint64_t i = 0; i < counts[JUNDRETHOL_COUNT_OPENINGS]; i++)
        printf("opened %" PRIu32 " %" PRIu32 " %" PRIu32 "\n", record[3 * i], record[3 * i + 1], record[3 * i + 2]);
    for (uint64_t i = 0; i < counts[JUNDRETHOL_COUNT_REVEALED]; i++) {
        int64_t reading = 0;
        expect(jundrethol_decode(0, revealed[i], &reading) == JUNDRETHOL_DONE, "a revealed value is a field value");
        printf("revealed %" PRIu32 " signed %" PRId64 "\n", revealed[i], reading);
    }
    printf("end %" PRIu32 " at %" PRIu64 " inputs %" PRIu64 " masks %" PRIu64 " triples %" PRIu64 " openings %" PRIu64 "\n", number,
           counts[JUNDRETHOL_COUNT_PLACE], counts[JUNDRETHOL_COUNT_INPUTS], counts[JUNDRETHOL_COUNT_MASKS],
           counts[JUNDRETHOL_COUNT_TRIPLES], counts[JUNDRETHOL_COUNT_OPENINGS]);
}

/* Three parties: bit 0 is party 1's, bit 1 party 2's, bit 2 party 3's. */
#define EVERYONE 0x07
#define PARTY_1_ABSENT 0x06

static void run_sheet(void)
{
    static uint8_t sheet[128];
    static uint32_t record[JUNDRETHOL_RECORD_LENGTH], revealed[JUNDRETHOL_REVEALED_LENGTH], registers[JUNDRETHOL_REGISTERS_LENGTH];
    static uint8_t marks[JUNDRETHOL_MARKS_LENGTH];
    static uint64_t counts[JUNDRETHOL_COUNTS_LENGTH];
    size_t length = make_sheet(sheet);
    uint32_t number = jundrethol_run(sheet, length, EVERYONE, record, COUNT(record), revealed, COUNT(revealed), registers, COUNT(registers), marks,
                                     COUNT(marks), counts, COUNT(counts));
    print_run(record, revealed, counts, number);
    expect(number == JUNDRETHOL_DONE && revealed[0] == 2, "5 times 3 is 2 modulo 13");
    expect(registers[14] == 7 && registers[15] == 12 && registers[16] == 4 && registers[17] == 0, "register 2 shares the product");
    expect(marks[2] == 1 && marks[3] == 0, "three registers are set");
    /* A byte too few is a wrong length; of lists that are too short the rest stays. */
    registers[0] = 99;
    counts[1] = 99;
    number = jundrethol_run(sheet, length - 1, EVERYONE, record, COUNT(record), revealed, COUNT(revealed), registers, 0, marks, 0, counts, 1);
    expect(number == JUNDRETHOL_BAD_LENGTH, "a cut sheet has the wrong length");
    expect(registers[0] == 99 && counts[0] == 0 && counts[1] == 99 && record[0] == 5, "what has no place is not written");
}

/* What a run leaves. The MUL sheet opens three rows of three shares and reveals one value. */
struct ran {
    uint32_t number, record[9], revealed[1], registers[JUNDRETHOL_REGISTERS_LENGTH];
    uint64_t counts[JUNDRETHOL_COUNTS_LENGTH];
};

static void run_with(uint8_t present, struct ran *ran)
{
    static uint8_t sheet[128], marks[JUNDRETHOL_MARKS_LENGTH];
    ran->number = jundrethol_run(sheet, make_sheet(sheet), present, ran->record, COUNT(ran->record), ran->revealed, COUNT(ran->revealed),
                                 ran->registers, COUNT(ran->registers), marks, COUNT(marks), ran->counts, COUNT(ran->counts));
}

static void forecast_run(void)
{
    static uint8_t sheet[128];
    static struct ran ran;
    uint8_t without[COUNT(head)];
    uint64_t place = 99;
    uint32_t number = jundrethol_forecast(&place, head, COUNT(head));
    printf("forecast: end %" PRIu32 " at %" PRIu64 "\n", number, place);
    expect(number == JUNDRETHOL_DONE && place == 10, "the run comes to END");
    run_with(EVERYONE, &ran);
    expect(ran.number == number && ran.counts[JUNDRETHOL_COUNT_PLACE] == place, "the run ends as forecast");
    /* The same head with no triple. */
    memcpy(without, head, COUNT(head));
    without[7] = 0;
    number = jundrethol_forecast(&place, without, COUNT(without));
    printf("forecast without the triple: end %" PRIu32 " at %" PRIu64 "\n", number, place);
    expect(number == JUNDRETHOL_TOO_FEW_TRIPLES && place == 4, "MUL takes a triple");
    expect(jundrethol_forecast(&place, sheet, make_sheet(sheet)) == JUNDRETHOL_BAD_LENGTH && place == 0, "a whole sheet is longer than its head");
}

static void run_with_a_firm_absent(void)
{
    static struct ran all, absent, refused;
    run_with(EVERYONE, &all);
    run_with(PARTY_1_ABSENT, &absent);
    expect(all.number == JUNDRETHOL_DONE && absent.number == JUNDRETHOL_DONE, "two of three parties are enough");
    for (size_t i = 0; i < COUNT(all.record); i += 3)
        printf("party 1 absent: opened %" PRIu32 " %" PRIu32 " %" PRIu32 ", with everyone present %" PRIu32 " %" PRIu32 " %" PRIu32 "\n",
               absent.record[i], absent.record[i + 1], absent.record[i + 2], all.record[i], all.record[i + 1], all.record[i + 2]);
    printf("party 1 absent: revealed %" PRIu32 ", with everyone present %" PRIu32 "\n", absent.revealed[0], all.revealed[0]);
    int same = memcmp(absent.counts, all.counts, sizeof all.counts) == 0;
    printf("party 1 absent: inputs %" PRIu64 " masks %" PRIu64 " triples %" PRIu64 " openings %" PRIu64 ", with everyone present %s\n",
           absent.counts[JUNDRETHOL_COUNT_INPUTS], absent.counts[JUNDRETHOL_COUNT_MASKS], absent.counts[JUNDRETHOL_COUNT_TRIPLES],
           absent.counts[JUNDRETHOL_COUNT_OPENINGS], same ? "the same" : "others");
    expect(same && absent.revealed[0] == all.revealed[0], "values and counts are the same");
    expect(memcmp(absent.registers, all.registers, sizeof all.registers) == 0, "the absent party's column is worked too");
    for (size_t i = 0; i < COUNT(all.record); i++)
        expect(absent.record[i] == (i % 3 == 0 ? 13 : all.record[i]), "p stands for the absent share, and no other number differs");
    expect((3 * absent.record[1] + 11 * absent.record[2]) % 13 == (2 * all.record[0] + 12 * all.record[1]) % 13,
           "3 times share 2 less 2 times share 3 is twice share 1 less share 2");
    run_with(0x04, &refused);
    expect(refused.number == JUNDRETHOL_BAD_PRESENT && refused.counts[JUNDRETHOL_COUNT_OPENINGS] == 0, "one of three parties is too few");
    run_with(EVERYONE | 0x08, &refused);
    expect(refused.number == JUNDRETHOL_BAD_PRESENT, "there is no party 4");
}

static void share_and_recover(void)
{
    const uint32_t coefficients[1] = {2};
    uint32_t shares[3] = {0}, found[1] = {0}, secret = 0;
    uint64_t sum = 0;
    expect(jundrethol_share(0, 3, 1, 5, coefficients, 1, shares, 3) == JUNDRETHOL_DONE, "5 is shared");
    printf("shares %" PRIu32 " %" PRIu32 " %" PRIu32 "\n", shares[0], shares[1], shares[2]);
    expect(jundrethol_recover(0, 3, 1, &secret, shares, 3, found, 1) == JUNDRETHOL_DONE, "the row is a sharing");
    printf("secret %" PRIu32 " coefficient %" PRIu32 "\n", secret, found[0]);
    expect(secret == 5 && found[0] == 2, "recovery undoes sharing");
    expect(jundrethol_sum(0, 3, 1, &sum, shares, 3) == JUNDRETHOL_DONE, "a row that is recovered has a sum");
    printf("sum %" PRIu64 " remainder %" PRIu64 "\n", sum, sum % 13);
    expect(sum == 2 * 7 + 12 * 9 && sum % 13 == secret, "the sum's remainder is the secret");
    shares[2] = 12;
    expect(jundrethol_recover(0, 3, 1, &secret, shares, 3, found, 1) == JUNDRETHOL_NO_SHARING && secret == 0, "7 9 12 is no sharing");
    expect(jundrethol_sum(0, 3, 1, &sum, shares, 3) == JUNDRETHOL_NO_SHARING && sum == 0, "and has no sum");
}

static void encode_and_decode(void)
{
    uint32_t value = 0;
    int64_t number = 0;
    expect(jundrethol_encode(0, 3, -4, &value) == JUNDRETHOL_DONE, "-4 has 3 bits");
    expect(jundrethol_decode(0, value, &number) == JUNDRETHOL_DONE, "a coded number is a field value");
    printf("coded %" PRIu32 " signed %" PRId64 "\n", value, number);
    expect(value == 9 && number == -4, "reading undoes coding");
    expect(jundrethol_encode(0, 3, 4, &value) == JUNDRETHOL_OUT_OF_RANGE && value == 0, "4 has more than 3 bits");
}

/* The text of examples/lists/three-calls.csv; examples/sheets/three-calls.sheet shares its calls. */
static const char list[] =
    "\"Booth 3, \"\"north\"\" hall\",1036800,1036807,1036986\r\n"
    "\"Lift\r\ncar 2\",1040400,1040404,1040532\r\n"
    "Gate,1044000,,1044030\r\n";

static void import_calls(void)
{
    const uint8_t *bytes = (const uint8_t *)list;
    uint32_t seconds[4] = {99, 99, 99, 99}, number;
    uint64_t calls = 0;
    number = jundrethol_import(&calls, bytes, COUNT(list) - 1, seconds, COUNT(seconds));
    for (uint64_t i = 0; i < calls; i++)
        printf("call %" PRIu32 "\n", seconds[i]);
    printf("end %" PRIu32 " calls %" PRIu64 "\n", number, calls);
    expect(number == JUNDRETHOL_DONE && calls == 3 && seconds[3] == 99, "the list has three calls");
    expect(seconds[0] == 179 && seconds[1] == 128 && seconds[2] == 0, "a call lasts from its answer to its end");
    /* There is room for two of the three; of a line that is cut off nothing is taken. */
    seconds[2] = 99;
    number = jundrethol_import(&calls, bytes, COUNT(list) - 1, seconds, 2);
    expect(number == JUNDRETHOL_SECONDS_FULL && calls == 2 && seconds[2] == 99, "the calls before a refusal stand");
    expect(jundrethol_import(&calls, bytes, 20, seconds, COUNT(seconds)) == JUNDRETHOL_BAD_LINE && calls == 0, "a quote is not closed");
}

/* Room for the sheet of make_sheet, and for what is past it. */
#define ROOM 128

/* Every place gets another byte, so that a byte from another place is seen. */
static void fill(uint8_t *output)
{
    for (size_t i = 0; i < ROOM; i++)
        output[i] = (uint8_t)(100 + i);
}

/* The most parties that a sheet can have. */
#define MOST_PARTIES 7

/* Header and script, and the parties' parts, which are equally long. cut points into the column form; join takes them from anywhere, so also as
 * the firms sent them back. */
struct pieces {
    const uint8_t *head, *parts[MOST_PARTIES];
    size_t head_length, parties, part_length;
};

/* Where the pieces of a column form stand. Header and length are not tested: jundrethol_to_columns wrote what is cut here. A column form from
 * elsewhere may be cut if jundrethol_to_sheet does not refuse it. */
static struct pieces cut(const uint8_t *columns, size_t length)
{
    struct pieces pieces = {.head = columns, .parties = columns[1]};
    pieces.head_length = 11 + (columns[9] | (size_t)columns[10] << 8);
    pieces.part_length = (length - pieces.head_length) / pieces.parties;
    for (size_t i = 0; i < pieces.parties; i++)
        pieces.parts[i] = columns + pieces.head_length + i * pieces.part_length;
    return pieces;
}

static size_t joined_length(const struct pieces *pieces)
{
    return pieces->head_length + pieces->parties * pieces->part_length;
}

/* Header and script, then the parts in order, are the column form again. The caller lends joined_length bytes for it. */
static void join(const struct pieces *pieces, uint8_t *columns)
{
    memcpy(columns, pieces->head, pieces->head_length);
    columns += pieces->head_length;
    for (size_t i = 0; i < pieces->parties; i++, columns += pieces->part_length)
        memcpy(columns, pieces->parts[i], pieces->part_length);
}

static void print_part(size_t party, size_t start, const uint8_t *part, size_t length)
{
    printf("part %zu from %zu bytes %zu shares", party, start, length);
    for (size_t i = 0; i < length; i += 4)
        printf(" %" PRIu32, part[i] | (uint32_t)part[i + 1] << 8 | (uint32_t)part[i + 2] << 16 | (uint32_t)part[i + 3] << 24);
    printf("\n");
}

static void cut_and_join(void)
{
    static uint8_t sheet[ROOM], columns[ROOM], joined[ROOM], back[ROOM], before[ROOM], expected[ROOM];
    size_t length = make_sheet(sheet);
    fill(before);
    fill(columns);
    expect(jundrethol_to_columns(sheet, length, columns, ROOM) == JUNDRETHOL_DONE, "the sheet has a column form");
    expect(memcmp(columns + length, before + length, ROOM - length) == 0, "a longer output keeps its tail");
    struct pieces pieces = cut(columns, length);
    for (size_t i = 0; i < pieces.parties; i++)
        print_part(i + 1, (size_t)(pieces.parts[i] - columns), pieces.parts[i], pieces.part_length);
    expect(joined_length(&pieces) == length, "the pieces are the whole column form");
    join(&pieces, joined);
    fill(back);
    expect(jundrethol_to_sheet(joined, length, back, ROOM) == JUNDRETHOL_DONE, "header, script and parts are a column form");
    /* The whole output: the sheet, and past it the bytes from before. */
    fill(expected);
    memcpy(expected, sheet, length);
    int same = memcmp(back, expected, ROOM) == 0;
    printf("put together %zu bytes %s\n", length, same ? "same" : "other");
    expect(same, "the sheet is the same again, and the tail is kept");
    fill(back);
    expect(jundrethol_to_sheet(joined, length, back, length - 1) == JUNDRETHOL_OUTPUT_SHORT, "an output that is too short is refused");
    expect(memcmp(back, before, ROOM) == 0, "a refusal writes nothing");
}

/* What a replay leaves. */
struct replayed {
    uint32_t number, cells[JUNDRETHOL_CELLS_LENGTH];
    uint64_t counts[JUNDRETHOL_COUNTS_LENGTH];
};

static void replay(uint32_t party, const struct pieces *pieces, const uint32_t *record, size_t length, struct replayed *replayed)
{
    replayed->number = jundrethol_replay(party, pieces->head, pieces->head_length, pieces->parts[party - 1], pieces->part_length, record, length,
                                         replayed->cells, COUNT(replayed->cells), replayed->counts, COUNT(replayed->counts));
}

/* The script sets registers 0 to 2. */
static void print_replay(const char *what, const struct replayed *replayed)
{
    printf("replay by %s: cells %" PRIu32 " %" PRIu32 " %" PRIu32 " end %" PRIu32 " at %" PRIu64 " inputs %" PRIu64 " masks %" PRIu64 " triples %" PRIu64
           " openings %" PRIu64 "\n", what, replayed->cells[0], replayed->cells[1], replayed->cells[2], replayed->number,
           replayed->counts[JUNDRETHOL_COUNT_PLACE], replayed->counts[JUNDRETHOL_COUNT_INPUTS], replayed->counts[JUNDRETHOL_COUNT_MASKS],
           replayed->counts[JUNDRETHOL_COUNT_TRIPLES], replayed->counts[JUNDRETHOL_COUNT_OPENINGS]);
}

/* Number, column and counts are those of the run. */
static int as_run(uint32_t party, const struct replayed *replayed, const struct ran *ran)
{
    int same = replayed->number == ran->number && memcmp(replayed->counts, ran->counts, sizeof ran->counts) == 0;
    for (size_t r = 0; r < JUNDRETHOL_CELLS_LENGTH; r++)
        same = same && replayed->cells[r] == ran->registers[7 * r + party - 1];
    return same;
}

static void replay_damaged(const struct pieces *pieces, const struct ran *ran)
{
    static struct replayed replayed;
    uint32_t record[COUNT(ran->record)];
    /* Party 3's share of the second opening is 4: 2 3 5 are on no line. MUL is undone. */
    memcpy(record, ran->record, sizeof record);
    record[5] = 5;
    replay(2, pieces, record, COUNT(record), &replayed);
    print_replay("party 2, a share of party 3 changed", &replayed);
    expect(replayed.number == JUNDRETHOL_BAD_OPENING && replayed.counts[JUNDRETHOL_COUNT_PLACE] == 4, "a changed share is found");
    expect(replayed.cells[1] == 11 && replayed.cells[2] == 0, "what was before MUL stands, and MUL is undone");
    /* 1 2 3 are on a line, but party 2 opened 6. */
    memcpy(record, ran->record, sizeof record);
    record[0] = 1, record[1] = 2, record[2] = 3;
    replay(2, pieces, record, COUNT(record), &replayed);
    print_replay("party 2, a row exchanged", &replayed);
    expect(replayed.number == JUNDRETHOL_OWN_SHARE_DIFFERS && replayed.counts[JUNDRETHOL_COUNT_PLACE] == 4, "the own share is compared");
    /* REVEAL's opening lacks a number. */
    replay(2, pieces, ran->record, COUNT(ran->record) - 1, &replayed);
    print_replay("party 2, a number cut off", &replayed);
    expect(replayed.number == JUNDRETHOL_RECORD_SHORT && replayed.counts[JUNDRETHOL_COUNT_PLACE] == 8, "a short record is found");
    expect(replayed.cells[2] == 12, "MUL stands");
}

static void replay_column(void)
{
    static uint8_t sheet[ROOM], columns[ROOM];
    static struct ran all, absent;
    static struct replayed replayed;
    size_t length = make_sheet(sheet);
    expect(jundrethol_to_columns(sheet, length, columns, ROOM) == JUNDRETHOL_DONE, "the sheet has a column form");
    struct pieces pieces = cut(columns, length);
    run_with(EVERYONE, &all);
    replay(2, &pieces, all.record, COUNT(all.record), &replayed);
    print_replay("party 2", &replayed);
    expect(as_run(2, &replayed, &all), "party 2's column is that of the run");
    run_with(PARTY_1_ABSENT, &absent);
    replay(2, &pieces, absent.record, COUNT(absent.record), &replayed);
    print_replay("party 2, party 1 absent", &replayed);
    expect(as_run(2, &replayed, &absent), "and with party 1 absent");
    replay(1, &pieces, absent.record, COUNT(absent.record), &replayed);
    print_replay("party 1, itself absent", &replayed);
    expect(as_run(1, &replayed, &absent), "an absent own share is not compared");
    replay_damaged(&pieces, &all);
    /* A whole sheet is no head, and there is no party 4; of a list that is too short the rest stays. */
    replayed.cells[1] = 99;
    expect(jundrethol_replay(2, sheet, length, pieces.parts[1], pieces.part_length, all.record, COUNT(all.record), replayed.cells, 1, replayed.counts,
                             COUNT(replayed.counts)) == JUNDRETHOL_BAD_LENGTH, "a whole sheet is longer than its head");
    expect(replayed.cells[0] == 0 && replayed.cells[1] == 99 && replayed.counts[JUNDRETHOL_COUNT_INPUTS] == 0, "what has no place is not written");
    expect(jundrethol_replay(4, pieces.head, pieces.head_length, pieces.parts[1], pieces.part_length, all.record, COUNT(all.record), replayed.cells,
                             COUNT(replayed.cells), replayed.counts, COUNT(replayed.counts)) == JUNDRETHOL_BAD_PARTIES, "there is no party 4");
}

int main(void)
{
    forecast_run();
    run_sheet();
    run_with_a_firm_absent();
    share_and_recover();
    encode_and_decode();
    import_calls();
    cut_and_join();
    replay_column();
    return 0;
}
