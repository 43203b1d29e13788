/* Jundrethol: Shamir shares, scripts that work on them, forecasts of whether a script would come to its end, replays of one party's column from
 * its own shares and the record of a run, calls from an exchange's list, and sheets turned so that each party's shares stand together, for C on
 * Linux on x86-64 processors of level v2.
 *
 * Link target/staticlib/libjundrethol.a, which `bash programs/build jundrethol` writes. Each function is proved to give exactly the answer that its
 * contract in crates/jundrethol/src/lib.rt fixes, to end, and not to fault, whatever the numbers, the bytes and the lengths are. Nothing is
 * allocated, and nothing is kept for the next call, so several threads may call at once.
 *
 * Values, not time: what is promised is about the values that are opened, returned and written. How long a call takes and what it leaves in
 * caches may depend on shares and secrets, and the stack that it used is not wiped: they are not kept from one who measures or reads these.
 *
 * A list is a pointer and the number of its elements (not of its bytes). What the proof assumes of a caller is what C cannot check:
 *   - a pointer is never null, also where the length is 0, and is aligned for its type;
 *   - the list has as many elements as the length says, and each has been given a value;
 *   - lists and numbers that a function writes overlap with nothing else that is handed to the same call.
 *
 * What the archive asks of a program that links it was measured, see docs/LINKING.md:
 *   - memcpy and memset, and no other symbol;
 *   - JUNDRETHOL_STACK bytes of stack, and for jundrethol_replay JUNDRETHOL_REPLAY_STACK;
 *   - a processor of level x86-64-v2, with SSE4.2 and POPCNT; no function asks whether it is one;
 *   - nothing of where it is placed: it is position independent, for executables and shared objects alike.
 *
 * The fields, by number: 0 is p = 13, 1 is 251, 2 is 65521, 3 is 2147483647; the largest k is 3, 7, 15, 30.
 */
#ifndef JUNDRETHOL_H
#define JUNDRETHOL_H

#include <stddef.h>
#include <stdint.h>

#ifdef __cplusplus
extern "C" {
#endif

/* The version of this header and of the archive that is built beside it. While the first number stays, refusals and places in counts keep their
 * numbers, functions their parameters, and a function call that answers 0, 21 to 26, 31 to 33 or 41 to 43 leaves the same values. A higher
 * second number may add functions, refusals, and counts after the last, and may accept what was refused with 1 to 20, or refuse it with another
 * number or at another place, but for 15: an output that is shorter than the input stays refused. Where the first number grows, the second
 * starts at 0. */
#define JUNDRETHOL_VERSION_MAJOR 3
#define JUNDRETHOL_VERSION_MINOR 3

/* What every function answers: 0, or the first of the others that applies. 12 comes after 3 and before 4, and 41 to 43 are tried from 43 down. */
#define JUNDRETHOL_DONE 0

/* The input is refused, or the output for it, or who is present, and nothing is run, replayed or turned. A forecast answers 1 to 4 and 9 to 11 of
 * these, a replay 1 to 5 and 9 to 11. */
#define JUNDRETHOL_NO_HEADER 1     /* the sheet, the column form or the head has fewer than 11 bytes */
#define JUNDRETHOL_BAD_FIELD 2     /* the field is over 3 */
#define JUNDRETHOL_BAD_PARTIES 3   /* n is not from 3 to 7, t is below 1, or 2t + 1 is over n; the party of a replay is not from 1 to n */
#define JUNDRETHOL_BAD_LENGTH 4    /* a count is over its limit, or a list, the sheet, the column form, the head or the part has the wrong length */
#define JUNDRETHOL_NOT_BELOW_P 5   /* a secret, coefficient, share or field value is not below p */
#define JUNDRETHOL_NO_SHARING 6    /* a row is no sharing */
#define JUNDRETHOL_BAD_MASK 7      /* a mask is not well formed */
#define JUNDRETHOL_BAD_TRIPLE 8    /* a triple is not well formed */
#define JUNDRETHOL_BAD_COMMAND 9   /* a command byte is over 0x0E */
#define JUNDRETHOL_BAD_END 10      /* operands are cut off, END is missing, or bytes follow it */
#define JUNDRETHOL_OUT_OF_RANGE 11 /* an operand, k or a signed number is out of range, or the registers that LTZS reads and writes overlap in part */
#define JUNDRETHOL_BAD_PRESENT 12  /* a bit beyond n is set in present, or fewer than t + 1 parties are present */
#define JUNDRETHOL_OUTPUT_SHORT 15 /* the output is shorter than the input */

/* A command is refused because of the state: those before it stand, and it changes nothing. Of LTZS no sign is then worked. A forecast answers 21
 * to 24 where a run would, and so does a replay. */
#define JUNDRETHOL_UNSET 21           /* a register that is read is unset */
#define JUNDRETHOL_NO_INPUT 22        /* no input row is left */
#define JUNDRETHOL_NO_MASK 23         /* fewer masks are left than the command takes: none, or for LTZS fewer than h */
#define JUNDRETHOL_TOO_FEW_TRIPLES 24 /* fewer triples are left than the command takes */
#define JUNDRETHOL_RECORD_FULL 25     /* the record cannot take all numbers of the command, n for each opening */
#define JUNDRETHOL_REVEALED_FULL 26   /* the revealed list is full */

/* A line of an exchange's list is refused: the calls of the lines before it stand. */
#define JUNDRETHOL_BAD_LINE 31     /* the line breaks RFC 4180, or has not four fields */
#define JUNDRETHOL_BAD_TIME 32     /* a time is malformed, or comes before the one that it must follow */
#define JUNDRETHOL_SECONDS_FULL 33 /* the line is good, and there is no place for its call */

/* A command of a replay is refused because of an opening in the record: those before it stand, and it changes nothing. At each opening 43 is
 * tried first, then 42, then 41. */
#define JUNDRETHOL_OWN_SHARE_DIFFERS 41 /* the party's own share is present, and it is not the one that the party works out */
#define JUNDRETHOL_BAD_OPENING 42       /* a number is above p, fewer than t + 1 shares are present, or those present are on no one polynomial */
#define JUNDRETHOL_RECORD_SHORT 43      /* fewer than n numbers are left in the record */

/* The bytes of the largest sheet, and of the largest column form: a longer one is refused. */
#define JUNDRETHOL_SHEET_LENGTH 59723

/* No run outgrows a record and a revealed list of these lengths. */
#define JUNDRETHOL_RECORD_LENGTH 10850
#define JUNDRETHOL_REVEALED_LENGTH 511

/* The cells of 64 registers, 7 each, and of one party's column, 1 each; the marks; and the counts. */
#define JUNDRETHOL_REGISTERS_LENGTH 448
#define JUNDRETHOL_CELLS_LENGTH 64
#define JUNDRETHOL_MARKS_LENGTH 64
#define JUNDRETHOL_COUNTS_LENGTH 6

/* Where each number stands in counts. */
#define JUNDRETHOL_COUNT_PLACE 0
#define JUNDRETHOL_COUNT_INPUTS 1
#define JUNDRETHOL_COUNT_MASKS 2
#define JUNDRETHOL_COUNT_TRIPLES 3
#define JUNDRETHOL_COUNT_OPENINGS 4
#define JUNDRETHOL_COUNT_REVEALED 5

/* No call of jundrethol_replay, and no call of another function, takes more bytes of stack than these, with its arguments and return address. */
#define JUNDRETHOL_REPLAY_STACK 40960
#define JUNDRETHOL_STACK 24576

/* Runs a sheet.
 *
 * present    says which parties are present: bit j - 1, counted from the lowest, says that party j is. Everyone is (1 << n) - 1 where the sheet's
 *            n is 3 to 7; where a sheet has no such n, the answer is 1, 2 or 3 whatever present is. An opened value is worked from the shares of
 *            the lowest t + 1 present parties. The sheet has the shares of absent parties all the same, and their columns are worked like the
 *            others. The answer, the place, values, registers, marks and counts are the same for every set that 12 does not refuse.
 * record     gets n numbers for each opening, party 1's first, in order: counts[JUNDRETHOL_COUNT_OPENINGS] times n numbers. They are the shares
 *            that are opened; p itself, which is no share, stands for an absent one.
 * revealed   gets the values of the finished REVEALs in order: counts[JUNDRETHOL_COUNT_REVEALED] numbers.
 * registers  gets 448 cells: party j's share in register r is registers[7 * r + j - 1]. Cells past n and those of unset registers are 0.
 * marks      gets 64 bytes: 1 where the register is set, else 0.
 * counts     gets the place; how many inputs, masks and triples were spent and openings made; and how many values were revealed.
 *
 * Past what is written every list is unchanged. The lengths of record and revealed decide 25 and 26, by which the run stops. The other three
 * decide nothing: a list that is too short gets as many numbers as it has places for, so a caller without use for it lends a length of 0.
 *
 * Answers 0, and the place is END's offset in the script. 1 to 12: nothing is run, record and revealed are unchanged, and registers, marks
 * and counts get 0, but for the place in 9 to 11, the offset of what is refused. 21 to 26: what the commands before the refused one left
 * stands, and the place is the refused command's offset.
 */
uint32_t jundrethol_run(
    const uint8_t *sheet, size_t sheet_length, uint8_t present,
    uint32_t *record, size_t record_length,
    uint32_t *revealed, size_t revealed_length,
    uint32_t *registers, size_t registers_length,
    uint8_t *marks, size_t marks_length,
    uint64_t *counts, size_t counts_length);

/* Forecasts from header and script alone how a run would end: whether it would come to END, given large enough buffers.
 *
 * head   is the head of a sheet: header and script, which are the sheet's first 11 + script length bytes, and no byte more. It holds no share.
 * place  gets the place. It is one number, not a list.
 *
 * Number and place are those of jundrethol_run, for every sheet that begins with this head, has the length that the header implies and is not
 * refused with 5 to 8; with everyone present or any other set that 12 does not refuse; and with JUNDRETHOL_RECORD_LENGTH numbers for record
 * and JUNDRETHOL_REVEALED_LENGTH for revealed, or more.
 *
 * Answers 0, and the place is END's offset in the script. 1, 2, 3 or 4, at place 0: 4 says that a count is over its limit, or that head_length
 * is not 11 + script length, so a whole sheet that has a row is 4. 9, 10 or 11, at the offset of what is refused; they are tried over the whole
 * script before 21 to 24. 21, 22, 23 or 24, at the offset of the command that would be refused. It answers no other number. 0 says nothing of a
 * sheet's length and shares, of who is present or of shorter buffers: a run may still answer 4 to 8, 12, 25 or 26.
 */
uint32_t jundrethol_forecast(uint64_t *place, const uint8_t *head, size_t head_length);

/* Replays one party's column of a run: its cells and the counts, from its own shares and the record. It takes no other party's shares but those
 * that were opened.
 *
 * party   is the party's number, from 1 to n.
 * head    is the head of the sheet that was run: header and script, which are the sheet's first 11 + script length bytes, and no byte more.
 * part    is the party's part of the sheet's column form, which jundrethol_to_columns writes: 4 bytes for each row.
 * record  is what jundrethol_run wrote to its record: n numbers for each opening, party 1's first. They are the shares that were opened; p itself
 *         stands for an absent one. An opened value is the value at 0 of the one polynomial of degree at most t through the shares present.
 *         Numbers after the last opening are ignored, so the whole list that was lent to the run may be handed over; of a run that answered
 *         25 or 26 only the n * openings numbers that it wrote, since past these it may have what stood there before.
 * cells   gets 64 cells: the party's share in register r is cells[r]. Those of unset registers are 0.
 * counts  gets the place; how many inputs, masks and triples were spent and openings made; and how many values were revealed, as in
 *         jundrethol_run. The values themselves are not written.
 *
 * The lengths of cells and counts decide nothing: a list that is too short gets as many numbers as it has places for. Past what is written both
 * are unchanged.
 *
 * Of a run that answered 0 or 21 to 24, whoever was present and however long its lists were, the replay of each party answers the same number;
 * cells[r] is the run's registers[7 * r + party - 1], and counts are the run's. Of a run that answered 25 or 26 the replay answers 43, with the
 * same cells and counts.
 *
 * Answers 0, and the place is END's offset in the script. 1, 2, 3, 4 or 5, at place 0: 3 says also that party is not from 1 to n; 4 that a count
 * is over its limit, that head_length is not 11 + script length, or that part_length is not that of a part; 5 that a share of the part is not
 * below p. 9, 10 or 11, at the offset of what is refused. With these cells and counts get 0, but for the place in 9 to 11. 21, 22, 23 or 24 before
 * a command; 43, 42 or 41 at one of its openings, where the party's own share is compared only if it is present. Then what the commands before the
 * refused one left stands, and the place is the refused command's offset. It answers no other number.
 *
 * 0 says that every opening that the script makes stands in the record, is on one polynomial, and has the party's own share or p for it. It says
 * nothing of the other parties' columns beyond what was opened.
 */
uint32_t jundrethol_replay(
    uint32_t party,
    const uint8_t *head, size_t head_length,
    const uint8_t *part, size_t part_length,
    const uint32_t *record, size_t record_length,
    uint32_t *cells, size_t cells_length,
    uint64_t *counts, size_t counts_length);

/* Shares a secret among n parties with t coefficients, the first power's first: share j goes to shares[j - 1]. The lengths are exactly t and
 * n. Answers 0, or a refusal 2, 3, 4 or 5, which writes nothing. */
uint32_t jundrethol_share(
    uint32_t field, uint32_t n, uint32_t t, uint32_t secret,
    const uint32_t *coefficients, size_t coefficients_length,
    uint32_t *shares, size_t shares_length);

/* Recovers secret and coefficients from the n shares of a row. The lengths are exactly n and t. Answers 0, or a refusal 2, 3, 4, 5 or 6,
 * which sets the secret to 0 and leaves the coefficients unchanged. */
uint32_t jundrethol_recover(
    uint32_t field, uint32_t n, uint32_t t, uint32_t *secret,
    const uint32_t *row, size_t row_length,
    uint32_t *coefficients, size_t coefficients_length);

/* The sum before reducing: each of shares 1 to t + 1 of a row times its weight below p, added and not reduced. Its remainder by p is the secret
 * that jundrethol_recover gives on the same row. The weights, party 1's first, are 2 and p - 1 for t = 1; 3, p - 3 and 1 for t = 2; 4, p - 6, 4
 * and p - 1 for t = 3. So at most four products are added, and the sum is at most 9223372026117357570, which fits 64 bits. It says more of the
 * shares than the secret does: show it to nobody who may know the secret only. The row's length is exactly n. Answers 0, or a refusal 2, 3, 4, 5
 * or 6, which sets the sum to 0. */
uint32_t jundrethol_sum(
    uint32_t field, uint32_t n, uint32_t t, uint64_t *sum,
    const uint32_t *row, size_t row_length);

/* A k-bit signed number, from -2^(k-1) to 2^(k-1) - 1, as a value of the field. Answers 0, or a refusal 2 or 11, which sets the
 * value to 0. */
uint32_t jundrethol_encode(uint32_t field, uint32_t k, int64_t number, uint32_t *value);

/* A field value read back as a signed number: itself up to (p - 1)/2, else minus p. Answers 0, or a refusal 2 or 5, which
 * sets the number to 0. */
uint32_t jundrethol_decode(uint32_t field, uint32_t value, int64_t *number);

/* Takes the calls from an exchange's list.
 *
 * list     is comma-separated text as RFC 4180 describes, without a header line. A line is one record of the RFC's grammar, ended by CR LF or
 *          by the list's end: an empty list has no lines, and one CR LF at the end begins none. Its four fields are the name of the telephone
 *          line, and when the call was dialled, answered and ended, in seconds of the quarter. Any field may be quoted. Lines that end with LF
 *          alone, and a tab or a byte above 7E (hexadecimal) anywhere, are 31. A time is one to seven digits once its quotes are taken off.
 *          Answered may be empty, which means that nobody picked up.
 * seconds  gets one number for each call, in order: ended minus answered, or 0 where nobody picked up.
 * calls    gets how many numbers were written to seconds, 0 if none. It is one number, not a list.
 *
 * Past the calls written seconds is unchanged. (list_length + 2) / 7 numbers take the calls of every list of that length, so with so many it
 * never answers 33.
 *
 * Answers 0 when all lines are taken, or 31, 32 or 33. Lines are taken in turn, and the first that is refused decides; the calls of the lines
 * before it stand, and calls counts them. 31: the bytes from there on do not begin with a record that CR LF or the list's end follows, or it
 * has not four fields. 32: a time is malformed, answered comes before dialled, or ended before answered (before dialled if answered is empty).
 * 33: the line is good, and seconds is full. A bad line is 31 or 32 though seconds is full.
 */
uint32_t jundrethol_import(
    uint64_t *calls,
    const uint8_t *list, size_t list_length,
    uint32_t *seconds, size_t seconds_length);

/* Turns a sheet to its column form, in which each party's shares stand together, so that it can be cut into the parties' parts.
 *
 * sheet    is header, script and rows. Only header and length are looked at: the script may be any bytes, and the shares any numbers.
 * columns  gets the column form, which is as long as the sheet: the same header and script, then party 1's part, party 2's, and so on. A part
 *          has the party's share of every row in the sheet's order, 4 bytes for each row: one row for each input, 4, 8, 16 or 31 for each mask
 *          (in field 0, 1, 2 or 3), 3 for each triple. All parts are equally long: (sheet_length - 11 - script length) / n bytes. Party j's
 *          part begins at columns[11 + script length + (j - 1) times that length]. Past the column form columns is unchanged.
 *
 * Nothing is turned in place.
 *
 * Answers 0, or a refusal 1, 2, 3 or 4 of the sheet, or 15: columns_length is below sheet_length. A refusal writes nothing.
 */
uint32_t jundrethol_to_columns(const uint8_t *sheet, size_t sheet_length, uint8_t *columns, size_t columns_length);

/* Turns a column form back to its sheet. Of the column form, too, only header and length are looked at. An input that is not refused is the
 * same bytes again after both functions, in either order. Past the sheet the output is unchanged.
 *
 * Answers 0, or a refusal 1, 2, 3 or 4 of the column form, or 15: sheet_length is below columns_length. A refusal writes nothing.
 */
uint32_t jundrethol_to_sheet(const uint8_t *columns, size_t columns_length, uint8_t *sheet, size_t sheet_length);

#ifdef __cplusplus
}
#endif

#endif
