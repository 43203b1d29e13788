//! The numbers that the entries, the run, the import, the column form, the forecast and the replay answer with.

/// The arguments are accepted; the script ran to its END.
pub const NONE: u32 = 0;
/// The sheet has fewer bytes than a header.
pub const HEADER: u32 = 1;
/// The field number is not in the table.
pub const FIELD: u32 = 2;
/// The number of parties, the threshold or a replay's party number is outside its range.
pub const PARTIES: u32 = 3;
/// A list, a sheet, the input of a forecast or a party's part has the wrong length, or a count is over its
/// limit.
pub const LENGTH: u32 = 4;
/// A secret, coefficient, share or field value is not below the modulus.
pub const VALUE: u32 = 5;
/// The row is no sharing.
pub const ROW: u32 = 6;
/// A mask is not well formed.
pub const MASK: u32 = 7;
/// A triple is not well formed.
pub const TRIPLE: u32 = 8;
/// A command byte is not in the table.
pub const COMMAND: u32 = 9;
/// Operands are cut off, END is missing, or bytes follow END.
pub const FORM: u32 = 10;
/// An operand, k or the signed number is outside its range.
pub const RANGE: u32 = 11;
/// A bit beyond n is set in the byte of the present parties, or fewer than t + 1 of them are present.
pub const PRESENT: u32 = 12;
/// The output is shorter than the sheet.
pub const OUTPUT_SHORT: u32 = 15;

/// A register that the command reads is unset.
pub const UNSET: u32 = 21;
/// No input row is left.
pub const NO_INPUT: u32 = 22;
/// No mask is left.
pub const NO_MASK: u32 = 23;
/// Fewer triples are left than the command takes.
pub const NO_TRIPLES: u32 = 24;
/// The record cannot take all the command's shares.
pub const RECORD_FULL: u32 = 25;
/// The revealed list is full.
pub const REVEALED_FULL: u32 = 26;

/// A line is no record of RFC 4180, or has not four fields.
pub const LINE: u32 = 31;
/// A time is malformed, or comes before the one that it must follow.
pub const TIME: u32 = 32;
/// The buffer for the seconds is full.
pub const SECONDS_FULL: u32 = 33;

/// The party's own share is in the record, and is another.
pub const OWN_SHARE: u32 = 41;
/// Of an opening a number is above p, too few shares are present, or those present are not on one polynomial
/// of degree at most t.
pub const OPENING: u32 = 42;
/// The record has no more whole opening.
pub const RECORD_SHORT: u32 = 43;
