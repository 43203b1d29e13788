//! Computes directly from the definitions what the proved library computes: sharing, recovery, the
//! sum of which the secret is the remainder, signed coding, the steps, the run of a whole sheet, the
//! import of a list of calls, the column form of a sheet, the forecast of a run, and the replay of one
//! party's column.

pub mod calls;
pub mod case;
pub mod cases;
pub mod columns;
pub mod compare;
pub mod dealer;
pub mod field;
pub mod forecast;
pub mod line;
pub mod model_cases;
pub mod opening;
pub mod present;
pub mod refusal;
pub mod replay;
pub mod row;
pub mod run;
pub mod run_case;
pub mod script;
pub mod sharing;
pub mod sheet;
pub mod sheets;
pub mod signed;
pub mod steps;
pub mod stored_bytes;
pub mod summing;
pub mod table;
pub mod weights;
