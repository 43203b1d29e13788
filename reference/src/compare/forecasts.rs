//! How a run is forecast to end, and where two forecasts, or a forecast and the run, differ.

use super::{difference, Ran};
use crate::forecast::forecast;
use crate::present::everyone_of;
use crate::refusal;
use crate::sheet::header::Header;
use crate::sheet::Sheet;

/// What a forecast answers.
#[derive(Clone, Debug, PartialEq)]
pub struct Forecast {
    pub number: u32,
    pub place: u64,
}

impl Forecast {
    /// Before: numbers that are never answered.
    pub fn before() -> Forecast {
        Forecast {
            number: u32::MAX,
            place: u64::MAX,
        }
    }

    /// Forecasts by the reference.
    pub fn by_reference(&mut self, head: &[u8]) {
        let (number, place) = forecast(head);
        self.number = number;
        self.place = place as u64;
    }

    /// Where the library's forecast differs first from this one, the reference's.
    pub fn difference(&self, library: &Forecast) -> Option<String> {
        difference("number", self.number, library.number)
            .or_else(|| difference("place", self.place, library.place))
    }

    /// Where the run ended otherwise. It has all its counts, of which the place is the first.
    pub fn run_difference(&self, ran: &Ran) -> Option<String> {
        let (forecast, ended) = ((self.number, self.place), (ran.number, ran.counts[0]));
        let differ = forecast != ended;
        differ.then(|| format!("number and place forecast {forecast:?}, of the run {ended:?}"))
    }
}

/// Whether header and script decide how the sheet's run ends, with everyone present and large enough
/// buffers: not where a row is refused, or the length alone.
pub fn is_decided_by_head(sheet: &[u8]) -> bool {
    match Sheet::read(sheet, everyone_of(sheet)).err() {
        Some(refusal::VALUE..=refusal::TRIPLE) => false,
        Some(refusal::LENGTH) => {
            Header::begin(sheet).is_ok_and(|header| !header.is_within_limits())
        }
        _ => true,
    }
}

#[cfg(test)]
mod tests {
    use super::super::Lengths;
    use super::*;
    use crate::forecast::head_of;
    use crate::sheets::{bench, gate};
    use crate::table::{RECORD, REVEALED};

    fn by_reference(head: &[u8]) -> Forecast {
        let mut forecast = Forecast::before();
        forecast.by_reference(head);
        forecast
    }

    fn ran(sheet: &[u8]) -> Ran {
        let mut ran = Ran::before(RECORD, REVEALED, Lengths::WHOLE);
        ran.by_reference(sheet, everyone_of(sheet));
        ran
    }

    #[test]
    fn every_change_of_a_forecast_is_a_difference() {
        let forecast = by_reference(head_of(&bench::small()));
        assert_eq!((forecast.number, forecast.place), (0, 10));
        assert_eq!(forecast.difference(&forecast.clone()), None);
        let mut other = forecast.clone();
        other.place = 11;
        let said = "place: reference 10, library 11";
        assert_eq!(forecast.difference(&other).as_deref(), Some(said));
        other.number = 24;
        let said = "number: reference 0, library 24";
        assert_eq!(forecast.difference(&other).as_deref(), Some(said));
    }

    #[test]
    fn another_number_or_place_of_the_run_is_a_difference() {
        let sheet = bench::small();
        let forecast = by_reference(head_of(&sheet));
        let mut ran = ran(&sheet);
        assert_eq!(forecast.run_difference(&ran), None);
        ran.number = 25;
        let said = "number and place forecast (0, 10), of the run (25, 10)";
        assert_eq!(forecast.run_difference(&ran).as_deref(), Some(said));
        ran.number = 0;
        ran.counts[0] = 8;
        assert!(forecast.run_difference(&ran).is_some());
    }

    /// The gate has a sheet for each number, with 4 for its length alone.
    #[test]
    fn rows_and_the_length_alone_are_not_decided_by_the_head() {
        for (name, sheet) in gate::all() {
            let of_rows = ["end-4", "end-5", "end-6", "end-7", "end-8"].contains(&name.as_str());
            assert_eq!(is_decided_by_head(&sheet), !of_rows, "{name}");
        }
        let mut sheet = bench::small();
        sheet[4] = 1;
        assert_eq!(ran(&sheet).number, 4);
        assert!(is_decided_by_head(&sheet));
    }
}
