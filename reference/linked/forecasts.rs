//! The proved library's forecast, told like that of the reference.

use reference::compare::Forecast;

extern "C" {
    fn jundrethol_forecast(place: *mut u64, head: *const u8, head_length: usize) -> u32;
}

/// Forecasts how the run of a sheet with this header and script ends.
pub fn forecast(forecast: &mut Forecast, head: &[u8]) {
    forecast.number =
        unsafe { jundrethol_forecast(&mut forecast.place, head.as_ptr(), head.len()) };
}
