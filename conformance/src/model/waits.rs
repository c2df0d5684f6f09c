//! The waits of clause 8.7, in ticks of 100 microseconds.

pub const TOKEN_DETECTION: u32 = 30_000;
pub const ACCEPTANCE: u32 = 12_000;

/// From the beginning of listening until the trigger is due: token detection, then the trigger
/// wait.
pub fn until_trigger(number: u8) -> u32 {
    TOKEN_DETECTION + 40 * u32::from(number % 8)
}

/// The wait for our number, before our request.
pub fn until_request(number: u8) -> u32 {
    40 * u32::from(number)
}

pub fn watch(milliseconds: u8) -> u32 {
    10 * u32::from(milliseconds)
}
