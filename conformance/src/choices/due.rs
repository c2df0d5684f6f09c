//! What time brings to a station, as far as the calls are led by it.

use crate::boundary::{Core, Station};
use crate::model::waits;
use crate::names::*;

/// Whether a frame is due.
pub fn is_due(core: &Core) -> bool {
    let request = waits::until_request(core.own().number);
    match core.phase() {
        LISTENING => core.elapsed == waits::until_trigger(core.own().number),
        STARTUP => core.elapsed >= request && !core.sent(),
        JOINING => core.rounds() == 3 && core.waited == request,
        PARTICIPATING => core.view() == core.own().number,
        _ => false,
    }
}

/// Ticks that a participant's watch runs, as list and view stand.
pub fn watch(state: &Station) -> u32 {
    let own = state.core.own();
    let entry = state.list.entry(state.core.view());
    match entry.listed && state.core.view() != own.number {
        true => waits::watch(entry.watch.max(1)),
        false => waits::watch(own.watch),
    }
}

/// Ticks until the next thing that time brings in this state.
pub fn until_next(state: &Station) -> u32 {
    let core = &state.core;
    let request = waits::until_request(core.own().number);
    let end = match core.phase() {
        LISTENING => waits::until_trigger(core.own().number),
        STARTUP if core.elapsed < request => request,
        STARTUP => waits::ACCEPTANCE,
        JOINING if core.rounds() == 3 && core.waited < request => {
            core.elapsed + request - core.waited
        }
        JOINING => waits::TOKEN_DETECTION,
        PARTICIPATING => watch(state),
        _ => 1,
    };
    end.saturating_sub(core.elapsed).max(1)
}
