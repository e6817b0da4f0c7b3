//! One call of the crate: its panics are caught and told.
use std::cell::Cell;
use std::panic::{AssertUnwindSafe, catch_unwind, set_hook, take_hook};
use std::sync::{Mutex, Once, PoisonError};

/// What the crate said when it panicked.
#[derive(Debug, Clone, PartialEq, Eq)]
pub struct Panic(pub String);

/// The crate reads its dump from one place, so calls take turns.
static TURN: Mutex<()> = Mutex::new(());

static QUIET_HOOK: Once = Once::new();

thread_local! {
    static QUIET: Cell<bool> = const { Cell::new(false) };
}

/// Does the work that calls the crate.
pub fn caught<T>(work: impl FnOnce() -> T) -> Result<T, Panic> {
    let _turn = TURN.lock().unwrap_or_else(PoisonError::into_inner);
    quietly(work)
}

/// Does the work; a panic is told to the caller alone.
pub fn quietly<T>(work: impl FnOnce() -> T) -> Result<T, Panic> {
    QUIET_HOOK.call_once(|| {
        let usual = take_hook();
        set_hook(Box::new(move |info| {
            if !QUIET.get() {
                usual(info);
            }
        }));
    });
    let outer = QUIET.replace(true);
    let done = catch_unwind(AssertUnwindSafe(work));
    QUIET.set(outer);
    done.map_err(|said| {
        let text = said.downcast_ref::<&str>().map(|text| text.to_string());
        Panic(text.or_else(|| said.downcast_ref::<String>().cloned()).unwrap_or_default())
    })
}
