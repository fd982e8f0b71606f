//! The one pipe of the whole process.

use std::env::{self, VarError};
use std::sync::{Mutex, MutexGuard, PoisonError};

use super::call::Call;
use super::client::Pipe;
use super::command::CommandLine;
use super::request::Files;

const VARIABLE: &str = "LEVERBONNET_CALLS";

/// None before the first call, and after the program was lost.
static SHARED: Mutex<Option<Pipe>> = Mutex::new(None);

/// Its use by one thread at a time. A thread that panicked while it asked had
/// taken the pipe out, so none of them finds it halfway through a call.
fn held() -> MutexGuard<'static, Option<Pipe>> {
    SHARED.lock().unwrap_or_else(PoisonError::into_inner)
}

/// Makes the call.
pub fn answer(call: Call, files: Files, outputs: [&mut [u8]; 2]) -> Result<u64, String> {
    let mut shared = held();
    let mut pipe = match shared.take() {
        Some(pipe) => pipe,
        None => Pipe::started(named()?)?,
    };
    let answer = pipe.answer(call, files, outputs)?;
    *shared = Some(pipe);
    Ok(answer)
}

/// Ends the program and waits for that, if it was started. It ends with this
/// process by itself, but then as nobody's child, and somebody has to wait for it.
pub fn end() {
    drop(held().take());
}

fn named() -> Result<CommandLine, String> {
    match env::var(VARIABLE) {
        Ok(text) => CommandLine::split(&text).map_err(|trouble| format!("{VARIABLE}: {trouble}")),
        Err(VarError::NotPresent) => Err(format!(
            "the program calls is not named: {VARIABLE} is not set"
        )),
        Err(VarError::NotUnicode(_)) => Err(format!("{VARIABLE} is not text")),
    }
}
