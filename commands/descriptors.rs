//! Standard input and output as files. The standard library takes a descriptor that cannot be read or written for an empty input and a
//! finished output, and everything would be lost with status 0.

use std::fs::File;
use std::os::fd::FromRawFd;

extern "C" {
    fn signal(number: i32, handler: usize) -> usize;
}

const SIGPIPE: i32 = 13;
const SIG_DFL: usize = 0;

/// Standard input and output. A write that nobody reads ends the program by its signal, as it ends the others.
pub fn standard() -> (File, File) {
    // The two descriptors are open, by the standard library at the latest, and nothing else in these programs owns them.
    unsafe {
        signal(SIGPIPE, SIG_DFL);
        (File::from_raw_fd(0), File::from_raw_fd(1))
    }
}

/// The system's words without the number that the standard library puts behind them.
pub fn reason(error: &std::io::Error) -> String {
    let text = error.to_string();
    text.split(" (os error").next().unwrap_or(&text).to_string()
}
