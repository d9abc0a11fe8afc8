//! The proved library and the program `rehearse` beside the second implementation, compared call by call. A difference panics with the
//! text.

pub mod altered;
pub mod guard;
pub mod library;
pub mod machine;
pub mod rehearsal;
pub mod texts;

use std::path::PathBuf;

/// The archive that the wrapper links.
pub fn archive() -> PathBuf {
    let folder = match std::env::var("CISHMOLAQ_ARCHIVE") {
        Ok(folder) => PathBuf::from(folder),
        Err(_) => PathBuf::from(env!("CARGO_MANIFEST_DIR")).join("../../crates/abi/out"),
    };
    folder.join("libabi.a")
}

/// A number from the environment: how much a run does, where it is to be more or less than the gate's.
pub fn amount(variable: &str, otherwise: u64) -> u64 {
    match std::env::var(variable) {
        Ok(word) => word.parse().unwrap_or_else(|_| panic!("{variable} is a number")),
        Err(_) => otherwise,
    }
}

/// Runs `one` on each seed below `count`, on all processors, and gathers what it gives.
pub fn each_seed<T: Send>(count: u64, one: impl Fn(u64) -> T + Sync) -> Vec<T> {
    let threads = std::thread::available_parallelism().map_or(1, |n| n.get() as u64);
    let one = &one;
    let mut all = Vec::new();
    std::thread::scope(|scope| {
        let parts: Vec<_> = (0..threads).map(|t| scope.spawn(move || (t..count).step_by(threads as usize).map(one).collect())).collect();
        for part in parts {
            let part: Vec<T> = part.join().unwrap_or_else(|e| std::panic::resume_unwind(e));
            all.extend(part);
        }
    });
    all
}
