//! Document 02, One: books in TPTP's `fof` language. Tokens, the grammar, the part that fits document 01, the two files
//! that are written, and truth in small structures to hold the two against each other.

pub mod answers;
pub mod convert;
pub mod grammar;
pub mod part;
pub mod tokens;
pub mod truth;

/// Runs work that may call itself as deep as a text of 16,384 bytes can nest.
pub fn deep<T: Send>(work: impl FnOnce() -> T + Send) -> T {
    std::thread::scope(|scope| {
        let worker = std::thread::Builder::new().stack_size(1 << 29).spawn_scoped(scope, work);
        worker.expect("a thread").join().expect("an answer")
    })
}
