//! The program over the crate beside it. All is compiled there, so that only linking waits for the library.

fn main() -> std::process::ExitCode {
    oracle::run()
}
