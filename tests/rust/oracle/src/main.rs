//! Runs the original lowering on a file of cases: `oracle CASES [--plain-fragments] [--notices ROOM]`.

fn main() -> std::process::ExitCode {
    oracle::run::main()
}
