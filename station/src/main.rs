//! The program: all of it stands in lib.rs, which is compiled before the library for stations is there to be linked.

fn main() -> std::process::ExitCode {
    harness::main()
}
