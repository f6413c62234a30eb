//! The command `kelumavor`.
use std::ffi::OsString;
use std::io;
use std::process::ExitCode;

fn main() -> ExitCode {
    let args: Vec<OsString> = std::env::args_os().skip(1).collect();
    ExitCode::from(kelumavor_command::command::run(&args, &mut io::stdout().lock(), &mut io::stderr()))
}
