//! `sengadlit-shape FONT TEXT`: the glyphs of a text in a font, with hb-shape's options and output.

#![forbid(unsafe_code)]

mod batch;
mod fault;
mod font;
mod help;
mod input;
mod man;
mod options;
mod output;
mod run;
mod settings;
mod svg;
mod text;
mod values;
mod verify;

use fault::Fault;
use options::Request;
use std::env;
use std::ffi::OsString;
use std::process::ExitCode;

fn main() -> ExitCode {
    let arguments: Vec<_> = env::args_os().skip(1).collect();
    if arguments == ["--batch"] {
        return batch::run();
    }
    match carry_out(&arguments) {
        Ok(()) => ExitCode::SUCCESS,
        Err(fault) => {
            fault.tell();
            ExitCode::from(fault.status())
        }
    }
}

/// Does what the arguments ask for.
fn carry_out(arguments: &[OsString]) -> Result<(), Fault> {
    match options::read(arguments)? {
        Request::Print(text) => output::print(&text),
        Request::Shape(settings) => run::run(&settings),
    }
}
