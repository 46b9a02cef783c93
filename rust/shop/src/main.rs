//! The command `yarrowbleat`: everything that the library does, over scans as scanners write them.

mod batch;
mod bits;
mod commands;
mod faces_file;
mod failure;
mod figures;
mod inputs;
mod laid;
mod limit;
mod manual;
mod mesh;
mod output;
mod page;
mod progress;
mod results;
mod scan;
mod settings;
mod watch;
mod words;

use clap::error::ErrorKind;
use clap::Parser;
use failure::TROUBLE;

/// Prints help and version, or says what is wrong with the words.
fn told(error: &clap::Error) -> ! {
    let _ = error.print();
    let asked = matches!(error.kind(), ErrorKind::DisplayHelp | ErrorKind::DisplayVersion);
    std::process::exit(if asked { 0 } else { i32::from(TROUBLE) });
}

fn main() {
    let words = words::Words::try_parse().unwrap_or_else(|error| told(&error));
    if let Err(failure) = commands::run(words.command) {
        batch::tell(&failure.line);
        std::process::exit(i32::from(failure.status));
    }
}
