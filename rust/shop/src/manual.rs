//! The manual page and the completions, both made of the command's own words.

use crate::failure::{statuses, Failure};
use crate::words::Words;
use clap::{Arg, Command, CommandFactory};
use roff::{bold, italic, roman, Roff};

/// The completions for a shell.
pub fn completions(shell: clap_complete::Shell) -> Vec<u8> {
    let mut bytes = Vec::new();
    clap_complete::generate(shell, &mut Words::command(), "yarrowbleat", &mut bytes);
    bytes
}

/// How an argument is written.
fn words_of(arg: &Arg) -> String {
    let values = arg.get_value_names().unwrap_or_default().iter().map(|name| format!(" {name}")).collect::<String>();
    let takes = arg.get_action().takes_values();
    match (arg.get_short(), arg.get_long()) {
        (Some(short), Some(long)) => format!("-{short}, --{long}{}", if takes { values } else { String::new() }),
        (None, Some(long)) => format!("--{long}{}", if takes { values } else { String::new() }),
        _ => arg.get_id().to_string().to_uppercase(),
    }
}

fn options(page: &mut Roff, command: &Command) {
    for arg in command.get_arguments().filter(|arg| !matches!(arg.get_id().as_str(), "help" | "version")) {
        let help = arg.get_help().map(ToString::to_string).unwrap_or_default();
        page.control("TP", []).text([bold(words_of(arg))]).text([roman(help)]);
    }
}

fn subcommand(page: &mut Roff, command: &Command) {
    let about = command.get_long_about().or(command.get_about()).map(ToString::to_string).unwrap_or_default();
    page.control("SS", [format!("yarrowbleat {}", command.get_name()).as_str()]).text([roman(about)]);
    options(page, command);
}

/// The manual page.
pub fn page() -> Result<Vec<u8>, Failure> {
    let mut command = Words::command();
    command.build();
    let version = command.get_version().unwrap_or_default().to_string();
    let about = command.get_about().map(ToString::to_string).unwrap_or_default();
    let long = command.get_long_about().map(ToString::to_string).unwrap_or_default();
    let mut page = Roff::new();
    // A page that is the same whenever it is made has no date; an empty word would be lost.
    page.control("TH", ["YARROWBLEAT", "1", " ", &format!("yarrowbleat {version}")]);
    page.control("SH", ["NAME"]).text([roman(format!("yarrowbleat - {about}"))]);
    page.control("SH", ["SYNOPSIS"]).text([bold("yarrowbleat"), roman(" "), italic("COMMAND"), roman(" ..")]);
    page.control("SH", ["DESCRIPTION"]).text([roman(long)]);
    page.control("SH", ["COMMANDS"]);
    for command in command.get_subcommands().filter(|command| !command.is_hide_set() && command.get_name() != "help") {
        subcommand(&mut page, command);
    }
    page.control("SH", ["EXIT STATUS"]);
    page.text([roman("Of several files it is that of the first one that failed.")]);
    for (status, words) in statuses() {
        page.control("TP", []).text([bold(status.to_string())]).text([roman(words)]);
    }
    let mut bytes = Vec::new();
    page.to_writer(&mut bytes).map_err(Failure::new)?;
    Ok(bytes)
}
