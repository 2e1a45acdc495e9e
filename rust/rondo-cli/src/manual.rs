//! The man page, made from the command's definition.

use std::fmt::Write;

use clap::Command;

/// The page in the language of man.
pub fn page(mut command: Command) -> String {
    command.build();
    let about = command.get_about().map(ToString::to_string).unwrap_or_default();
    let mut out = format!(".TH RONDO 1\n.SH NAME\nrondo \\- {}\n", plain(&about));
    out.push_str(".SH SYNOPSIS\n.B rondo\n.I COMMAND\n[\\fIWORDS\\fR]\n.SH COMMANDS\n");
    for sub in command.get_subcommands_mut() {
        section(&mut out, sub);
    }
    let after = command.get_after_help().map(ToString::to_string).unwrap_or_default();
    let _ = writeln!(out, ".SH NOTES");
    after.lines().for_each(|line| out.push_str(&format!("{}\n.br\n", plain(line))));
    out
}

fn section(out: &mut String, command: &mut Command) {
    let usage = command.render_usage().to_string();
    let usage = usage.trim_start_matches("Usage:").trim().to_string();
    let about = command.get_about().map(ToString::to_string).unwrap_or_default();
    let _ = writeln!(out, ".SS {}\n.B {}\n.PP\n{}", command.get_name(), plain(&usage), plain(&about));
    for arg in command.get_arguments().filter(|arg| arg.get_help().is_some()) {
        let help = arg.get_help().map(ToString::to_string).unwrap_or_default();
        let name = match arg.get_long() {
            Some(long) => format!("--{long}"),
            None => arg.get_id().to_string().to_uppercase(),
        };
        let _ = writeln!(out, ".TP\n.B {}\n{}", plain(&name), plain(&help));
    }
}

/// Text that man prints as it stands.
fn plain(text: &str) -> String {
    let text = text.replace('\\', "\\e").replace('-', "\\-").replace('\n', " ");
    if text.starts_with(['.', '\'']) { format!("\\&{text}") } else { text }
}
