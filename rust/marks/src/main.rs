//! Turns texts of tags into the program's bytes and back, checks them, and shows them beside their
//! lists.

use marks::file::{holds_bytes, open};
use marks::list::{list, program_words};
use marks::picture::picture;
use marks::reading::{Fault, Reading};
use marks::{bytes, text};
use std::env::args_os;
use std::io::{stdout, IsTerminal, Write};
use std::path::{Path, PathBuf};
use std::process::ExitCode;

const COMMANDS: [&str; 5] = ["show", "check", "bytes", "text", "list"];
const HELP: &str = "\
usage: marks COMMAND FILE...

  show    the picture of the tag, and its list by the proved library
  check   every fault, with its line
  bytes   the program's bytes, of one file
  text    the text in its canonical form, of one file
  list    the list in the program's words, by the proved library
  help    this page

A file that ends in .tag holds the program's bytes. One that ends in .marks holds a text:

  n=4 k=2 L=4 G=150  # marks, symbols of a message, level, limit on the cost
  0: 1=4096          # a line for each mark: symbols, 0 to f, and their weights
  1: 1=2148 c=1948   # at most 4096 together; what is not named has none
  2: erased          # cannot be read
  3: 1=4000

In the picture each symbol of a mark is as wide as its weight. A mark is worn where its
strongest symbol has less than 3072, three quarters of 4096, and over where its weights
sum to more than 4096. Each of the last columns is a ticket of the list.

The status is 0, or 1 where a file has a fault, or 2 where this page should be read.
";

/// What a command writes for a file.
fn output(word: &str, name: &str, reading: Reading) -> Result<Vec<u8>, Vec<Fault>> {
    if word == "check" {
        reading.checked()?;
        return Ok(format!("{name}: no fault\n").into_bytes());
    }
    let tag = reading.tag()?;
    Ok(match word {
        "bytes" => bytes::write(&tag),
        "text" => text::write(&tag).into_bytes(),
        "list" => program_words(&list(&tag)).into_bytes(),
        _ => format!("{}\n", picture(name, &tag)).into_bytes(),
    })
}

/// Whether it could be written, and if not says so.
fn written(output: &[u8]) -> bool {
    let outcome = stdout().write_all(output).and_then(|()| stdout().flush());
    let told = outcome.map_err(|why| eprintln!("marks: this cannot be written: {why}"));
    told.is_ok()
}

/// Whether the file had no fault, and what was made of it could be written.
fn run(word: &str, path: &Path) -> bool {
    let name = path.display().to_string();
    match open(path).and_then(|reading| output(word, &name, reading)) {
        Ok(output) => written(&output),
        Err(faults) => {
            faults.iter().for_each(|fault| eprintln!("{name}: {fault}"));
            false
        }
    }
}

/// Why these words are not run.
fn misuse(word: &str, files: &[PathBuf]) -> Option<String> {
    let unknown = files.iter().find(|path| holds_bytes(path).is_none());
    match (word, files) {
        _ if !COMMANDS.contains(&word) => Some(format!("{word:?} is no command")),
        (_, []) => Some(format!("{word} takes a file")),
        ("bytes" | "text", [_, _, ..]) => Some(format!("{word} takes one file")),
        ("bytes", _) if stdout().is_terminal() => {
            Some("bytes are not for a terminal: send them to a file by >".to_string())
        }
        _ => unknown.map(|path| format!("{} is no .tag or .marks", path.display())),
    }
}

fn main() -> ExitCode {
    let mut words = args_os().skip(1);
    let word = words.next().unwrap_or_default();
    let word = word.to_string_lossy();
    let files: Vec<PathBuf> = words.map(PathBuf::from).collect();
    if matches!(&*word, "help" | "--help") {
        return ExitCode::from(u8::from(!written(HELP.as_bytes())));
    }
    if let Some(why) = misuse(&word, &files) {
        eprint!("marks: {why}\n\n{HELP}");
        return ExitCode::from(2);
    }
    let failed = files.iter().filter(|path| !run(&word, path)).count();
    ExitCode::from(u8::from(failed > 0))
}
