//! The test program `trial`: commands for it, what it prints, and what the second program says to the same commands.

use std::io::Write;
use std::path::Path;
use std::process::{Command, Stdio};
use std::sync::LazyLock;
use std::thread;

use crate::numbers::{head, record};

/// A command for the program, by what it is called in a failure, and what the program must print for it.
pub struct Trial {
    pub title: String,
    pub command: Vec<u8>,
    pub expected: String,
}

/// Pages, one zero byte between them, read as one call.
pub fn reading(title: String, given: &[u8]) -> Trial {
    Trial {
        title,
        command: command(b'r', given),
        expected: read(given),
    }
}

/// A command: its letter, the length of what is given in four bytes, lowest first, and what is given.
fn command(letter: u8, given: &[u8]) -> Vec<u8> {
    assert!(given.len() <= 65_536, "a command of {} bytes", given.len());
    let length = (given.len() as u32).to_le_bytes();
    [&[letter][..], &length, given].concat()
}

/// A word and numbers on a line.
fn line(word: &str, numbers: impl IntoIterator<Item = u32>) -> String {
    let words = numbers.into_iter().map(|number| format!(" {number}"));
    format!("{word}{}\n", words.collect::<String>())
}

/// What the command `r` must print.
fn read(given: &[u8]) -> String {
    let (answer, plan, rows, text) = match second::read(&second::listing::split(given)) {
        Err(refusal) => {
            let place = [refusal.page as u32, refusal.place as u32];
            let answer = [refusal.number.into(), place[0], place[1]];
            (answer, vec![0; 56], Vec::new(), Vec::new())
        }
        Ok(plan) => {
            let (numbers, text) = second::lay(&plan);
            let rows = numbers.rows.iter().map(record).collect();
            ([0; 3], head(&numbers), rows, text)
        }
    };
    let mut lines = line("answer", answer);
    lines += &line("plan", plan[..2].to_vec());
    lines += &line("head", plan[2..].to_vec());
    lines.extend(rows.into_iter().map(|row| line("row", row)));
    lines += &line("text", text.into_iter().map(u32::from));
    lines + "rest kept\n"
}

/// The words of the command that runs the program on the processor of this machine.
fn program() -> Vec<String> {
    let asked = Path::new(env!("CARGO_MANIFEST_DIR")).join("../../tools/program");
    let told = Command::new(&asked).args(["--command", "trial"]).output();
    let words = told.unwrap_or_else(|error| panic!("{}: {error}", asked.display()));
    assert!(words.status.success(), "there is no program: {words:?}");
    let lines = String::from_utf8(words.stdout).expect("its words are text");
    lines.lines().map(str::to_string).collect()
}

/// What the program prints for these commands.
fn printed(commands: &[u8]) -> Vec<u8> {
    static PROGRAM: LazyLock<Vec<String>> = LazyLock::new(program);
    let mut child = Command::new(&PROGRAM[0])
        .args(&PROGRAM[1..])
        .stdin(Stdio::piped())
        .stdout(Stdio::piped())
        .spawn()
        .unwrap_or_else(|error| panic!("{}: {error}", PROGRAM[0]));
    let mut input = child.stdin.take().expect("the input is a pipe");
    thread::scope(|scope| {
        scope.spawn(move || input.write_all(commands));
        child.wait_with_output().expect("the program ends").stdout
    })
}

/// The first trial for which the program prints something else, in words; or nothing.
pub fn difference(trials: &[Trial]) -> Option<String> {
    let commands: Vec<u8> = trials
        .iter()
        .flat_map(|trial| trial.command.clone())
        .collect();
    let printed = printed(&commands);
    let mut rest = &printed[..];
    for trial in trials {
        let Some(behind) = rest.strip_prefix(trial.expected.as_bytes()) else {
            let given = &rest[..rest.len().min(trial.expected.len())];
            return Some(format!(
                "{}: printed\n{}for\n{}",
                trial.title,
                String::from_utf8_lossy(given),
                trial.expected
            ));
        };
        rest = behind;
    }
    (!rest.is_empty()).then(|| format!("{} bytes too many", rest.len()))
}
