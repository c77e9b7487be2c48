//! The published Rust behind its line driver, as a program whose processes are timed.

use crate::bodies::without_variables;
use crate::timing::{median, REPETITIONS};
use std::fmt::Write as _;
use std::fs::File;
use std::process::{Command, Stdio};

/// A command and its arguments, under the name of its column.
pub struct Published {
    pub name: String,
    command: Vec<String>,
}

impl Published {
    /// Of `[NAME=]COMMAND`.
    pub fn new(text: &str) -> Self {
        let (name, command) = text.split_once('=').unwrap_or(("published", text));
        Published {
            name: name.to_owned(),
            command: command.split(' ').map(str::to_owned).collect(),
        }
    }

    /// Nanoseconds of processor time that the program takes over some lines; the shell counts them, in hundredths of a second.
    fn run(&self, lines: &str) -> f64 {
        let path = std::env::temp_dir().join(format!("published-{}.in", std::process::id()));
        std::fs::write(&path, lines).expect("the folder for temporary files can be written");
        let run = |_| {
            let input = File::open(&path).expect("it was written");
            let shell = ["-c", "\"$@\" >/dev/null && times", "sh"];
            let output = Command::new("sh")
                .args(shell)
                .args(&self.command)
                .stdin(input)
                .stderr(Stdio::inherit())
                .output();
            let output = output.expect("there is a shell");
            assert!(output.status.success(), "the published Rust ends well");
            of_children(&String::from_utf8_lossy(&output.stdout)).expect("the shell tells times")
        };
        let times = (0..REPETITIONS).map(run).collect();
        std::fs::remove_file(&path).expect("it is there");
        median(times)
    }

    /// What it takes with more lines, less what it takes without.
    pub fn more(&self, lines: &str, more: &str) -> f64 {
        self.run(&(lines.to_owned() + more)) - self.run(lines)
    }
}

/// What the shell's `times` says of its children, in its second line: `0m1.230s 0m0.010s`, user and system.
fn of_children(times: &str) -> Option<f64> {
    let nanoseconds = |word: &str| {
        let (minutes, seconds) = word.strip_suffix('s')?.split_once('m')?;
        Some(1e9 * (60.0 * minutes.parse::<f64>().ok()? + seconds.parse::<f64>().ok()?))
    };
    times.lines().nth(1)?.split(' ').map(nanoseconds).sum()
}

/// A verb and its words.
pub fn line(verb: &str, words: &[u32]) -> String {
    let mut line = verb.to_owned();
    words.iter().for_each(|word| write!(line, " {word}").expect("a string takes it"));
    line + "\n"
}

/// The lines that give the published Rust these rules and commands, up to its build.
pub fn set_lines(provable: u32, logic: u32, rules: &[u32], commands: &[u32]) -> String {
    let mut lines = format!("set {provable} {logic}\n");
    for words in without_variables(rules) {
        lines += &line("rule", &words);
    }
    lines + &command_lines(commands) + "build\n"
}

/// Conversions that no command asks for are run last here and not at all there.
fn command_lines(commands: &[u32]) -> String {
    let (mut lines, mut converted) = (String::new(), false);
    let mut rest = commands;
    while let [first, after @ ..] = rest {
        rest = after;
        if *first == 2 {
            lines += "conv\n";
            converted = true;
            continue;
        }
        let (prefix, shadow) = (after[0], after[1]);
        let (pairs, others) = after[2..].split_at(2 * prefix as usize);
        let (more, others) = others.split_at(2 * shadow as usize);
        lines += &line("gp", &[&[prefix], pairs, &[shadow], more].concat());
        rest = others;
    }
    lines + if converted { "" } else { "conv\n" }
}
