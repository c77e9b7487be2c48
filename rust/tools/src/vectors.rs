//! Stored questions with the published Rust's answers to them, so that the comparison can be repeated without the Rust.
//!
//! A file is what the Rust's line driver reads. Its answers stand below their questions, each after `# `, which the driver skips; `## ` begins a
//! remark. The last line, `#= SETS ANSWERS DIGEST`, tells what has to be there, so that a cut or a changed file is refused.

use crate::oracle::{take_question, Answers, Asked};
use std::fmt::Write;

/// FNV-1a, over words of eight bytes.
fn digest(text: &str) -> u64 {
    let mut hash: u64 = 0xCBF2_9CE4_8422_2325;
    for chunk in text.as_bytes().chunks(8) {
        let mut word = [0; 8];
        word[..chunk.len()].copy_from_slice(chunk);
        hash = (hash ^ u64::from_le_bytes(word)).wrapping_mul(0x0100_0000_01B3);
    }
    hash
}

fn counts(body: &str) -> (usize, usize) {
    let of = |start: &str| body.lines().filter(|line| line.starts_with(start)).count();
    (of("set "), of("# "))
}

/// A file's text with its last line.
pub fn seal(body: &str) -> String {
    let (sets, answers) = counts(body);
    format!("{body}#= {sets} {answers} {:016x}\n", digest(body))
}

/// A file's text without its last line, if that line is right.
pub fn unseal(text: &str) -> Result<&str, String> {
    let start = text.rfind("#= ").ok_or("the last line is missing")?;
    let body = &text[..start];
    if counts(body).0 == 0 || seal(body) != text {
        return Err("the file is empty, cut or changed".to_string());
    }
    Ok(body)
}

/// The sets of a file with their answers.
pub fn read(text: &str) -> Result<Vec<(Asked, Answers)>, String> {
    let mut asked = Vec::new();
    let mut lines: Vec<Vec<&str>> = Vec::new();
    for line in unseal(text)?.lines().filter(|line| !line.starts_with("## ")) {
        if let Some(answer) = line.strip_prefix("# ") {
            lines.last_mut().ok_or("an answer before the first set")?.push(answer);
            continue;
        }
        take_question(&mut asked, line)?;
        lines.resize(asked.len(), Vec::new());
    }
    asked.into_iter().zip(lines).map(|(asked, lines)| pair(asked, &lines)).collect()
}

fn pair(asked: Asked, lines: &[&str]) -> Result<(Asked, Answers), String> {
    let mut lines = lines.iter().copied();
    let answers = Answers::read(&asked, &mut lines)?;
    match lines.next() {
        Some(line) => Err(format!("an answer too many: {line}")),
        None => Ok((asked, answers)),
    }
}

/// Puts each answer below its question. Answers that the questions have already are dropped, so a file can be made anew from itself.
pub fn bind<'a>(questions: &'a str, mut answers: impl Iterator<Item = &'a str>) -> Result<String, String> {
    let mut body = String::new();
    for line in questions.lines().filter(|line| !line.starts_with("# ") && !line.starts_with("#= ")) {
        let _ = writeln!(body, "{line}");
        let verb = line.split(' ').next().unwrap_or("");
        let mut more = ["build", "tree", "taken", "parse"].contains(&verb);
        while more {
            let answer = answers.next().ok_or("the answers are cut")?;
            let _ = writeln!(body, "# {answer}");
            more = verb == "tree" && answer != "end" && answer != "nogrammar";
        }
    }
    match answers.next() {
        Some(line) => Err(format!("an answer too many: {line}")),
        None => Ok(seal(&body)),
    }
}
