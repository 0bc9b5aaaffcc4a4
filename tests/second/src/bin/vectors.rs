//! Runs the vectors of a folder, its files NAME.txt, against the library and against the second implementation: each has
//! to come to the right side of the line, to the same record, and the library's guards have to stay.
//!
//!     vectors FOLDER            the last line is 'N passed, M failed', one for each line
//!     vectors FOLDER --renew    writes the right sides anew, from the second implementation

use second::handed::Handed;
use second::library;
use second::plain::Second;
use second::vector::{hand, outcome, sides};
use std::path::{Path, PathBuf};
use std::process::ExitCode;
use std::{env, fs};

/// The most lines that are shown in full.
const SHOWN: usize = 5;

/// The vector files of a folder, by name.
fn files(folder: &Path) -> Vec<PathBuf> {
    let entries = fs::read_dir(folder).unwrap_or_else(|error| panic!("{}: {error}", folder.display()));
    let paths = entries.map(|entry| entry.expect("an entry of the folder").path());
    let mut files: Vec<PathBuf> = paths.filter(|path| path.extension().is_some_and(|end| end == "txt")).collect();
    files.sort();
    files
}

fn read(file: &Path) -> String {
    fs::read_to_string(file).unwrap_or_else(|error| panic!("{}: {error}", file.display()))
}

/// Goes through the calls of a file, each with the number of its line and with the record that the calls before it in its
/// list left. A blank line begins a list, and `#` a comment.
fn each_call(text: &str, mut visit: impl FnMut(usize, &str, &mut Handed)) {
    let mut handed = Handed::default();
    for (number, line) in (1..).zip(text.lines()) {
        if line.is_empty() {
            handed = Handed::default();
        } else if !line.starts_with('#') {
            visit(number, line, &mut handed);
        }
    }
}

/// Makes the call of a line with both, and says where one of them does not come to the right side. The record goes on as
/// the second implementation leaves it.
fn check(line: &str, handed: &mut Handed) -> Result<(), String> {
    let (left, right) = sides(line);
    let call = hand(left, handed)?;
    let mut library = handed.clone();
    let answer = Second::default().call(call, handed);
    let (library_answer, guards) = library::call(call, &mut library);
    let second_right = outcome(call, answer, handed);
    let library_right = outcome(call, library_answer, &library);
    if right != second_right || right != library_right {
        return Err(format!("stored  {right}\n  library {library_right}\n  second  {second_right}"));
    }
    if library != *handed || !guards {
        return Err(format!("guards kept: {guards}; {}", library.differences(handed)));
    }
    Ok(())
}

/// How many lines of a file pass, and how many fail.
fn run(file: &Path, failed_before: usize) -> (usize, usize) {
    let (mut passed, mut failed) = (0, 0);
    each_call(&read(file), |number, line, handed| match check(line, handed) {
        Ok(()) => passed += 1,
        Err(what) => {
            failed += 1;
            if failed_before + failed <= SHOWN {
                println!("{}:{number}: {}\n  {what}", file.display(), sides(line).0);
            }
        }
    });
    if passed + failed == 0 {
        println!("{}: no line", file.display());
        failed = 1;
    }
    (passed, failed)
}

fn run_all(files: &[PathBuf]) -> ExitCode {
    let (mut passed, mut failed) = (0, 0);
    if files.is_empty() {
        println!("there is no file NAME.txt");
        failed = 1;
    }
    for file in files {
        let (right, wrong) = run(file, failed);
        (passed, failed) = (passed + right, failed + wrong);
    }
    println!("{passed} passed, {failed} failed");
    ExitCode::from(u8::from(failed > 0))
}

/// A file with its right sides anew.
fn renewed(file: &Path) -> String {
    let text = read(file);
    let mut lines: Vec<String> = text.lines().map(str::to_string).collect();
    each_call(&text, |number, line, handed| {
        let left = sides(line).0;
        let call = hand(left, handed).unwrap_or_else(|what| panic!("{}:{number}: {what}", file.display()));
        let answer = Second::default().call(call, handed);
        lines[number - 1] = format!("{left} = {}", outcome(call, answer, handed));
    });
    lines.join("\n") + "\n"
}

fn main() -> ExitCode {
    let words: Vec<String> = env::args().skip(1).collect();
    let words: Vec<&str> = words.iter().map(String::as_str).collect();
    match words[..] {
        [folder] => run_all(&files(Path::new(folder))),
        [folder, "--renew"] => {
            let files = files(Path::new(folder));
            files.iter().for_each(|file| fs::write(file, renewed(file)).expect("the file can be written"));
            ExitCode::SUCCESS
        }
        _ => {
            eprintln!("usage: vectors FOLDER [--renew]");
            ExitCode::from(2)
        }
    }
}
