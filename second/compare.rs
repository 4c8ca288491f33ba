// Compares a program with the second implementation on generated scripts.
//
//     rustc --edition 2021 -O -o compare compare.rs
//     compare PROGRAM SECOND GENERATE SEED COUNT [--without CALL]
//
// GENERATE writes COUNT scripts for SEED into a temporary folder. Each is run
// by PROGRAM and by SECOND; both must print the same bytes and end with the
// same status, 0 or 1. With --without, lines with that call are dropped first.
//
// The first script on which they differ ends the comparison. It is cut down
// and printed with both answers to its last line. The last line printed is
// `N passed, M failed`, and the status is 0 only where nothing failed.

use std::fs;
use std::io::{self, Error};
use std::path::{Path, PathBuf};
use std::process::{Command, ExitCode};
use std::sync::atomic::{AtomicUsize, Ordering};
use std::thread;

const THREADS: usize = 2;
/// Scripts that the second implementation gets in one call.
const BATCH: usize = 50;
/// How often both may be run in cutting down a script.
const MOST_TRIALS: usize = 2_000;

struct Options {
    program: PathBuf,
    second: PathBuf,
    generate: PathBuf,
    seed: u64,
    count: usize,
    without: Option<String>,
}

fn options() -> Option<Options> {
    let mut words: Vec<String> = std::env::args().skip(1).collect();
    let without = match words.len() {
        7 if words[5] == "--without" => words.pop(),
        5 => None,
        _ => return None,
    };
    Some(Options {
        program: executable(&words[0]),
        second: executable(&words[1]),
        generate: executable(&words[2]),
        seed: words[3].parse().ok()?,
        count: words[4].parse().ok().filter(|&count| count > 0)?,
        without,
    })
}

/// A path, so that a plain file name is not looked for elsewhere.
fn executable(word: &str) -> PathBuf {
    Path::new(".").join(word)
}

/// A folder that is removed in the end.
struct Folder(PathBuf);

impl Folder {
    fn new() -> io::Result<Folder> {
        let path = std::env::temp_dir().join(format!("compare-{}", std::process::id()));
        fs::create_dir(&path).map_err(|error| about(&path, error))?;
        Ok(Folder(path))
    }
}

impl Drop for Folder {
    fn drop(&mut self) {
        let _ = fs::remove_dir_all(&self.0);
    }
}

fn about(path: &Path, error: Error) -> Error {
    Error::new(error.kind(), format!("{}: {error}", path.display()))
}

// ------------------------------------------------------------------- running

#[derive(PartialEq)]
struct Run {
    output: Vec<u8>,
    /// `None` if a signal ended the run.
    status: Option<i32>,
}

fn run(program: &Path, scripts: &[PathBuf]) -> io::Result<Run> {
    let ended = Command::new(program)
        .arg("run")
        .args(scripts)
        .output()
        .map_err(|error| about(program, error))?;
    Ok(Run {
        output: ended.stdout,
        status: ended.status.code(),
    })
}

/// Runs the second implementation on many scripts at once.
fn run_second(second: &Path, scripts: &[PathBuf]) -> io::Result<Vec<Run>> {
    if scripts.len() > 1 {
        let all = run(second, scripts)?;
        if matches!(all.status, Some(0 | 1)) {
            return split(&all.output, scripts)
                .ok_or_else(|| about(second, Error::other("its answers cannot be told apart")));
        }
    }
    // One of them did not end; which one is not told.
    scripts
        .iter()
        .map(|script| run(second, std::slice::from_ref(script)))
        .collect()
}

/// Takes answers apart at the lines `== STATUS NAME`.
fn split(output: &[u8], scripts: &[PathBuf]) -> Option<Vec<Run>> {
    let mut runs: Vec<Run> = Vec::with_capacity(scripts.len());
    for line in output.split_inclusive(|&byte| byte == b'\n') {
        match line.strip_prefix(b"== ") {
            Some(head) => {
                let next = scripts.get(runs.len())?;
                let status = [0, 1]
                    .into_iter()
                    .find(|status| head == format!("{status} {}\n", next.display()).as_bytes())?;
                runs.push(Run {
                    output: Vec::new(),
                    status: Some(status),
                });
            }
            None => runs.last_mut()?.output.extend_from_slice(line),
        }
    }
    (runs.len() == scripts.len()).then_some(runs)
}

fn agree(first: &Run, second: &Run) -> bool {
    first == second && matches!(first.status, Some(0 | 1))
}

/// The index of the first script on which the two differ. Batches are begun in
/// their order, so all scripts before that one were compared.
fn first_difference(options: &Options, scripts: &[PathBuf]) -> io::Result<Option<usize>> {
    let next_batch = AtomicUsize::new(0);
    let found = AtomicUsize::new(scripts.len());
    let work = || -> io::Result<()> {
        loop {
            let begin = next_batch.fetch_add(BATCH, Ordering::SeqCst);
            if begin >= found.load(Ordering::SeqCst) {
                return Ok(());
            }
            let batch = &scripts[begin..scripts.len().min(begin + BATCH)];
            let seconds = run_second(&options.second, batch)?;
            for (index, (script, second)) in batch.iter().zip(&seconds).enumerate() {
                if begin + index >= found.load(Ordering::SeqCst) {
                    return Ok(());
                }
                let first = run(&options.program, std::slice::from_ref(script))?;
                if !agree(&first, second) {
                    found.fetch_min(begin + index, Ordering::SeqCst);
                }
            }
        }
    };
    thread::scope(|scope| {
        let workers: Vec<_> = (0..THREADS).map(|_| scope.spawn(work)).collect();
        workers
            .into_iter()
            .try_for_each(|worker| worker.join().expect("a thread failed"))
    })?;
    let index = found.into_inner();
    Ok((index < scripts.len()).then_some(index))
}

// --------------------------------------------------------------- differences

/// In which way two runs of a script differ.
#[derive(PartialEq)]
enum Way {
    Status(Option<i32>, Option<i32>),
    /// The call of the first line that is answered in two ways, and the sorts
    /// of both answers.
    Answers(String, String, String),
}

/// A way, and the index of the line at which it shows.
struct Difference {
    way: Way,
    line: usize,
}

/// How two runs of a script differ. Each line of a generated script is a call,
/// but for one at most, behind which nothing is answered; so the answers are in
/// step with the lines.
fn difference(script: &[String], first: &Run, second: &Run) -> Option<Difference> {
    if agree(first, second) {
        return None;
    }
    let last = script.len().saturating_sub(1);
    if first.status != second.status || !matches!(first.status, Some(0 | 1)) {
        return Some(Difference {
            way: Way::Status(first.status, second.status),
            line: last,
        });
    }
    let firsts: Vec<&[u8]> = answers(first).collect();
    let seconds: Vec<&[u8]> = answers(second).collect();
    let line = (0..script.len())
        .find(|&index| firsts.get(index) != seconds.get(index))
        .unwrap_or(last);
    let call = script.get(line).map_or("", |call| first_word(call));
    Some(Difference {
        way: Way::Answers(
            call.to_string(),
            sort_of(firsts.get(line).copied()),
            sort_of(seconds.get(line).copied()),
        ),
        line,
    })
}

fn answers(run: &Run) -> impl Iterator<Item = &[u8]> {
    run.output.split_inclusive(|&byte| byte == b'\n')
}

fn first_word(call: &str) -> &str {
    call.split(' ').find(|word| !word.is_empty()).unwrap_or("")
}

/// The first word of an answer, for refusals with the number.
fn sort_of(answer: Option<&[u8]>) -> String {
    let text = shown(answer);
    let words: Vec<&str> = text.split(' ').collect();
    let count = if words[0] == "refused" { 2 } else { 1 };
    words[..count.min(words.len())].join(" ")
}

fn shown(answer: Option<&[u8]>) -> String {
    answer.map_or("(no answer)".to_string(), |line| {
        String::from_utf8_lossy(line)
            .trim_end_matches('\n')
            .to_string()
    })
}

fn shown_status(status: Option<i32>) -> String {
    status.map_or("by a signal".to_string(), |status| {
        format!("with status {status}")
    })
}

// -------------------------------------------------------------- cutting down

/// Runs both on changed scripts, as long as trials are left.
struct Trials<'a> {
    options: &'a Options,
    file: PathBuf,
    left: usize,
}

impl Trials<'_> {
    fn both(&self, script: &[String]) -> io::Result<(Run, Run)> {
        fs::write(&self.file, text(script))?;
        let file = std::slice::from_ref(&self.file);
        Ok((
            run(&self.options.program, file)?,
            run(&self.options.second, file)?,
        ))
    }

    fn difference(&mut self, script: &[String]) -> io::Result<Option<Difference>> {
        self.left = self.left.saturating_sub(1);
        let (first, second) = self.both(script)?;
        Ok(difference(script, &first, &second))
    }

    /// Removes chunks, smaller and smaller ones down to single units, as long
    /// as the script made of the remaining units differs in the same way.
    fn cut<T: Clone>(
        &mut self,
        units: Vec<T>,
        way: &Way,
        script_of: impl Fn(&[T]) -> Vec<String>,
    ) -> io::Result<Vec<T>> {
        let mut units = units;
        let mut size = units.len().div_ceil(2);
        while size > 0 && !units.is_empty() {
            let mut removed = false;
            let mut end = units.len();
            while end > 0 && self.left > 0 {
                let begin = end.saturating_sub(size);
                let rest = [&units[..begin], &units[end..]].concat();
                let differs = self.difference(&script_of(&rest))?;
                if differs.is_some_and(|found| found.way == *way) {
                    units = rest;
                    removed = true;
                }
                end = begin;
            }
            // single units are tried again until none can go
            if size > 1 || !removed || self.left == 0 {
                size /= 2;
            }
        }
        Ok(units)
    }

    /// Drops the lines behind the one at which the difference shows.
    fn cut_end(&mut self, script: &mut Vec<String>, way: &Way) -> io::Result<()> {
        if let Some(found) = self.difference(script)? {
            let ahead = script[..script.len().min(found.line + 1)].to_vec();
            if self
                .difference(&ahead)?
                .is_some_and(|found| found.way == *way)
            {
                *script = ahead;
            }
        }
        Ok(())
    }

    /// Cuts lines, then the records of loadings, then lines that were needed
    /// because of these records.
    fn cut_script(&mut self, script: Vec<String>) -> io::Result<Vec<String>> {
        let Some(Difference { way, .. }) = self.difference(&script)? else {
            return Ok(script);
        };
        let mut script = script;
        self.cut_end(&mut script, &way)?;
        script = self.cut(script, &way, <[String]>::to_vec)?;
        for index in 0..script.len() {
            if let Some(records) = records_of(&script[index]) {
                let with = |records: &[String]| {
                    let mut changed = script.clone();
                    changed[index] = load_of(records);
                    changed
                };
                let records = self.cut(records, &way, with)?;
                script[index] = load_of(&records);
            }
        }
        script = self.cut(script, &way, <[String]>::to_vec)?;
        self.cut_end(&mut script, &way)?;
        Ok(script)
    }
}

/// The records of a loading; what is left behind them is one more.
fn records_of(call: &str) -> Option<Vec<String>> {
    let mut words = call.split(' ').filter(|word| !word.is_empty());
    if words.next() != Some("load") {
        return None;
    }
    let mut rest = words.next().filter(|&digits| digits != "-")?;
    let mut records = Vec::new();
    while !rest.is_empty() {
        let length = length_told(rest).map_or(rest.len(), |told| rest.len().min(8 + 2 * told));
        let (record, behind) = rest.split_at(length);
        records.push(record.to_string());
        rest = behind;
    }
    Some(records)
}

fn length_told(digits: &str) -> Option<usize> {
    let low = usize::from_str_radix(digits.get(..2)?, 16).ok()?;
    let high = usize::from_str_radix(digits.get(2..4)?, 16).ok()?;
    Some(low + 256 * high)
}

fn load_of(records: &[String]) -> String {
    let digits = records.concat();
    format!(
        "load {}",
        if digits.is_empty() {
            "-"
        } else {
            digits.as_str()
        }
    )
}

fn lines(text: &str) -> Vec<String> {
    text.lines().map(str::to_string).collect()
}

fn text(script: &[String]) -> String {
    script.iter().map(|line| format!("{line}\n")).collect()
}

/// Cuts the script down and prints what is left of it.
fn report(options: &Options, folder: &Folder, script: &Path) -> io::Result<()> {
    let whole = lines(&fs::read_to_string(script)?);
    let mut trials = Trials {
        options,
        file: folder.0.join("cut.script"),
        left: MOST_TRIALS,
    };
    let length = whole.len();
    let cut = trials.cut_script(whole)?;
    let (first, second) = trials.both(&cut)?;
    println!("the script, cut down from {length} lines to {}:", cut.len());
    print!("{}", text(&cut));
    let Some(found) = difference(&cut, &first, &second) else {
        println!("the two differed on it, and do no longer");
        return Ok(());
    };
    for (who, run) in [("the program", &first), ("the second", &second)] {
        println!("{who} answers the last line:");
        println!("{}", shown(answers(run).nth(found.line)));
        if let Way::Status(..) = found.way {
            println!("and ends {}", shown_status(run.status));
        }
    }
    Ok(())
}

// ---------------------------------------------------------------------- main

fn generate(options: &Options, folder: &Folder) -> io::Result<Vec<PathBuf>> {
    let scripts = folder.0.join("scripts");
    let ended = Command::new(&options.generate)
        .args([options.seed.to_string(), options.count.to_string()])
        .arg(&scripts)
        .status()
        .map_err(|error| about(&options.generate, error))?;
    let mut paths = Vec::new();
    if ended.success() {
        for entry in fs::read_dir(&scripts)? {
            paths.push(entry?.path());
        }
    }
    if paths.len() != options.count {
        return Err(about(
            &options.generate,
            Error::other("it did not write the scripts"),
        ));
    }
    paths.sort();
    if let Some(call) = &options.without {
        for path in &paths {
            let mut script = lines(&fs::read_to_string(path)?);
            script.retain(|line| first_word(line) != call);
            fs::write(path, text(&script))?;
        }
    }
    Ok(paths)
}

/// Compares, reports, and answers how many scripts passed and failed.
fn compare(options: &Options) -> io::Result<(usize, usize)> {
    let folder = Folder::new()?;
    let scripts = generate(options, &folder)?;
    match first_difference(options, &scripts)? {
        None => Ok((scripts.len(), 0)),
        Some(index) => {
            println!("FAIL script {} of seed {}", index + 1, options.seed);
            report(options, &folder, &scripts[index])?;
            Ok((index, 1))
        }
    }
}

fn main() -> ExitCode {
    let Some(options) = options() else {
        eprintln!("usage: compare PROGRAM SECOND GENERATE SEED COUNT [--without CALL]");
        return ExitCode::from(2);
    };
    match compare(&options) {
        Ok((passed, failed)) => {
            println!("{passed} passed, {failed} failed");
            ExitCode::from(u8::from(failed > 0))
        }
        Err(error) => {
            eprintln!("compare: {error}");
            ExitCode::from(2)
        }
    }
}
