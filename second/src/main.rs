//! The command line: each subcommand prints test inputs, their answers or a verdict to standard
//! output. Exit status 2 is wrong arguments or a file that the subcommand can't take, 1 a bad
//! verdict, or an input or output that failed.

use std::env;
use std::fs;
use std::io::{self, BufWriter, Read, Write};
use std::path::Path;
use std::process::ExitCode;

use second::bench::check;
use second::bench::coverage::Coverage;
use second::bench::file::BenchFile;
use second::bench::run::Limited;
use second::bench::{malformed, text, transcript};
use second::bench::{random as bench_random, run as bench_run, stored as bench_stored};
use second::cipher_tests::{answers, random, stored};
use second::des;

const USAGE: &str = "\
usage: second cipher-known
           print the stored tests of the cipher
       second cipher-answers
           read tests of the cipher from standard input, print their answers
       second cipher-random SEED BLOCKS SIGNATURES
           print random tests of the cipher: at least BLOCKS blocks and SIGNATURES signatures
       second bench-run [FILE..]
           run bench files (standard input without a file) whose limits are all FFFF
       second bench-check BENCHFILE OUTPUTFILE
           check the lines that a bench printed for a file with any limits
       second bench-random SEED COMMANDS [--cuts]
           print a random bench file of about COMMANDS commands
       second bench-malformed SEED
           print a bench file with a malformed record, or one at the edge of that
       second bench-coverage BENCHFILE
           print how often a bench file reaches each rule; missing ones give status 1
       second bench-blocks BENCHFILE
           print how many DES blocks the second program computes to run a bench file
       second bench-stored DIR
           write the stored bench files into a folder
       second bench-example
           print a bench file of a card's life, with a purchase of 350
       second bench-text
           read calls written by hand from standard input, print their bench file
       second transcript BENCHFILE OUTPUTFILE
           explain a bench file and the lines that a bench printed for it";

enum Failure {
    Arguments(String),
    /// A file that the subcommand can't take.
    Unfit(String),
    Io(io::Error),
}

impl From<io::Error> for Failure {
    fn from(error: io::Error) -> Failure {
        Failure::Io(error)
    }
}

fn main() -> ExitCode {
    let arguments: Vec<String> = env::args_os()
        .skip(1)
        .map(|argument| argument.to_string_lossy().into_owned())
        .collect();
    let words: Vec<&str> = arguments.iter().map(String::as_str).collect();
    match run(&words, &mut BufWriter::new(io::stdout().lock())) {
        Ok(true) => ExitCode::SUCCESS,
        Ok(false) => ExitCode::FAILURE,
        Err(Failure::Arguments(wrong)) => {
            eprintln!("second: {wrong}\n{USAGE}");
            ExitCode::from(2)
        }
        Err(Failure::Unfit(wrong)) => {
            eprintln!("second: {wrong}");
            ExitCode::from(2)
        }
        Err(Failure::Io(error)) => {
            eprintln!("second: input or output failed: {error}");
            ExitCode::FAILURE
        }
    }
}

/// Runs a subcommand; false is a bad verdict.
fn run(words: &[&str], output: &mut impl Write) -> Result<bool, Failure> {
    let mut good = true;
    match words {
        ["cipher-known"] => output.write_all(stored::file().as_bytes())?,
        ["cipher-answers"] => answers::answer_all(io::stdin().lock(), output)?,
        ["cipher-random", seed, blocks, signatures] => random::write(
            number("SEED", seed)?,
            number("BLOCKS", blocks)?,
            number("SIGNATURES", signatures)?,
            output,
        )?,
        ["bench-run"] => run_bench("standard input", &standard_input()?, output)?,
        ["bench-run", files @ ..] => {
            let mut lines = Vec::new();
            for file in files {
                run_bench(file, &read(file)?, &mut lines)?;
            }
            output.write_all(&lines)?;
        }
        ["bench-check", file, lines] => good = check_bench(file, lines, output)?,
        ["bench-random", seed, commands] => random_bench(seed, commands, false, output)?,
        ["bench-random", seed, commands, "--cuts"] => random_bench(seed, commands, true, output)?,
        ["bench-malformed", seed] => {
            output.write_all(&malformed::file(number("SEED", seed)?))?;
        }
        ["bench-coverage", file] => good = cover(file, output)?,
        ["bench-blocks", file] => count_blocks(file, output)?,
        ["bench-stored", folder] => bench_stored::write(Path::new(folder))?,
        ["bench-example"] => output.write_all(&bench_stored::purchase::file())?,
        ["bench-text"] => assemble(output)?,
        ["transcript", file, lines] => explain(file, lines, output)?,
        _ => return Err(Failure::Arguments(wrong_arguments(words))),
    }
    output.flush()?;
    Ok(good)
}

fn standard_input() -> io::Result<Vec<u8>> {
    let mut bytes = Vec::new();
    io::stdin().lock().read_to_end(&mut bytes)?;
    Ok(bytes)
}

/// The bytes of a file; an error names it.
fn read(name: &str) -> io::Result<Vec<u8>> {
    let named = |error: io::Error| io::Error::new(error.kind(), format!("{name}: {error}"));
    fs::read(Path::new(name)).map_err(named)
}

fn run_bench(name: &str, bytes: &[u8], output: &mut impl Write) -> Result<(), Failure> {
    let lines = bench_run::run(&BenchFile::read(bytes)).map_err(|limited| unfit(name, limited))?;
    for line in lines {
        writeln!(output, "{line}")?;
    }
    Ok(())
}

fn unfit(name: &str, limited: Limited) -> Failure {
    let Limited { record, limit } = limited;
    Failure::Unfit(format!(
        "{name}: record {record} has the limit {limit:04X}; only FFFF is taken"
    ))
}

fn check_bench(file: &str, lines: &str, output: &mut impl Write) -> Result<bool, Failure> {
    let bench = BenchFile::read(&read(file)?);
    let printed = read(lines)?;
    let printed = String::from_utf8_lossy(&printed);
    match check::check(&bench, &printed) {
        Ok(summary) => writeln!(output, "{file}: {summary}")?,
        Err(rejection) => {
            writeln!(output, "{file}: {rejection}")?;
            return Ok(false);
        }
    }
    Ok(true)
}

fn random_bench(
    seed: &str,
    commands: &str,
    cuts: bool,
    output: &mut impl Write,
) -> Result<(), Failure> {
    let (seed, commands) = (number("SEED", seed)?, number("COMMANDS", commands)?);
    Ok(output.write_all(&bench_random::file(seed, commands, cuts))?)
}

fn cover(file: &str, output: &mut impl Write) -> Result<bool, Failure> {
    let bench = BenchFile::read(&read(file)?);
    if let Some(limited) = bench_run::find_limit(&bench) {
        return Err(unfit(file, limited));
    }
    let mut coverage = Coverage::default();
    coverage.add(&bench);
    output.write_all(coverage.report().as_bytes())?;
    let missing = coverage.missing().len();
    writeln!(output, "{missing} missing")?;
    Ok(missing == 0)
}

fn count_blocks(file: &str, output: &mut impl Write) -> Result<(), Failure> {
    let bytes = read(file)?;
    let before = des::blocks();
    run_bench(file, &bytes, &mut io::sink())?;
    Ok(writeln!(output, "{}", des::blocks() - before)?)
}

fn assemble(output: &mut impl Write) -> Result<(), Failure> {
    let input = standard_input()?;
    let input = String::from_utf8_lossy(&input);
    let file = text::assemble(&input).map_err(|wrong| Failure::Unfit(wrong.to_string()))?;
    Ok(output.write_all(&file)?)
}

fn explain(file: &str, lines: &str, output: &mut impl Write) -> Result<(), Failure> {
    let bench = BenchFile::read(&read(file)?);
    let printed = read(lines)?;
    let text = transcript::transcript(&bench, &String::from_utf8_lossy(&printed));
    Ok(output.write_all(text.as_bytes())?)
}

fn number(name: &str, word: &str) -> Result<u64, Failure> {
    let limit = u64::MAX;
    word.parse().map_err(|_| {
        Failure::Arguments(format!("{name} is not a number from 0 to {limit}: {word}"))
    })
}

/// What is wrong with arguments that no subcommand takes.
fn wrong_arguments(words: &[&str]) -> String {
    match words {
        [] => "a subcommand is missing".to_string(),
        [name @ ("cipher-known" | "cipher-answers" | "bench-example" | "bench-text"), ..] => {
            format!("{name} takes no argument")
        }
        ["cipher-random", ..] => "cipher-random takes three numbers".to_string(),
        [name @ ("bench-check" | "transcript"), ..] => {
            format!("{name} takes a bench file and an output file")
        }
        ["bench-random", ..] => "bench-random takes two numbers and perhaps --cuts".to_string(),
        ["bench-malformed", ..] => "bench-malformed takes a number".to_string(),
        [name @ ("bench-coverage" | "bench-blocks"), ..] => format!("{name} takes a bench file"),
        ["bench-stored", ..] => "bench-stored takes a folder".to_string(),
        [name, ..] => format!("no such subcommand: {name}"),
    }
}
