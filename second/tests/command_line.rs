//! The program run as a whole: its exit status, and what it says of wrong arguments.

mod support;

use std::fs;
use std::io::Write;
use std::path::{Path, PathBuf};
use std::process::{Command, Output, Stdio};

use support::EXAMPLE;

fn run(arguments: &[&str], input: &str) -> Output {
    run_bytes(arguments, input.as_bytes())
}

fn run_bytes(arguments: &[&str], input: &[u8]) -> Output {
    let mut child = Command::new(env!("CARGO_BIN_EXE_second"))
        .args(arguments)
        .stdin(Stdio::piped())
        .stdout(Stdio::piped())
        .stderr(Stdio::piped())
        .spawn()
        .expect("the program starts");
    let mut stdin = child.stdin.take().expect("standard input is a pipe");
    stdin.write_all(input).expect("input is taken");
    drop(stdin);
    child.wait_with_output().expect("the program ends")
}

/// Arguments and what the program says of them.
const WRONG: &[(&[&str], &str)] = &[
    (&[], "a subcommand is missing"),
    (&["cipher"], "no such subcommand: cipher"),
    (&["cipher-known", "1"], "cipher-known takes no argument"),
    (&["cipher-answers", ""], "cipher-answers takes no argument"),
    (&["cipher-random", "1", "2"], "takes three numbers"),
    (&["cipher-random", "1", "-2", "3"], "BLOCKS is not a number"),
    (
        &["cipher-random", "1", "2", "x"],
        "SIGNATURES is not a number",
    ),
    (
        &["bench-check", "a"],
        "takes a bench file and an output file",
    ),
    (
        &["bench-random", "1"],
        "takes two numbers and perhaps --cuts",
    ),
    (&["bench-random", "1", "2", "--cut"], "perhaps --cuts"),
    (&["bench-random", "x", "2"], "SEED is not a number"),
    (&["bench-malformed"], "takes a number"),
    (&["bench-coverage"], "takes a bench file"),
    (&["bench-stored"], "takes a folder"),
    (&["bench-example", "1"], "takes no argument"),
    (&["bench-text", "1"], "takes no argument"),
    (
        &["transcript", "a"],
        "takes a bench file and an output file",
    ),
];

#[test]
fn wrong_arguments() {
    for &(arguments, expected) in WRONG {
        let output = run(arguments, "");
        let message = String::from_utf8_lossy(&output.stderr);
        assert_eq!(output.status.code(), Some(2), "{arguments:?}");
        assert!(output.stdout.is_empty());
        assert!(message.contains(expected), "{message}");
        assert!(message.contains("usage: second"), "{message}");
    }
}

#[test]
fn answers() {
    let output = run(
        &["cipher-answers"],
        "DE 0123456789ABCDEF - 4E6F772069732074\n\n",
    );
    assert!(output.status.success());
    assert_eq!(output.stdout, b"3FA40E8A984D4815\nmalformed: fields\n");
}

#[test]
fn test_files() {
    let known = run(&["cipher-known"], "");
    assert!(known.status.success());
    assert!(known.stdout.starts_with(b"DE 0101010101010101 - "));
    let random = run(&["cipher-random", "1", "100", "0"], "");
    assert!(random.status.success());
    assert!(!random.stdout.is_empty());
}

/// A folder of this test's own, empty.
fn folder(name: &str) -> PathBuf {
    let folder = Path::new(env!("CARGO_TARGET_TMPDIR")).join(name);
    let _ = fs::remove_dir_all(&folder);
    fs::create_dir_all(&folder).expect("a folder");
    folder
}

/// Writes a file and gives its name.
fn write(folder: &Path, name: &str, bytes: &[u8]) -> String {
    let path = folder.join(name);
    fs::write(&path, bytes).expect("a file");
    path.to_string_lossy().into_owned()
}

#[test]
fn stored_files() {
    let folder = folder("stored");
    let output = run(&["bench-stored", &folder.to_string_lossy()], "");
    assert!(output.status.success());
    let mut names: Vec<String> = fs::read_dir(&folder)
        .expect("the folder")
        .map(|entry| {
            entry
                .expect("an entry")
                .file_name()
                .to_string_lossy()
                .into_owned()
        })
        .collect();
    names.sort();
    let expected = [
        "cuts",
        "example",
        "image-making",
        "image-no-card",
        "image-reading",
        "purchase",
        "records",
        "sessions",
    ];
    assert_eq!(names, expected.map(|name| format!("{name}.bench")));
    let example = folder.join("example.bench");
    let output = run(&["bench-run", &example.to_string_lossy()], "");
    assert!(output.status.success());
    assert_eq!(String::from_utf8_lossy(&output.stdout), EXAMPLE);
    let output = run_bytes(&["bench-run"], &fs::read(example).expect("the file"));
    assert_eq!(String::from_utf8_lossy(&output.stdout), EXAMPLE);
    let cuts = folder.join("cuts.bench");
    for subcommand in ["bench-run", "bench-coverage"] {
        let output = run(&[subcommand, &cuts.to_string_lossy()], "");
        let message = String::from_utf8_lossy(&output.stderr);
        assert_eq!(output.status.code(), Some(2));
        assert!(output.stdout.is_empty());
        assert!(message.contains("record 2 has the limit 0000"), "{message}");
    }
}

#[test]
fn check_and_transcript() {
    let folder = folder("check");
    let purchase = run(&["bench-example"], "").stdout;
    let file = write(&folder, "purchase.bench", &purchase);
    let good = run(&["bench-run", &file], "").stdout;
    let lines = write(&folder, "good", &good);
    let output = run(&["bench-check", &file, &lines], "");
    let message = String::from_utf8_lossy(&output.stdout);
    assert!(output.status.success(), "{message}");
    assert!(
        message.contains("21 calls: 21 finished, 0 cut"),
        "{message}"
    );
    let explained = run(&["transcript", &file, &lines], "").stdout;
    assert!(String::from_utf8_lossy(&explained).contains("FE A2 = -350"));
    let bad = String::from_utf8_lossy(&good).replace("FEA2", "FEA3");
    let lines = write(&folder, "bad", bad.as_bytes());
    let output = run(&["bench-check", &file, &lines], "");
    let message = String::from_utf8_lossy(&output.stdout);
    assert_eq!(output.status.code(), Some(1));
    assert!(message.contains("line 20: `C 0 00020978FEA3"), "{message}");
}

#[test]
fn coverage_status() {
    let folder = folder("coverage");
    let purchase = run(&["bench-example"], "").stdout;
    let file = write(&folder, "purchase.bench", &purchase);
    let output = run(&["bench-coverage", &file], "");
    assert_eq!(output.status.code(), Some(1));
    let message = String::from_utf8_lossy(&output.stdout);
    assert!(message.contains("MISSING"), "{message}");
    let output = run(&["bench-coverage", "no such file"], "");
    assert_eq!(output.status.code(), Some(1));
    let message = String::from_utf8_lossy(&output.stderr);
    assert!(message.contains("no such file: "), "{message}");
}

/// All of the purse's DES is triple DES.
#[test]
fn blocks_of_a_bench_file() {
    let folder = folder("blocks");
    let example = run(&["bench-example"], "").stdout;
    let file = write(&folder, "purchase.bench", &example);
    let output = run(&["bench-blocks", &file], "");
    let blocks: u64 = String::from_utf8_lossy(&output.stdout)
        .trim()
        .parse()
        .unwrap();
    assert!(blocks > 0);
    assert_eq!(blocks % 3, 0, "{blocks}");
}

#[test]
fn text_and_random_files() {
    let output = run(&["bench-text"], "start FFFF\n");
    assert_eq!(output.stdout, [0xB5, 0xC3, 0x02, 0x00, 0x02, 0xFF, 0xFF]);
    let output = run(&["bench-text"], "\nstart\n");
    assert_eq!(output.status.code(), Some(2));
    let message = String::from_utf8_lossy(&output.stderr);
    assert!(
        message.contains("line 2: start takes a limit alone"),
        "{message}"
    );
    let random = run(&["bench-random", "1", "100"], "").stdout;
    let cuts = run(&["bench-random", "1", "100", "--cuts"], "").stdout;
    assert!(random.starts_with(&[0xB5, 0xC3]) && random != cuts);
    let malformed = run(&["bench-malformed", "3"], "");
    assert!(malformed.status.success() && !malformed.stdout.is_empty());
}
