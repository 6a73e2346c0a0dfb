//! The program `mudorder`, as it was proved, compiled and linked, against the independent program: what it writes
//! to standard output for each input, that it writes nothing else, and that it ends normally. And that it judges
//! nothing that it could not read to its end, and says so, and that it says when its result was not taken.
//!
//! The program is `target/bin/mudorder` of the repository; where it is missing `.ci/make program` makes it. The
//! environment variable `MUDORDER_PROGRAM` names another one.

mod common;

use common::damage::damage;
use common::{card_of, name, say};
use independent::cases::{CARD_A, EXAMPLES_002, LETTERED, PRINTED_A, refused_cards};
use independent::generate::{Kind, Random, model};
use independent::printed::printed;
use mudorder::{INPUT_LIMIT, LIMIT, Verdict};
use std::fs::File;
use std::io::{ErrorKind, Write};
use std::net::Shutdown;
use std::os::fd::OwnedFd;
use std::os::unix::net::UnixStream;
use std::path::{Path, PathBuf};
use std::process::{Child, Command, Output, Stdio};
use std::sync::LazyLock;
use std::thread::sleep;
use std::time::Duration;

const UNREAD: &str = "mudorder: no result, since standard input could not be read to its end";
const UNTAKEN: &str = "mudorder: standard output did not take the whole result";
/// The exit status where reading or writing failed.
const FAILED: i32 = 1;

/// The program to try, found or made once for all tests.
static PROGRAM: LazyLock<PathBuf> = LazyLock::new(|| {
    if let Some(given) = std::env::var_os("MUDORDER_PROGRAM") {
        return given.into();
    }
    let root = Path::new(env!("CARGO_MANIFEST_DIR")).ancestors().nth(2).expect("it stands in a repository");
    let program = root.join("target/bin/mudorder");
    if !program.is_file() {
        let made = Command::new(root.join(".ci/make")).arg("program").output();
        let made = made.expect("`.ci/make program` makes the program; it needs `rt` on the PATH");
        assert!(made.status.success(), "`.ci/make program`: {}", String::from_utf8_lossy(&made.stderr));
    }
    program
});

/// Starts the program, or a shell around it.
fn start(program: &mut Command, input: impl Into<Stdio>, output: impl Into<Stdio>) -> Child {
    let started = program.stdin(input).stdout(output).stderr(Stdio::piped()).spawn();
    started.unwrap_or_else(|error| panic!("cannot run {program:?}: {error}"))
}

fn end(child: Child) -> Output {
    child.wait_with_output().expect("the program ends")
}

fn run(input: &[u8]) -> Vec<u8> {
    let mut child = start(&mut Command::new(&*PROGRAM), Stdio::piped(), Stdio::piped());
    let mut standard_input = child.stdin.take().expect("it was asked for");
    if let Err(error) = standard_input.write_all(input) {
        // The program need not read an input that is too long to its end.
        assert_eq!(error.kind(), ErrorKind::BrokenPipe);
    }
    drop(standard_input);
    let output = end(child);
    assert!(output.status.success(), "{} on:\n{}", output.status, input.escape_ascii());
    assert!(output.stderr.is_empty(), "it wrote to standard error on:\n{}", input.escape_ascii());
    output.stdout
}

#[test]
fn the_program_prints_what_the_independent_program_prints() {
    let mut compared = 0;
    let mut check = |input: &[u8]| {
        let written = run(input);
        let expected = printed(input);
        assert_eq!(String::from_utf8_lossy(&written), expected, "input:\n{}", input.escape_ascii());
        assert_eq!(Verdict::of_card(input).to_string(), expected);
        compared += 1;
    };

    assert_eq!(printed(CARD_A.as_bytes()), PRINTED_A);
    check(CARD_A.as_bytes());
    for case in LETTERED.iter().chain(&EXAMPLES_002) {
        check(&case.card("by-hand"));
    }
    for case in refused_cards() {
        check(&case.card);
    }
    for length in [INPUT_LIMIT - 1, INPUT_LIMIT, INPUT_LIMIT + 1, 5 * INPUT_LIMIT] {
        check(&vec![b'x'; length]);
        check(&[CARD_A.as_bytes(), &vec![b'\n'; length - CARD_A.len()]].concat());
    }
    let mut random = Random::new(1);
    for turn in 0..2_000 {
        let size = random.between(1, LIMIT);
        let mut card =
            card_of(&name(&mut random), &model(Kind::ALL[turn % Kind::ALL.len()], size, LIMIT, &mut random));
        if turn % 3 == 0 {
            damage(&mut card, &mut random);
        }
        check(&card);
    }
    say(&format!("the program mudorder: {compared} inputs, what it printed compared, 0 differ"));
}

/// A shell that puts the program in its own place, with a standard stream closed.
fn closed(stream: &str) -> Command {
    let mut shell = Command::new("sh");
    shell.arg("-c").arg(format!("exec \"$0\" {stream}&-")).arg(&*PROGRAM);
    shell
}

#[test]
fn what_cannot_be_read_to_its_end_has_no_result() {
    let mut tried = 0;
    let mut check = |what: &str, why: &str, child: Child| {
        let Output { status, stdout, stderr } = end(child);
        assert_eq!(String::from_utf8_lossy(&stdout), "", "standard output, {what}");
        assert_eq!(String::from_utf8_lossy(&stderr), format!("{UNREAD}: {why}\n"), "standard error, {what}");
        assert_eq!(status.code(), Some(FAILED), "{status}, {what}");
        tried += 1;
    };

    let folder = File::open("/").expect("the root can be opened");
    check(
        "a directory",
        "Is a directory (os error 21)",
        start(&mut Command::new(&*PROGRAM), folder, Stdio::piped()),
    );
    check(
        "closed",
        "Bad file descriptor (os error 9)",
        start(&mut closed("<"), Stdio::null(), Stdio::piped()),
    );
    // An input that does not wait, and so much of it is there already. All of A's card is itself a good card.
    for length in [0, 1, CARD_A.len() / 2, CARD_A.len()] {
        let (mut far, near) = UnixStream::pair().expect("two ends");
        near.set_nonblocking(true).expect("it need not wait");
        far.write_all(&CARD_A.as_bytes()[..length]).expect("there is room for a card");
        let child = start(&mut Command::new(&*PROGRAM), OwnedFd::from(near), Stdio::piped());
        check(
            &format!("{length} bytes and nothing more yet"),
            "Resource temporarily unavailable (os error 11)",
            child,
        );
    }
    say(&format!("the program mudorder: {tried} inputs that cannot be read to their end, none judged"));
}

#[test]
fn a_result_that_is_not_taken_is_told() {
    let card = || {
        let (mut far, near) = UnixStream::pair().expect("two ends");
        far.write_all(CARD_A.as_bytes()).expect("there is room for a card");
        OwnedFd::from(near)
    };
    let full = File::options().write(true).open("/dev/full").expect("a device that is always full");
    let (far, unread) = UnixStream::pair().expect("two ends");
    far.shutdown(Shutdown::Both).expect("nobody reads there");
    for (why, child) in [
        ("No space left on device (os error 28)", start(&mut Command::new(&*PROGRAM), card(), full)),
        ("Bad file descriptor (os error 9)", start(&mut closed(">"), card(), Stdio::piped())),
        ("Broken pipe (os error 32)", start(&mut Command::new(&*PROGRAM), card(), OwnedFd::from(unread))),
    ] {
        let Output { status, stderr, .. } = end(child);
        assert_eq!(String::from_utf8_lossy(&stderr), format!("{UNTAKEN}: {why}\n"));
        assert_eq!(status.code(), Some(FAILED), "{status}, {why}");
    }
}

#[test]
fn a_pause_loses_nothing() {
    let mut child = start(&mut Command::new(&*PROGRAM), Stdio::piped(), Stdio::piped());
    let mut standard_input = child.stdin.take().expect("it was asked for");
    let (first, second) = CARD_A.split_at(CARD_A.len() / 2);
    standard_input.write_all(first.as_bytes()).expect("the program reads");
    for signal in ["STOP", "CONT"] {
        sleep(Duration::from_millis(50));
        let sent = Command::new("sh").arg("-c").arg(format!("kill -{signal} {}", child.id())).status();
        assert!(sent.expect("a shell").success());
    }
    standard_input.write_all(second.as_bytes()).expect("the program reads");
    drop(standard_input);
    let output = end(child);
    assert_eq!(String::from_utf8_lossy(&output.stdout), PRINTED_A);
    assert!(output.stderr.is_empty());
}
