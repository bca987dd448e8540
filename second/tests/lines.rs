//! What can be read as a line, and the program over pipes.

use second::program::answers;
use std::io::{BufRead, BufReader, Write};
use std::process::{Command, Stdio};

const OPENING: &[u8] = b"farm\t3\t1\t2\t0\t0\t0\t30\t0\n";

/// The answer to one line of an open farm.
fn answer(line: &[u8]) -> Vec<u8> {
    let day = [OPENING, line, b"\n"].concat();
    answers(&day)
        .strip_prefix(b"open\t3\t2\n")
        .unwrap()
        .to_vec()
}

#[test]
fn another_shape_is_unreadable() {
    let shapes: [&[u8]; 40] = [
        b"",
        b"\t",
        b"job",
        b"job\t1\t1",
        b"job\t1\t1\t30\t",
        b"job\t1\t1\t30\t\t1",
        b"job\t1\t1\t30\t1\t",
        b"job\t1\t1\t30\t1\t1",
        b"job\t1\t1\t30\t1p",
        b"job\t1\t1\t30\t00000000000001",
        b"job\t1\t1\t30 1",
        b"job\t1\t\t30",
        b"job 1 1 30",
        b"job\t1\t1\t30\r",
        b"job\t1\t1\t+30",
        b"job\t1\t1\t-30",
        b"job\t1\t1\t30\0",
        b"\0job\t1\t1\t30",
        b"job\t1\t1\t00000000000030",
        b"Job\t1\t1\t30",
        b"jobs\t1\t1\t30",
        b"clock",
        b"clock\t1\t1",
        b"clock\tx",
        b"account\t1\t1",
        b"account\t",
        b"farm\t1\t1\t1\t0\t0\t0\t0",
        b"withdraw",
        b"withdraw\t",
        b"withdraw\t1\t",
        b"withdraw\t\t1",
        b"withdraw\t1\t1",
        b"withdraw\t00000000000001",
        b"withdraw\t1\r",
        b"withdraw\t-1",
        b"withdraw 1",
        b"withdraw1",
        b"Withdraw\t1",
        b"withdrawn\t1",
        b"gone\t1",
    ];
    for shape in shapes {
        assert_eq!(answer(shape), b"no\t11\n", "{}", shape.escape_ascii());
        let quote = as_quote(shape);
        assert_eq!(answer(&quote), b"no\t11\n", "{}", quote.escape_ascii());
    }
    assert_eq!(answer(b"withdraw\t0000000000001"), b"no\t12\n");
    assert_eq!(answer(b"job\t01\t001\t0000000000030"), b"yes\t1\t0\t3\t1\n");
    assert_eq!(answer(b"job\t1\t1\t30\t01"), b"yes\t1\t0\t2\t1\n");
    assert_eq!(
        answer(b"job\t1\t1\t30\t0000000000001"),
        b"yes\t1\t0\t2\t1\n"
    );
    assert_eq!(
        answer(b"quote\t01\t001\t0000000000030\t0000000000001"),
        b"quote\t1\t0\t2\t1\n"
    );
}

/// The shape of an offer as that of a quote; any other stays.
fn as_quote(shape: &[u8]) -> Vec<u8> {
    let shape = String::from_utf8_lossy(shape);
    let quote = shape.replace("job", "quote").replace("Job", "Quote");
    quote.into_bytes()
}

#[test]
fn lines_before_a_farm() {
    assert_eq!(answers(b""), b"");
    assert_eq!(answers(b"\n\nclock\t0"), b"no\t11\nno\t11\nno\t11\n");
    assert_eq!(answers(b"job\t1\t1\t9"), b"no\t11\n");
    assert_eq!(answers(b"quote\t1\t1\t9"), b"no\t11\n");
    assert_eq!(answers(b"farm\t1\t1\t1\t0"), b"no\t11\n");
    assert_eq!(answers(b"farm\t1\t1\t1\t0\t0\t0\t"), b"no\t11\n");
    let many = [
        b"farm\t1\t1\t1\t0\t0\t0".to_vec(),
        b"\t1".repeat(50),
        b"\tx".to_vec(),
    ]
    .concat();
    assert_eq!(answers(&many), b"no\t11\n");
    assert_eq!(answers(&many[..many.len() - 2]), b"no\t3\n");
}

#[test]
fn long_lines_are_answered_once() {
    // 16 bytes and 504 fields of two are 1,024 bytes.
    let longest = [b"farm\t1\t1\t1\t0\t0\t0".to_vec(), b"\t1".repeat(504)].concat();
    assert_eq!(longest.len(), 1_024);
    assert_eq!(answers(&longest), b"no\t3\n");
    let longer = [&longest[..], b"1"].concat();
    assert_eq!(answers(&longer), b"no\t11\n");
    for length in [1_025, 5_000, 70_000, 140_000] {
        let mut day = vec![b'9'; length];
        assert_eq!(answers(&day), b"no\t11\n");
        day.push(b'\n');
        day.extend_from_slice(OPENING);
        assert_eq!(answers(&day), b"no\t11\nopen\t3\t2\n");
    }
}

/// A day typed line by line is answered line by line.
#[test]
fn a_pipe_is_answered_at_once() {
    let mut child = Command::new(env!("CARGO_BIN_EXE_second"))
        .stdin(Stdio::piped())
        .stdout(Stdio::piped())
        .spawn()
        .unwrap();
    let mut stdin = child.stdin.take().unwrap();
    let mut stdout = BufReader::new(child.stdout.take().unwrap());
    for (line, expected) in [
        ("farm\t3\t1\t2\t0\t0\t0\t30\t0\n", "open\t3\t2\n"),
        ("job\t1\t10\t18\n", "yes\t1\t0\t18\t2\n"),
        ("account\t2\n", "account\t2\t0\t0\n"),
    ] {
        stdin.write_all(line.as_bytes()).unwrap();
        let mut given = String::new();
        stdout.read_line(&mut given).unwrap();
        assert_eq!(given, expected);
    }
    stdin.write_all(b"clock\t0").unwrap();
    drop(stdin);
    let rest: Vec<String> = stdout.lines().map(Result::unwrap).collect();
    assert_eq!(rest.last().unwrap(), "clock\t0\t2");
    assert!(child.wait().unwrap().success());
}

/// A reader that goes away ends the program quietly.
#[test]
fn a_closed_output_ends_quietly() {
    let mut child = Command::new(env!("CARGO_BIN_EXE_second"))
        .stdin(Stdio::piped())
        .stdout(Stdio::piped())
        .stderr(Stdio::piped())
        .spawn()
        .unwrap();
    drop(child.stdout.take());
    let mut stdin = child.stdin.take().unwrap();
    // The program may be gone before all is written.
    let _ = stdin.write_all(&b"account\t1\n".repeat(10_000));
    drop(stdin);
    let output = child.wait_with_output().unwrap();
    assert!(output.status.success());
    assert!(output.stderr.is_empty());
}
