//! Sheets made by hand, with the answers worked out from document 01. In tests/*.hand a line is `CALL => ANSWER`;
//! one without `=>` gets no answer.

use std::io::Write;
use std::process::{Command, Stdio};

fn answers(sheet: &[u8]) -> String {
    let mut oracle = Command::new(env!("CARGO_BIN_EXE_oracle"))
        .stdin(Stdio::piped())
        .stdout(Stdio::piped())
        .spawn()
        .expect("the oracle starts");
    oracle.stdin.take().expect("a pipe").write_all(sheet).expect("the oracle reads");
    let output = oracle.wait_with_output().expect("the oracle ends");
    assert!(output.status.success());
    String::from_utf8(output.stdout).expect("answers are text")
}

fn hold(hand: &str) {
    let mut sheet = String::new();
    let mut wanted = Vec::new();
    for line in hand.lines() {
        let call = match line.split_once(" => ") {
            Some((call, answer)) => {
                wanted.push((call, answer));
                call
            }
            None => line,
        };
        sheet.push_str(call);
        sheet.push('\n');
    }
    let given = answers(sheet.as_bytes());
    let given: Vec<&str> = given.lines().collect();
    for (at, (call, answer)) in wanted.iter().enumerate() {
        assert_eq!(given.get(at), Some(answer), "call {} is {call}", at + 1);
    }
    assert_eq!(given.len(), wanted.len());
}

#[test]
fn queue() {
    hold(include_str!("queue.hand"));
}

#[test]
fn delta() {
    hold(include_str!("delta.hand"));
}

#[test]
fn sync() {
    hold(include_str!("sync.hand"));
}

#[test]
fn layer() {
    hold(include_str!("layer.hand"));
}

#[test]
fn desk() {
    hold(include_str!("desk.hand"));
}

/// 128 undiscarded: the next gives 4, and an advance makes room again.
#[test]
fn full_queue() {
    let mut sheet = String::from("desk 3 0 60 0\ntake 1 0 5\n");
    let mut wanted = String::from("0\n0 0\n");
    for frame in 0..68 {
        sheet += &format!("take 0 {frame} 1\n");
        wanted += &format!("0 {}\n", frame + 60);
    }
    sheet += "take 0 68 1\nadvance\nadvance\ntake 0 68 1\ntake 1 1 5\ntake 1 2 5\nsettle\ntake 0 68 1\ntake 0 69 1\n";
    wanted += "4\n0 -1 0 00000000 c 00000005 c\n0 -1 0 00000000 c 00000005 p\n4\n0 1\n0 2\n0 -1 0\n0 128\n4\n";
    assert_eq!(answers(sheet.as_bytes()), wanted);
}

#[test]
fn lines() {
    let full = |call: &str, length: usize| format!("{call}{}", " ".repeat(length - call.len()));
    let sheet = [
        b"q.wrong\r\n\tq.wrong\nq.wrong\t\n  q.wrong  \n\n   \n # q.wrong\nq.wrong #\nQ.wrong\n".to_vec(),
        full("q.wrong", 4096).into_bytes(),
        b"\n".to_vec(),
        full("q.wrong", 4097).into_bytes(),
        b"\n".to_vec(),
        full("#", 4096).into_bytes(),
        b"\n".to_vec(),
        full("#", 4097).into_bytes(),
        b"\n".to_vec(),
        full("", 4096).into_bytes(),
        b"\n".to_vec(),
        full("", 4097).into_bytes(),
        format!("\nq.add {}1 5\n", "0".repeat(4000)).into_bytes(),
        b"q.add\x002 5\nq.\xffwrong\n\x00\nq.wrong".to_vec(),
    ]
    .concat();
    assert_eq!(answers(&sheet), "bad\nbad\nbad\n0 -1\nbad\nbad\n0 -1\nbad\nbad\nbad\n0 1\nbad\nbad\nbad\n0 -1\n");
    assert_eq!(answers(b""), "");
    assert_eq!(answers(b"\n\n"), "");
}
