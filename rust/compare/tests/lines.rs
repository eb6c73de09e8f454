//! The line program as a process: on files, on a pipe that gives it few bytes at a time, before a
//! reader that takes its time, and where a call fails. Expected are the second implementation's
//! lines.

use compare::lines::{self, BUFFER};
use compare::read_bytes;
use std::fs::{self, File};
use std::io::{Read, Write};
use std::os::unix::io::OwnedFd;
use std::os::unix::net::{UnixDatagram, UnixStream};
use std::process::{Child, ChildStdin, Command, Output, Stdio};
use std::thread;
use std::time::Duration;

const ROOT: &str = concat!(env!("CARGO_MANIFEST_DIR"), "/../..");

const GOOD: &[u8] = b"4016000000000000 4000000000000000";
const LONGER: &[u8] = b"4016000000000000 40000000000000000";

fn start(input: impl Into<Stdio>, output: impl Into<Stdio>) -> Child {
    let program = format!("{ROOT}/crates/remainder_lines/out/remainder_lines");
    let mut command = Command::new(&program);
    command.stdin(input).stdout(output).stderr(Stdio::piped());
    let child = command.spawn();
    child.unwrap_or_else(|why| panic!("{program}: {why}; make tests builds it"))
}

/// What a program has written that ended well and complained of nothing.
fn written(output: Output) -> Vec<u8> {
    let said = String::from_utf8_lossy(&output.stderr);
    assert!(output.status.success() && said.is_empty(), "{said}");
    output.stdout
}

/// A file of this name for a test, open for reading.
fn stored(name: &str, input: &[u8]) -> File {
    let path = format!("{}/{name}", env!("CARGO_TARGET_TMPDIR"));
    fs::write(&path, input).unwrap();
    File::open(&path).unwrap()
}

fn on_file(name: &str, input: &[u8]) -> Vec<u8> {
    let child = start(stored(name, input), Stdio::piped());
    written(child.wait_with_output().unwrap())
}

/// How many lines of a right output tell the numbers 0, 3, 4 and 5, and how many are bad.
fn told(input: &[u8], written: &[u8]) -> [usize; 5] {
    assert_eq!(lines::compare(input, written).different, 0);
    let text = String::from_utf8_lossy(written);
    let ends = [" 0", " 3", " 4", " 5", "bad line"];
    ends.map(|end| text.lines().filter(|line| line.ends_with(end)).count())
}

/// Computed lines, NaNs of every kind among them: what they expect is what is expected here, and what
/// the program writes.
#[test]
fn computed_lines() {
    let [input, output] = ["in", "out"].map(|end| read_bytes(&format!("computed/lines.{end}")));
    for output in [output, on_file("computed", &input)] {
        assert_eq!(told(&input, &output), [103, 92, 11, 8, 61]);
    }
}

/// The output that the program is held to when it is proved is not its own, and its input has lines
/// of every kind across the ends of the buffer: so many bytes before the end, and so many in all.
#[test]
fn the_stored_input() {
    let read = |name: &str| fs::read(format!("{ROOT}/crates/remainder_lines/{name}")).unwrap();
    let input = read("stdin");
    assert_eq!(told(&input, &read("stdout")), [1_132, 84, 57, 62, 824]);
    let cuts = lines::cuts(&input).into_iter();
    let cuts: Vec<_> = cuts.map(|(place, line)| (place, line.len())).collect();
    let expected = [
        (11, 34),         // finished
        (1, 34),          // a NaN
        (17, 34),         // finished, in lower case
        (33, 34),         // a zero divisor, its newline alone in the next read
        (0, 1),           // empty
        (32, 34),         // an infinite dividend, in lower case
        (33, 35),         // bad by the next byte
        (16, 72_601),     // longer than the buffer
        (65_536, 72_601), // the same
    ];
    assert_eq!(cuts, expected);
}

/// Over a hundred reads, each of which ends in a line.
#[test]
fn a_long_file() {
    let input = lines::cut_everywhere();
    let told = told(&input, &on_file("long", &input));
    let cuts = lines::cuts(&input);
    println!("{} bytes, {} cuts, {told:?}", input.len(), cuts.len());
    assert_eq!(
        (told, cuts.len()),
        ([131_503, 3_804, 3_057, 2_806, 84_569], 103)
    );
    for place in 0..34 {
        let is_cut_there = |cut: &&(usize, &[u8])| cut.0 == place && cut.1.len() == 34;
        assert_eq!(cuts.iter().filter(is_cut_there).count(), 2, "{place}");
    }
}

/// Inputs around the length of the buffer, whose answers need all of the room when it is full of
/// newlines, and how many lines they have.
#[test]
fn lengths() {
    let newlines = |count| vec![b'\n'; count];
    let dots = |count| vec![b'.'; count];
    for (input, lines) in [
        (vec![], 0),
        (newlines(1), 1),
        (newlines(BUFFER - 1), BUFFER - 1),
        (newlines(BUFFER), BUFFER),
        (newlines(BUFFER + 1), BUFFER + 1),
        (newlines(3 * BUFFER + 1), 3 * BUFFER + 1),
        (GOOD.to_vec(), 1),
        (LONGER.to_vec(), 1),
        (GOOD.repeat(BUFFER), 1),
        (dots(BUFFER), 1),
        ([&dots(BUFFER - 1)[..], b"\n"].concat(), 1),
        ([&dots(BUFFER)[..], b"\n"].concat(), 1),
        ([&dots(BUFFER - 34)[..], b"\n", GOOD].concat(), 2),
        ([&dots(BUFFER - 34)[..], b"\n", LONGER].concat(), 2),
        ([&dots(3 * BUFFER)[..], b"\n\n", GOOD, b"\n"].concat(), 3),
    ] {
        let told = told(&input, &on_file("length", &input));
        println!("{} bytes: {told:?}", input.len());
        assert_eq!(told.iter().sum::<usize>(), lines);
    }
}

#[test]
fn a_slow_pipe() {
    let input = lines::drawn(400);
    let mut child = start(Stdio::piped(), Stdio::piped());
    let pipe = child.stdin.take().unwrap();
    let output = thread::scope(|scope| {
        scope.spawn(|| feed(pipe, &input));
        child.wait_with_output().unwrap()
    });
    assert_eq!(told(&input, &written(output)), [240, 10, 4, 3, 143]);
}

/// Few bytes at a time, so that reads return with less than they could. A program that no longer
/// reads is found by what it has written.
fn feed(mut pipe: ChildStdin, mut input: &[u8]) {
    for size in [1, 2, 33, 3, 34, 5, 17, 8, 35, 13, 21].into_iter().cycle() {
        let (piece, rest) = input.split_at(size.min(input.len()));
        if piece.is_empty() || pipe.write_all(piece).is_err() {
            return;
        }
        input = rest;
        thread::sleep(Duration::from_millis(1));
    }
}

/// Each read gets one line, and there are more of them than 16 bits can count. A read of nothing is
/// the end.
#[test]
fn line_by_line() {
    let input = vec![b'\n'; 66_000];
    let (ours, theirs) = UnixDatagram::pair().unwrap();
    let path = format!("{}/answers", env!("CARGO_TARGET_TMPDIR"));
    let child = start(OwnedFd::from(theirs), File::create(&path).unwrap());
    for line in input.chunks(1) {
        ours.send(line).unwrap();
    }
    ours.send(b"").unwrap();
    assert_eq!(ended(child), ["", ""]);
    let told = told(&input, &fs::read(&path).unwrap());
    assert_eq!(told, [0, 0, 0, 0, 66_000]);
}

#[test]
fn a_slow_reader() {
    let input = [vec![b'\n'; 2 * BUFFER], lines::drawn(10_000)].concat();
    let mut child = start(stored("slow", &input), Stdio::piped());
    let mut pipe = child.stdout.take().unwrap();
    let mut output = Vec::new();
    while pipe.by_ref().take(50_000).read_to_end(&mut output).unwrap() > 0 {
        interrupt(&child);
    }
    assert_eq!(told(&input, &output), [5_875, 160, 145, 120, 134_772]);
    written(child.wait_with_output().unwrap());
}

/// A program that is stopped while it writes, and goes on, has written a part.
fn interrupt(child: &Child) {
    let script = "kill -STOP $0; sleep 0.002; kill -CONT $0";
    let pid = child.id().to_string();
    let mut command = Command::new("sh");
    command.args(["-c", script, &pid]).stderr(Stdio::null());
    command.status().unwrap();
}

/// What a program has written and said.
fn ended(child: Child) -> [String; 2] {
    let output = child.wait_with_output().unwrap();
    [output.stdout, output.stderr].map(|text| String::from_utf8(text).unwrap())
}

/// What has failed is said once, and nothing more is answered.
#[test]
fn failed_reads() {
    let directory = start(File::open(ROOT).unwrap(), Stdio::piped());
    assert_eq!(ended(directory), ["", "standard input: Is a directory\n"]);
    // a socket that was closed before all was read at its other end
    let (ours, mut theirs) = UnixStream::pair().unwrap();
    theirs.write_all(b"unread").unwrap();
    (&ours).write_all(&[GOOD, b"\n", GOOD].concat()).unwrap();
    drop(ours);
    let reset = start(OwnedFd::from(theirs), Stdio::piped());
    let said = "standard input: Connection reset by peer\n";
    assert_eq!(ended(reset), ["3FF8000000000000 2 0\n", said]);
}

#[test]
fn failed_writes() {
    let ended_and_begun = [b"\n", GOOD].concat();
    for input in [vec![b'\n'; 3 * BUFFER], GOOD.to_vec(), ended_and_begun] {
        let full = File::options().write(true).open("/dev/full").unwrap();
        let child = start(stored("failure", &input), full);
        let said = "standard output: No space left on device\n";
        assert_eq!(ended(child), ["", said]);
    }
}
