//! Two classes of boards that hear one another by radio, with each fetch of their files and each put of their runs failing in turn.

use crate::tool_rows::commands::{folder, sink, words_of};
use crate::tool_rows::devices::{are_untold, device};
use crate::tool_rows::folders::wanting;
use board_ports::Device;
use run_tool::sts_main;
use std::alloc::Global;
use std::io;
use std::io::Write;
use sts_base::NoMemory;
use tool_folder::MemoryFolder;

/// Board 0 sends, and board 1 writes what it hears.
const TWO: &str =
    "{\"end\":1000,\"boards\":[{\"program\":\"sends\",\"script\":\"s\"},{\"program\":\"hears\",\"script\":\"s\"}],\"lose\":[]}";

const SENDS: &str = "radio.sendNumber(5)";

const HEARS: &str =
    "control.onEvent(200, 0, function () { serial.writeNumber(control.eventValue()) })";

/// Each board counts those that it hears, and board 7 doesn't hear board 0.
const EIGHT: &str = "{\"end\":1000,\"boards\":[\
{\"program\":\"counts\",\"script\":\"s\"},{\"program\":\"counts\",\"script\":\"s\"},\
{\"program\":\"counts\",\"script\":\"s\"},{\"program\":\"counts\",\"script\":\"s\"},\
{\"program\":\"counts\",\"script\":\"s\"},{\"program\":\"counts\",\"script\":\"s\"},\
{\"program\":\"counts\",\"script\":\"s\"},{\"program\":\"counts\",\"script\":\"s\"}],\
\"lose\":[{\"at\":0,\"from\":0,\"to\":7}]}";

const COUNTS: &str = "let n = 0
control.onEvent(200, 0, function () { n += control.eventValue() })
radio.sendNumber(1)
basic.pause(2)
serial.writeNumber(n)
";

const EMPTY: &str = "{\"end\":1000,\"events\":[]}";

/// The words of a class, what it writes, and how many files it fetches: its own, and two for each board.
struct Course {
    words: &'static [&'static str],
    transcript: &'static str,
    fetches: u64,
}

const COURSES: [Course; 2] = [
    Course {
        words: &["class", "f"],
        transcript: "0 0 radio 5
1 1 serial 35
0 end 1 quiet
1 end 1 quiet
",
        fetches: 5,
    },
    Course {
        words: &["class", "eight"],
        transcript: "0 0 radio 1
1 0 radio 1
2 0 radio 1
3 0 radio 1
4 0 radio 1
5 0 radio 1
6 0 radio 1
7 0 radio 1
0 2 serial 37
1 2 serial 37
2 2 serial 37
3 2 serial 37
4 2 serial 37
5 2 serial 37
6 2 serial 37
7 2 serial 36
0 end 2 quiet
1 end 2 quiet
2 end 2 quiet
3 end 2 quiet
4 end 2 quiet
5 end 2 quiet
6 end 2 quiet
7 end 2 quiet
",
        fetches: 17,
    },
];

/// More puts than a run makes.
const MOST: u64 = 1000;

/// The files of both classes, of which the fetch of that number is to fail.
pub fn class_files(alloc: Global, failing: u64) -> Result<MemoryFolder, NoMemory> {
    let mut files = folder(alloc, failing, TWO)?;
    files.add(alloc, "sends", SENDS.as_bytes())?;
    files.add(alloc, "hears", HEARS.as_bytes())?;
    files.add(alloc, "eight", EIGHT.as_bytes())?;
    files.add(alloc, "counts", COUNTS.as_bytes())?;
    files.add(alloc, "s", EMPTY.as_bytes())?;
    Ok(files)
}

/// What was written, of what is due.
#[derive(Clone, Copy, PartialEq, Eq, Drop)]
enum Written {
    Whole,
    Part,
    FolderFailed,
    Otherwise,
}

fn what_stands(taken: &[u8], transcript: &str) -> Written {
    if transcript.as_bytes().starts_with(taken) {
        if taken.len() == transcript.len() {
            Written::Whole
        } else {
            Written::Part
        }
    } else if taken.starts_with(b"folder failed\n") && taken.len() == 14 {
        Written::FolderFailed
    } else {
        Written::Otherwise
    }
}

/// Runs a class with that fetch and that put failing, over four devices: the status, and what was written, which is otherwise where a device was told anything.
fn play(alloc: Global, course: &Course, fetch: u64, put: u64) -> io::Result<(u8, Written)> {
    let mut files = class_files(alloc, fetch).map_err(wanting)?;
    let mut sink = sink(alloc, put, 1000).map_err(wanting)?;
    let mut plugs: Vec<Option<Box<dyn Device>>> = Vec::new(alloc);
    for _ in 0..4u32 {
        let device = device(alloc, 20, 0).map_err(wanting)?;
        plugs.push(Some(Box::new(alloc, device)?))?;
    }
    let words = words_of(alloc, course.words)?;
    let status = sts_main(alloc, words.as_slice(), &mut files, &mut sink, &mut plugs);
    if !are_untold(plugs.as_slice(), 0) {
        return Ok((status, Written::Otherwise));
    }
    Ok((status, what_stands(sink.taken(), course.transcript)))
}

/// Each put failing in turn, until a run meets no fault: a part of the transcript is written, and at last the whole.
fn show_puts<W: Write>(alloc: Global, out: &mut W, course: &Course) -> io::Result<()> {
    for put in 1..MOST {
        match play(alloc, course, 0, put)? {
            (0, Written::Whole) => return out.write_all(b"each put failed in turn\n"),
            (22, Written::Part) => {}
            (status, _) => return writeln!(out, "put {put}: status {status}, otherwise"),
        }
    }
    out.write_all(b"too many puts\n")
}

/// Each fetch failing in turn: that alone is told. No fetch fails in the last run.
fn show_fetches<W: Write>(alloc: Global, out: &mut W, course: &Course) -> io::Result<()> {
    for fetch in 1..MOST {
        match play(alloc, course, fetch, 0)? {
            (0, Written::Whole) if fetch > course.fetches => {
                return out.write_all(b"each fetch failed in turn\n");
            }
            (20, Written::FolderFailed) if fetch <= course.fetches => {}
            (status, _) => return writeln!(out, "fetch {fetch}: status {status}, otherwise"),
        }
    }
    out.write_all(b"too many fetches\n")
}

/// Both classes at each fault.
pub fn show<W: Write>(alloc: Global, out: &mut W) -> io::Result<()> {
    for course in &COURSES {
        show_puts(alloc, out, course)?;
        show_fetches(alloc, out, course)?;
    }
    Ok(())
}
