//! The game of examples/game.ts, on its script and with a press that arrives, with each put of its run failing in turn, and each write of its display.

use crate::tool_rows::commands::{folder, sink, words_of};
use crate::tool_rows::devices::{are_untold, device};
use crate::tool_rows::folders::wanting;
use board_ports::Device;
use run_tool::sts_main;
use std::alloc::Global;
use std::io;
use std::io::Write;

pub const GAME: &str = "class Paddle {
    x: number = 2
    constructor () { led.plot(2, 4) }
    move(d: number): void {
        led.unplot(this.x, 4)
        this.x = Math.max(0, Math.min(4, this.x + d))
        led.plot(this.x, 4)
    }
}
let paddle = new Paddle()
let drops = [0, 3, 1, 4, 2]
let turn = 0
let score = 0
input.onButtonPressed(Button.A, function () { paddle.move(-1) })
input.onButtonPressed(Button.B, function () { paddle.move(1) })
basic.forever(function () {
    if (turn < 1) {
        let col = drops[turn]
        for (let row = 0; row < 4; row++) {
            led.plot(col, row)
            basic.pause(100)
            led.unplot(col, row)
        }
        if (paddle.x == col) { score += 1 }
        turn += 1
        basic.showNumber(score)
    }
})
";

pub const SCRIPT: &str =
    "{\"end\":900,\"events\":[{\"at\":50,\"do\":\"down\",\"button\":\"A\"},{\"at\":80,\"do\":\"up\",\"button\":\"A\"},\
{\"at\":120,\"do\":\"down\",\"button\":\"A\"},{\"at\":150,\"do\":\"up\",\"button\":\"A\"},\
{\"at\":500,\"do\":\"down\",\"button\":\"B\"},{\"at\":530,\"do\":\"up\",\"button\":\"B\"}]}";

/// A press of B that arrives behind the first instruction: the paddle goes to the right at once.
const PRESS: &str =
    "{\"arrivals\":[{\"after\":1,\"do\":\"down\",\"button\":\"B\"},{\"after\":1,\"do\":\"up\",\"button\":\"B\"}]}";

/// A run by these words, what it writes, which is its display's lines and the closing one, and the moment of each line of the display with its frame, whose lights are
/// bits in reading order.
struct Course {
    words: &'static [&'static str],
    transcript: &'static str,
    frames: &'static [(u32, u32)],
}

/// The game on its script.
const PLAYED: Course = Course {
    words: &["run", "f", "s"],
    transcript: "0 display ...../...../...../...../..#..
0 display #..../...../...../...../..#..
80 display #..../...../...../...../.....
80 display #..../...../...../...../.#...
100 display ...../...../...../...../.#...
100 display ...../#..../...../...../.#...
150 display ...../#..../...../...../.....
150 display ...../#..../...../...../#....
200 display ...../...../...../...../#....
200 display ...../...../#..../...../#....
300 display ...../...../...../...../#....
300 display ...../...../...../#..../#....
400 display ...../...../...../...../#....
400 display ..#../.##../..#../..#../.###.
end 900 script
",
    frames: &[
        (0, 4194304),
        (0, 4194305),
        (80, 1),
        (80, 2097153),
        (100, 2097152),
        (100, 2097184),
        (150, 32),
        (150, 1048608),
        (200, 1048576),
        (200, 1049600),
        (300, 1048576),
        (300, 1081344),
        (400, 1048576),
        (400, 14815428),
    ],
};

/// The same with the press that arrives: the paddle stands one place further to the right, so that it misses the drop.
const PRESSED: Course = Course {
    words: &["run-at", "f", "s", "a"],
    transcript: "0 display ...../...../...../...../..#..
0 display #..../...../...../...../..#..
0 display #..../...../...../...../.....
0 display #..../...../...../...../...#.
80 display #..../...../...../...../.....
80 display #..../...../...../...../..#..
100 display ...../...../...../...../..#..
100 display ...../#..../...../...../..#..
150 display ...../#..../...../...../.....
150 display ...../#..../...../...../.#...
200 display ...../...../...../...../.#...
200 display ...../...../#..../...../.#...
300 display ...../...../...../...../.#...
300 display ...../...../...../#..../.#...
400 display ...../...../...../...../.#...
400 display .###./#..##/#.#.#/##..#/.###.
530 display .###./#..##/#.#.#/##..#/..##.
end 900 script
",
    frames: &[
        (0, 4194304),
        (0, 4194305),
        (0, 1),
        (0, 8388609),
        (80, 1),
        (80, 4194305),
        (100, 4194304),
        (100, 4194336),
        (150, 32),
        (150, 2097184),
        (200, 2097152),
        (200, 2098176),
        (300, 2097152),
        (300, 2129920),
        (400, 2097152),
        (400, 15324974),
        (530, 13227822),
    ],
};

/// More puts than the run makes.
const MOST: u64 = 1000;

/// What a run came to. The words are those that the display was told: how many of the frames, or nothing where it is
/// gone or was told other words. The others are the devices at the ports that the run doesn't write to.
#[derive(Drop)]
struct Came {
    status: u8,
    taken: usize,
    whole_lines: usize,
    is_prefix: bool,
    words: Option<usize>,
    others_stay: bool,
}

/// How many of these frames a device was told, where it is there and was told these alone.
fn frames_logged(place: Option<&Option<Box<dyn Device>>>, frames: &[(u32, u32)]) -> Option<usize> {
    let Some(Some(device)) = place else {
        return None;
    };
    for (at, frame) in frames.iter().enumerate() {
        match device.logged(at) {
            None => return Some(at),
            Some((now, word)) => {
                if now != frame.0 || word != frame.1 {
                    return None;
                }
            }
        }
    }
    match device.logged(frames.len()) {
        None => Some(frames.len()),
        Some(_) => None,
    }
}

/// Runs the game over four devices, with that put and that write of the display failing.
fn play(alloc: Global, course: &Course, put: u64, write: u64) -> io::Result<Came> {
    let mut folder = folder(alloc, 0, GAME).map_err(wanting)?;
    folder.add(alloc, "s", SCRIPT.as_bytes()).map_err(wanting)?;
    folder.add(alloc, "a", PRESS.as_bytes()).map_err(wanting)?;
    let mut sink = sink(alloc, put, 1000).map_err(wanting)?;
    let mut plugs: Vec<Option<Box<dyn Device>>> = Vec::new(alloc);
    for failing in [write, 0, 0, 0] {
        let device = device(alloc, 20, failing).map_err(wanting)?;
        plugs.push(Some(Box::new(alloc, device)?))?;
    }
    let words = words_of(alloc, course.words)?;
    let status = sts_main(alloc, words.as_slice(), &mut folder, &mut sink, &mut plugs);
    let taken = sink.taken();
    Ok(Came {
        status,
        taken: taken.len(),
        whole_lines: taken.iter().filter(|byte| **byte == b'\n').count(),
        is_prefix: course.transcript.as_bytes().starts_with(taken),
        words: frames_logged(plugs.first(), course.frames),
        others_stay: are_untold(plugs.as_slice(), 1),
    })
}

/// Whether a run wrote the whole transcript.
fn is_whole(came: &Came, course: &Course) -> bool {
    came.status == 0 && came.is_prefix && came.taken == course.transcript.len() && came.others_stay
}

/// Whether a run was cut: the sink took a prefix of the transcript, and the display its whole lines' words.
fn is_cut(came: &Came) -> bool {
    came.status == 22 && came.is_prefix && came.words == Some(came.whole_lines) && came.others_stay
}

/// Each put failing in turn, until a run meets no fault.
fn show_puts<W: Write>(alloc: Global, out: &mut W, course: &Course) -> io::Result<()> {
    for put in 1..MOST {
        let came = play(alloc, course, put, 0)?;
        if is_whole(&came, course) && came.words == Some(course.frames.len()) {
            return out.write_all(b"each put failed in turn\n");
        }
        if !is_cut(&came) {
            return writeln!(
                out,
                "put {put}: status {}, {} bytes",
                came.status, came.taken
            );
        }
    }
    out.write_all(b"too many puts\n")
}

/// Whether the transcript stays where that write of the display fails, and the display keeps so many words.
fn keeps(alloc: Global, course: &Course, write: u64, words: usize) -> io::Result<bool> {
    let came = play(alloc, course, 0, write)?;
    Ok(is_whole(&came, course) && came.words == Some(words))
}

/// Each write of the display failing in turn: it keeps the words before, and the transcript stays. No write fails in the last run.
fn show_writes<W: Write>(alloc: Global, out: &mut W, course: &Course) -> io::Result<()> {
    let mut write = 1u64;
    for before in 0..course.frames.len() {
        if !keeps(alloc, course, write, before)? {
            return writeln!(out, "write {write} fails otherwise");
        }
        write = write.saturating_add(1);
    }
    if !keeps(alloc, course, write, course.frames.len())? {
        return writeln!(out, "no write fails, otherwise");
    }
    out.write_all(b"each write failed in turn\n")
}

/// The game at each fault.
pub fn show<W: Write>(alloc: Global, out: &mut W) -> io::Result<()> {
    for course in &[PLAYED, PRESSED] {
        show_puts(alloc, out, course)?;
        show_writes(alloc, out, course)?;
    }
    Ok(())
}
