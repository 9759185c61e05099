//! Tests alone: images run on boards without devices. A line of standard input is the moment at which the script ends, which has no entries, and an image in
//! hexadecimal digits. The output is the transcript of its run, and a line of how many instructions the board's switch executed.

use anyhow::anyhow;
use board_ports::SureDevice;
use board_run::{Board, End};
use board_world::END_LIMIT;
use event_script::Script;
use std::alloc::Global;
use std::io::{self, BufRead, BufReader};
use sts_base::Seq;
use tool_io::{Sink, StdSink};

/// The most bytes of an image.
const FLASH_BYTES: usize = 262_144;

/// The most instructions of a run.
const BUDGET: u32 = 2_147_483_648;

/// A script without entries.
fn quiet_script(alloc: Global, end: u32) -> Script {
    Script {
        end,
        entries: Seq::new(alloc),
    }
}

/// Runs an image on a board, up to a moment.
fn run_image<K: Sink>(alloc: Global, end: u32, image: Vec<u8>, out: &mut K) -> anyhow::Result<()> {
    if end > END_LIMIT || image.len() > FLASH_BYTES {
        return Err(anyhow!("the script or the image is too long"));
    }
    let script = quiet_script(alloc, end);
    let Ok(mut board) = Board::<SureDevice>::mount(alloc, image, script, Vec::new(alloc)) else {
        return Err(anyhow!("no memory"));
    };
    if board.run(BUDGET, out) == End::SinkFault {
        return Err(anyhow!("the output is cut"));
    }
    let text = format!(in alloc; "switched {}\n", board.switched())?;
    out.put(text.as_bytes())
        .map_err(|_| anyhow!("the output is cut"))
}

/// Runs the image of a line.
fn obey<K: Sink>(alloc: Global, line: &str, out: &mut K) -> anyhow::Result<()> {
    let (end, digits) = line.split_once(' ').ok_or(anyhow!("no image"))?;
    let image = hex::decode(alloc, digits)?;
    run_image(alloc, end.parse::<u32>()?, image, out)
}

/// Runs the images of all lines.
pub fn answer_all(rt: &(impl Input + Print), alloc: Global) -> anyhow::Result<()> {
    let mut out = StdSink::new(alloc, io::writer(rt)).map_err(|_| anyhow!("no memory"))?;
    for line in BufReader::new(alloc, rt.reader())?.lines(alloc) {
        obey(alloc, line?.as_str(), &mut out)?;
    }
    Ok(())
}
