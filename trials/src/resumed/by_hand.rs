//! Joins with their images of version 2 after each step, worked out byte by byte.

use super::networks::{all_statuses, ALL_STATUSES_BEHIND};
use super::steps::{both_read, taken, write};
use crate::compare::Pair;
use crate::engine::Engine;
use crate::lent::Lent;
use crate::paper::{e1_version_2, JOINING};
use crate::script::{Call, Script};
use crate::steps::{call, expect};

/// Document 01's smallest join: each call, its answer, and the image after it.
fn smallest() -> [(&'static str, u64, Vec<u8>); 4] {
    let founded = [
        4, 2, 2, 2, 1, 1, 0, 0, 0, 0, 2, 0, 1, 0, 0, 1, 1, 1, 0, 1, 0, 1, 0, 0,
    ];
    let mut waiting = JOINING.to_vec();
    // One record more, by which node 2 knows node 1; the status; a second request.
    waiting.splice(24..24, [2, 0, 0, 1]);
    (waiting[14], waiting[38], waiting[60]) = (5, 2, 2);
    [
        ("found 2 2 1 0", 0, founded.to_vec()),
        ("begin 1 1", 0x200, JOINING.to_vec()),
        ("deliver 2 1", 0x100, waiting),
        ("deliver 2 1", 0x100_0300, e1_version_2()),
    ]
}

/// Each image is written, and read again at once; then the join goes on in what was read.
pub fn by_hand(a: &dyn Engine, b: &dyn Engine) -> Result<(), String> {
    let mut pair = Pair::new(a, b);
    for (line, answer, image) in smallest() {
        let script: Script = line.parse()?;
        let obeyed = pair.obey(&script.lines[0])?;
        if obeyed != answer {
            return Err(format!("{line}: {obeyed:#x}"));
        }
        is_written(&mut pair, &image).map_err(|what| format!("{line}: {what}"))?;
        expect(
            &mut pair,
            Call::Found {
                settings: [16, 8, 4],
                id: 7,
            },
            0,
        )?;
        expect(&mut pair, Call::Read { image }, 0)?;
    }
    sections([a, b])
}

fn is_written(pair: &mut Pair, image: &[u8]) -> Result<(), String> {
    let answer = call(pair, Call::WRITE_2)?;
    let out = &pair.memory().out[..image.len()];
    if answer != (image.len() as u64) << 8 || out != image {
        return Err(format!("{answer:#x}, {out:02x?}, not {image:02x?}"));
    }
    Ok(())
}

/// A node of each status.
fn sections(engines: [&dyn Engine; 2]) -> Result<(), String> {
    let memory = all_statuses();
    let expected = taken(memory.used_state(), memory.used_tables());
    for engine in engines {
        let image = write(engine, &memory, 2)?;
        if !image.ends_with(&ALL_STATUSES_BEHIND) {
            return Err(format!("a node of each status: {image:02x?}"));
        }
        both_read(engines, &mut Lent::of_noise(5), &image, &expected)?;
    }
    Ok(())
}
