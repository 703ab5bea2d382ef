//! What these trials are made of.

use super::judged;
use crate::engine::Engine;
use crate::failures::Way;
use crate::lent::Lent;
use crate::met::{meet, Met};
use crate::script::Call;

/// Both engines answer what the literal reading does; answers it.
pub fn answered(
    engines: [&dyn Engine; 2],
    memory: &mut Lent,
    trace: Vec<u8>,
    met: &mut Met,
) -> Result<u64, String> {
    let expected = judged(memory, &trace);
    let call = Call::Trace { trace };
    for engine in engines {
        let answer = memory.call(engine, &call);
        if answer != expected {
            let name = engine.name();
            return Err(format!("{call}: {name} {answer:#x}, not {expected:#x}"));
        }
    }
    meet(met, outcome(expected));
    Ok(expected)
}

/// An answer by its number.
fn outcome(answer: u64) -> &'static str {
    match answer & 0xff {
        0 => "accepted",
        22 => "counts",
        9 => "no node",
        _ => "not allowed",
    }
}

/// A lookup by its way.
pub fn kind(way: &Way) -> &'static str {
    let around = way.passed_over.iter().any(|&passed| passed > 0);
    match (way.arrived, way.nodes.len()) {
        (true, 1) => "to itself",
        (true, _) if around => "arrived, around a failed node",
        (true, _) => "arrived",
        (false, 1) => "lost at once",
        (false, _) => "lost on the way",
    }
}

/// The network is what it was.
pub fn is_kept(memory: &Lent, whole: &Lent) -> Result<(), String> {
    match memory == whole {
        true => Ok(()),
        false => Err("the network has changed".into()),
    }
}
