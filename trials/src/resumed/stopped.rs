//! Runs stopped at every point, saved as version 2, read into other memory, and continued beside the run that did not stop.

use super::counted::Counted;
use super::steps::{meet_statuses, write};
use crate::compare::Pair;
use crate::engine::Engine;
use crate::lent::Lent;
use crate::met::{meet, Met};
use crate::random::{run, run_from_built, run_in, seeds, Rng};
use crate::script::{Call, Line, Script};
use crate::second::memory::{STATE_WORDS, TABLE_BYTES};
use crate::second::Settings;

/// Each run to its end from every point; longer ones a few lines from each.
pub fn stopped(a: &dyn Engine, b: &dyn Engine) -> Result<Met, String> {
    let mut met = Met::new();
    for seed in seeds(8_000, 100) {
        let rng = &mut Rng::new(seed);
        let (script, lines) = match seed % 5 {
            0 => (run_from_built(rng, 40).0, usize::MAX),
            1 => (run(rng, 250).0, 3),
            2 => (run_in(rng, small(rng.clone()), 60).0, usize::MAX),
            _ => (run(rng, 60).0, usize::MAX),
        };
        let judged = Run::played([a, b], &script)
            .and_then(|run| run.stopped_everywhere([a, b], lines, &mut met));
        judged.map_err(|what| format!("seed {seed}\n{script}{what}"))?;
    }
    Ok(met)
}

/// Settings in which many joins meet.
fn small(mut rng: Rng) -> Settings {
    let (base, digits, depth) = rng.pick(&[(2, 4, 1), (2, 6, 2), (3, 4, 1), (4, 3, 2)]);
    Settings::new(base, digits, depth).expect("in range")
}

/// A run that does not stop, from its first point at which nobody changes the memory by hand any more.
struct Run {
    lines: Vec<Line>,
    /// The answer of each line, and the memory after it.
    points: Vec<(u64, Lent)>,
}

impl Run {
    fn played(engines: [&dyn Engine; 2], script: &Script) -> Result<Run, String> {
        let by_hand = |line: &Line| matches!(line, Line::Word { .. } | Line::Byte { .. });
        let first = script.lines.iter().rposition(by_hand).unwrap_or(0);
        let mut pair = Pair::new(engines[0], engines[1]);
        let mut points = vec![];
        for line in &script.lines {
            let answer = pair.obey(line).map_err(|what| format!("{line}: {what}"))?;
            points.push((answer, pair.memory().clone()));
        }
        Ok(Run {
            lines: script.lines[first..].to_vec(),
            points: points.split_off(first),
        })
    }

    fn stopped_everywhere(
        &self,
        engines: [&dyn Engine; 2],
        lines: usize,
        met: &mut Met,
    ) -> Result<(), String> {
        for at in 0..self.points.len() {
            let writer_and_reader = [at % 2, at / 2 % 2].map(|engine| engines[engine]);
            let resumed = self.resumed(writer_and_reader, at, lines, met);
            let line = &self.lines[at];
            resumed.map_err(|what| format!("stopped after line {at}, {line}: {what}"))?;
        }
        Ok(())
    }

    /// Stopped at a point and saved by one engine, continued for so many lines by the other, or by the same.
    fn resumed(
        &self,
        [writer, engine]: [&dyn Engine; 2],
        at: usize,
        lines: usize,
        met: &mut Met,
    ) -> Result<(), String> {
        let (_, stopped) = &self.points[at];
        let image = write(writer, stopped, 2)?;
        let mut other = Lent::of_noise(at as u64 + 100);
        let mut beside = Beside::new(&other);
        let read = Call::Read {
            image: image.clone(),
        };
        let answer = other.call(engine, &read);
        beside.hold(&Line::Call(read), [0, answer], stopped, &other)?;
        meet_statuses(met, stopped.used_state());
        let mut counted = Counted::from_image(&image);
        other.lend = stopped.lend;
        let later = self.lines[at + 1..].iter().zip(&self.points[at + 1..]);
        for (line, (expected, point)) in later.take(lines) {
            other.spoil_counts();
            let answer = other.obey(engine, line);
            beside
                .hold(line, [*expected, answer], point, &other)
                .and_then(|()| counted.note(line, answer, other.used_state()))
                .map_err(|what| format!("{line}: {what}"))?;
            meet(met, "continued");
        }
        counted.meet(met);
        Ok(())
    }
}

/// What must stand in the memory of the run that was stopped, where it is not that of the other.
struct Beside {
    out: Vec<u8>,
    words: Vec<u64>,
    bytes: Vec<u8>,
}

impl Beside {
    fn new(other: &Lent) -> Beside {
        Beside {
            out: other.out.clone(),
            words: other.state[STATE_WORDS..].to_vec(),
            bytes: other.tables[TABLE_BYTES..].to_vec(),
        }
    }

    /// Answer, every word and byte of the fixed lengths, what was written and what was counted are those of the run that did not stop, and the rest of
    /// the memory is what it was.
    fn hold(
        &mut self,
        line: &Line,
        [expected, answer]: [u64; 2],
        point: &Lent,
        other: &Lent,
    ) -> Result<(), String> {
        if answer != expected {
            return Err(format!("{answer:#x}, without a stop {expected:#x}"));
        }
        let taken = answer & 0xff == 0;
        if let Line::Call(call) = line {
            let length = call.written(answer);
            self.out[..length].copy_from_slice(&point.out[..length]);
        }
        let surveyed = taken && matches!(line, Line::Call(Call::Survey { .. }));
        let same = [
            (other.used_state() == point.used_state(), "state"),
            (other.used_tables() == point.used_tables(), "tables"),
            (other.out == self.out, "output"),
            (
                !surveyed || other.used_counts() == point.used_counts(),
                "survey",
            ),
            (
                other.state[STATE_WORDS..] == self.words,
                "words past the state",
            ),
            (
                other.tables[TABLE_BYTES..] == self.bytes,
                "bytes past the tables",
            ),
        ];
        match same.iter().find(|(same, _)| !same) {
            Some((_, what)) => Err(format!("another {what} than without a stop")),
            None => Ok(()),
        }
    }
}
