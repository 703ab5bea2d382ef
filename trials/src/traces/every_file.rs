//! Every short file of a few bytes, in E1: most are refused by their counts, and the others are every trace of few paths.

use super::steps::{answered, is_kept};
use crate::engine::{Engine, Second};
use crate::lent::Lent;
use crate::met::Met;
use crate::paper::E1;
use crate::script::Call;

/// Bytes, and how many of them a file has at most.
const SHORT: [(&[u8], usize); 3] = [
    (&[0, 1, 2, 3], 8),
    (&[0, 1, 2, 9, 10, 255], 6),
    (&[1, 2, 3, 64, 65, 129], 5),
];

pub fn every_file(a: &dyn Engine, b: &dyn Engine) -> Result<Met, String> {
    let mut memory = Lent::noise();
    let image = E1.to_vec();
    memory.call(&Second, &Call::Read { image });
    let (whole, mut met) = (memory.clone(), Met::new());
    for (bytes, most) in SHORT {
        for length in 0..=most {
            for number in 0..bytes.len().pow(length as u32) {
                let trace = file(bytes, length, number);
                answered([a, b], &mut memory, trace, &mut met)?;
            }
        }
    }
    is_kept(&memory, &whole)?;
    Ok(met)
}

/// The file of this length with this number, counted by the bytes.
fn file(bytes: &[u8], length: usize, number: usize) -> Vec<u8> {
    let places = (0..length as u32).map(|place| number / bytes.len().pow(place) % bytes.len());
    places.map(|place| bytes[place]).collect()
}
