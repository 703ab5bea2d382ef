//! Images whose records are bad, and of most what reading must answer: the number decides first, then the first record that it speaks of.
//!
//! - `edited`: an image changed record by record.
//! - `by_hand`: numbers and places worked out by hand.
//! - `one_bit`: a neighbor whose id differs from the owner's in one bit.
//! - `networks`: the right images that faults go into.
//! - `faults`: one fault of each cause at a record of such an image.
//! - `faulty`: images with one, two and three faults.
//! - `moved`: the records of one node moved to the end.
//! - `replaced`: every two records of an image replaced by anything.
//! - `long`: as many records as an image can have.

mod by_hand;
mod edited;
mod faults;
mod faulty;
mod long;
mod moved;
mod networks;
mod one_bit;
mod replaced;

pub use by_hand::by_hand;
pub use faults::Cause;
pub use faulty::{one_fault, three_faults, two_faults};
pub use long::long;
pub use moved::moved;
pub use networks::{networks, Whole};
pub use one_bit::one_bit;
pub use replaced::two_replaced;

/// An image, and the refusal and the place that reading it must answer.
#[derive(Clone, Debug)]
pub struct Judged {
    pub name: String,
    pub image: Vec<u8>,
    pub refusal: u8,
    pub place: u64,
}

impl Judged {
    /// The packed answer.
    pub fn answer(&self) -> u64 {
        self.place << 8 | u64::from(self.refusal)
    }
}

/// The case of this name among those by hand and the long ones.
pub fn named(name: &str) -> Judged {
    let all = by_hand().into_iter().chain(long());
    let mut found = all.filter(|case| case.name == name);
    let case = found.next().expect(name);
    assert!(found.next().is_none(), "two are named {name}");
    case
}
