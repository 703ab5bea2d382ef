//! Fillings that are refused otherwise, or write past what is lent.

use trials::second::memory::COUNT;

use crate::wrong_fills::{are_seen, Wrong, ALL};

const WRONG: [Wrong; 16] = [
    (
        "it is added before it is refused 16",
        |after| {
            if after.answer == 16 {
                let list = after.without_refusal();
                after.add(&list);
                after.undo_list();
                after.answer = 16;
            }
        },
        "in order, lengths, most",
    ),
    (
        "it is listed before it is refused 16",
        |after| {
            if after.answer == 16 {
                let list = after.without_refusal();
                after.write(list.as_flattened());
            }
        },
        "in order, lengths, most",
    ),
    (
        "16 is forgotten",
        |after| {
            if after.answer == 16 {
                let list = after.without_refusal();
                after.add(&list);
            }
        },
        "in order, lengths, most",
    ),
    (
        "a refused one has the number of additions",
        |after| {
            if after.answer == 16 {
                after.answer |= (after.without_refusal().len() as u64) << 8;
            }
        },
        "in order, lengths, most",
    ),
    (
        "the list needs one byte more",
        |after| {
            if after.taken() && after.out.len() <= 4 * (after.answer >> 8) as usize {
                after.refuse(16);
            }
        },
        "in order, lengths, most",
    ),
    (
        "the list needs the memory of the longest",
        |after| {
            if after.taken() && after.out.len() < 21_504 {
                after.refuse(16);
            }
        },
        "in order, lengths",
    ),
    (
        "15 is forgotten",
        |after| {
            if after.answer == 15 {
                let list = after.without_refusal();
                after.add(&list);
            }
        },
        "in order, among joins, restored",
    ),
    (
        "a join that has not begun to notify is let pass",
        |after| {
            let state = after.state.to_vec();
            let mut statuses = (1..=state[COUNT] as usize).map(|node| state[8 * node + 1]);
            if after.answer == 15 && statuses.all(|status| status < 3) {
                after.answer = 0;
            }
        },
        "among joins, restored",
    ),
    (
        "16 is judged before 15",
        |after| {
            if after.answer == 15 && after.out.len() < 4 * after.without_refusal().len() {
                after.answer = 16;
            }
        },
        "in order",
    ),
    (
        "15 is judged before 2",
        |after| {
            if after.answer == 2 && after.state[8 * 3 + 1] != 0 {
                after.answer = 15;
            }
        },
        "in order",
    ),
    (
        "16 is judged before 2",
        |after| {
            if after.answer == 2 && after.out.is_empty() {
                after.answer = 16;
            }
        },
        "in order",
    ),
    (
        "2 is judged before 1",
        |after| after.answer += u64::from(after.answer == 1),
        "in order",
    ),
    (
        "a network that passes is refused",
        |after| after.answer += 16 * u64::from(after.answer == 0),
        ALL,
    ),
    (
        "a word of the state is changed",
        |after| {
            if after.taken() {
                after.state[519] ^= 1;
            }
        },
        ALL,
    ),
    (
        "a word past the state is changed",
        |after| {
            let past = after
                .state
                .get_mut(520)
                .filter(|_| after.answer & 0xff == 0);
            past.into_iter().for_each(|word| *word ^= 1);
        },
        ALL,
    ),
    (
        "a byte past the tables is changed",
        |after| {
            let past = after
                .tables
                .get_mut(32_768)
                .filter(|_| after.answer & 0xff == 0);
            past.into_iter().for_each(|byte| *byte ^= 1);
        },
        ALL,
    ),
];

#[test]
fn other_refusals_are_seen() {
    are_seen(&WRONG);
}
