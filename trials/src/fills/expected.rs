//! What a filling has done, beside the literal one; and the image that it must come to.

use super::literal::filled;
use crate::lent::Lent;
use crate::random::{before_joins, parts, with_records};

/// Its answer, its list and the tables are those of the literal filling. What else must stay is judged elsewhere.
pub fn is_filled(before: &Lent, after: &Lent, answer: u64) -> Result<(), String> {
    let expected = filled(before);
    if answer != expected.answer {
        let expected = expected.answer;
        return Err(format!("answered {answer:#x}, not {expected:#x}"));
    }
    let list = expected.list.as_flattened();
    if after.out[..list.len()] != *list {
        let found = &after.out[..list.len()];
        return Err(format!("lists {found:?}, not {list:?}"));
    }
    match after.used_tables() == &*expected.tables {
        true => Ok(()),
        false => Err(format!("leaves other tables, with {:?}", expected.list)),
    }
}

/// The image with these records, each at the end of its entry.
pub fn with_additions(image: &[u8], list: &[[u8; 4]]) -> Vec<u8> {
    let (before, behind) = image.split_at(before_joins(image).expect("it has its counts"));
    let (head, mut records) = parts(before).expect("it has its counts");
    for addition in list {
        let up_to_its_entry = |record: &&[u8; 4]| record[..3] <= addition[..3];
        let end = records.iter().filter(up_to_its_entry).count();
        records.insert(end, *addition);
    }
    [&with_records(&head, &records)[..], behind].concat()
}
