//! The images of document 01, and two of version 2.

/// Image E1: two nodes.
pub const E1: [u8; 40] = [
    4, 1, 2, 2, 1, // settings
    2, 0, 0, 0, 0, 1, 0, 0, 0, // nodes
    6, 0, 1, 0, 0, 1, 1, 0, 1, 2, 1, 1, 0, 1, 2, 0, 0, 1, 2, 0, 1, 2, 2, 1, 0, 2, // records
];

/// E1 without record 1 0 1 2 and with count 5: P8 to P10.
pub fn e1_short() -> Vec<u8> {
    let mut image = E1.to_vec();
    image.drain(20..24);
    image[14] = 5;
    image
}

/// E1 as version 2, at the end of document 01's smallest join: nobody joins, and node 2 has sent two requests.
pub fn e1_version_2() -> Vec<u8> {
    let mut image = E1.to_vec();
    image[1] = 2;
    image.extend([0, 2, 0, 0, 2, 0]);
    image
}

/// Document 01's smallest join at its start, as version 2: node 2 copies from node 1 and has sent one request.
pub const JOINING: [u8; 58] = [
    4, 2, 2, 2, 1, // settings
    2, 0, 0, 0, 0, 1, 0, 0, 0, // nodes
    4, 0, 1, 0, 0, 1, 1, 1, 0, 1, 2, 0, 1, 2, 2, 1, 0, 2, // records
    1, 2, 1, 0, 1, 0, 0, 0, 0, 0, 0, 0, 0, 0, 0, 0, 0, 0, 0, 0, 0, // joins under way
    2, 0, 0, 1, 0, // counts
];
