//! The sample traces are what docs/TRACES.md says of them.

use std::fs;

use trials::archive::Archive;
use trials::failures::Literal;
use trials::lent::Lent;
use trials::script::Call;

fn sample(name: &str) -> Vec<u8> {
    let path = format!("{}/../samples/{name}", env!("CARGO_MANIFEST_DIR"));
    fs::read(&path).expect(&path)
}

fn network(name: &str) -> Lent {
    let mut memory = Lent::noise();
    let image = sample(name);
    assert_eq!(memory.call(&Archive, &Call::Read { image }), 0);
    memory
}

fn paths(trace: &[u8]) -> Vec<Vec<u64>> {
    let mut rest = &trace[1..];
    let next = |_| {
        let (path, behind) = rest[1..].split_at(rest[0].into());
        rest = behind;
        path.iter().map(|&node| node.into()).collect()
    };
    (0..trace[0]).map(next).collect()
}

/// The nodes of a lookup from the path's start to its end.
fn looked_up(literal: Literal, path: &[u64]) -> Vec<u64> {
    literal.way(path[0], path[path.len() - 1]).nodes
}

#[test]
fn the_trace_of_e1_is_accepted() {
    let trace = sample("e1.trace");
    assert_eq!(trace, [3, 2, 1, 2, 2, 2, 1, 1, 1]);
    assert_eq!(
        network("e1.image").call(&Archive, &Call::Trace { trace }),
        0
    );
}

#[test]
fn the_twelve_paths_are_made_as_the_page_says() {
    let mut memory = network("depth3.image");
    let trace = sample("depth3.trace");
    let paths = paths(&trace);
    let plain = Literal::new(&memory, 0);
    let around = Literal::new(&memory, 0b1_0010);
    for path in &paths[..5] {
        assert_eq!(looked_up(plain, path), *path);
    }
    for path in &paths[5..8] {
        assert_eq!(looked_up(around, path), *path);
        assert_ne!(looked_up(plain, path), *path);
    }
    for path in &paths[8..11] {
        let last = |step: &[u64]| plain.entry(step[0], path[path.len() - 1]).pop() == Some(step[1]);
        assert!(path.windows(2).all(last));
        assert_ne!(looked_up(plain, path), *path);
    }
    assert_eq!(paths[11..], [[7]]);
    assert_eq!(memory.call(&Archive, &Call::Trace { trace }), 0);
}

#[test]
fn the_damaged_trace_has_another_node_at_one_place() {
    let (good, trace) = (sample("depth3.trace"), sample("depth3-damaged.trace"));
    let (mut expected, damaged) = (paths(&good), paths(&trace));
    assert_ne!(expected[2][2], damaged[2][2]);
    expected[2][2] = damaged[2][2];
    assert_eq!(expected, damaged);
    let answer = network("depth3.image").call(&Archive, &Call::Trace { trace });
    assert_eq!(answer, 23 | 3 << 8 | 2 << 16);
}
