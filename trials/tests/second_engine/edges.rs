//! P1 to P5 of document 01; its other edges are tried on both engines together.

use trials::second::Settings;

#[test]
fn p1_to_p5_common_suffixes() {
    let settings = Settings::new(8, 5, 1).unwrap();
    let others = [0x11261, 0x13061, 0x31701, 0x10353, 0x10261];
    let common = others.map(|id| settings.common_suffix(0x10261, id));
    assert_eq!(common, [3, 2, 1, 0, 5]);
}
