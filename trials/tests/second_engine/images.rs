//! Images: round trips, and every kind of damage.

use trials::lent::Lent;
use trials::panel::panels;
use trials::random::{changed_bytes, cuts, image, image_2, image_damages, seeds, Rng};
use trials::random::{READING, READING_2};
use trials::second::network::Panel;
use trials::second::{sound, Refusal};

use crate::support::Trial;

/// Reads into the memory; a taken image leaves a sound state, of version 1 one in which nobody has sent anything, and is written back
/// byte for byte in its own version, a refused one changes nothing.
fn judge(trial: &mut Trial, before: &mut Lent, image: &[u8]) -> u8 {
    before.clone_from(&trial.memory);
    let refusal = trial.read(image).refusal;
    if refusal == 0 {
        assert!(sound(trial.memory.used_state(), trial.memory.used_tables()));
        let panels = panels(trial.memory.used_state());
        let none_sent = panels.iter().all(|panel| *panel == Panel::default());
        let settled = trial.network().all_in_system() && none_sent;
        assert!(settled || image[1] == 2);
        assert_eq!(trial.image(image[1].into()), image);
    } else {
        assert_eq!(trial.memory, *before);
    }
    refusal
}

#[test]
fn written_images_are_read_back() {
    for seed in seeds(0, 150) {
        let rng = &mut Rng::new(seed);
        for (version, image) in [(1, image(rng)), (2, image_2(rng))] {
            let mut trial = Trial::read_in(&image);
            assert_eq!(trial.image(version), image, "seed {seed}");
            let guard = Lent::noise();
            assert_eq!(trial.memory.out[image.len()..], guard.out[image.len()..]);
            assert_eq!(trial.memory.state[520..], guard.state[520..]);
            assert_eq!(trial.memory.tables[32_768..], guard.tables[32_768..]);
        }
    }
}

#[test]
fn cut_images_are_refused() {
    let (mut trial, mut before) = (Trial::new(), Lent::noise());
    for seed in seeds(0, 20) {
        let rng = &mut Rng::new(seed);
        for image in [image(rng), image_2(rng)] {
            for cut in cuts(&image).take(400).chain(cuts(&image).rev().take(200)) {
                let expected = if cut.len() < 5 { 3 } else { 6 };
                let judged = judge(&mut trial, &mut before, &cut);
                assert_eq!(judged, expected, "seed {seed}");
            }
        }
    }
}

/// Images of a version whole and damaged, each of these answers met.
fn changed_are_taken_or_refused_whole(made: fn(&mut Rng) -> Vec<u8>, answers: &[usize]) {
    let mut seen = [0; Refusal::NUMBERS];
    let (mut trial, mut before) = (Trial::new(), Lent::noise());
    for seed in seeds(0, 60) {
        let mut rng = Rng::new(seed);
        let image = made(&mut rng);
        if image.len() < 1_500 {
            for changed in changed_bytes(&mut rng.clone(), &image) {
                seen[judge(&mut trial, &mut before, &changed) as usize] += 1;
            }
        }
        for _ in 0..20 {
            for damaged in image_damages(&mut rng, &image) {
                seen[judge(&mut trial, &mut before, &damaged) as usize] += 1;
            }
        }
    }
    for &refusal in answers {
        assert!(seen[refusal] > 0, "{refusal} was never met: {seen:?}");
    }
}

#[test]
fn changed_images_are_taken_or_refused_whole() {
    changed_are_taken_or_refused_whole(image, &READING);
}

#[test]
fn changed_images_of_version_2_are_taken_or_refused_whole() {
    changed_are_taken_or_refused_whole(image_2, &READING_2);
}
