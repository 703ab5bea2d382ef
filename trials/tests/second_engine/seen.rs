//! What a wrong engine does is seen by the trials that could meet it.

use trials::engine::{Engine, Second};

use crate::spoiled::Spoiled;

/// A trial and its name: does it see what is wrong with two engines?
pub type Sees = (&'static str, fn(&dyn Engine, &dyn Engine) -> bool);

/// By each trial that is named, whichever of the two engines it is, and where both are wrong together.
pub fn is_seen(what: &str, wrong: Spoiled, trials: &[Sees], by: &str) {
    let named = trials.iter().filter(|(name, _)| by.contains(name));
    assert_eq!(named.clone().count(), by.split(", ").count(), "{what}");
    for (name, sees) in named {
        assert!(sees(&wrong, &Second), "{what}, {name}");
        assert!(sees(&Second, &wrong), "{what}, {name}");
        assert!(sees(&wrong, &wrong), "{what}, {name}, both");
    }
}
