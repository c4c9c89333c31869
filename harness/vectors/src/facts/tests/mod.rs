//! The facts of small scripts, with what the rules say of them by hand.

mod deeds;
mod form;
mod moments;
mod stored;

use super::facts;
use crate::file::placed::Placed;
use crate::script::Script;

/// 2006-12-20 18:19:20, weekday 3, in 24-hour mode.
const TIME: [u8; 7] = [0x20, 0x19, 0x98, 0x03, 0x20, 0x12, 0x06];

fn text(script: &Script) -> String {
    facts(&Placed::start_first(script).finish())
}

/// The words of each line that begins with one of these.
fn lines<'a>(text: &'a str, first: &[&str]) -> Vec<Vec<&'a str>> {
    let words = text.lines().map(|line| line.split(' ').collect());
    words
        .filter(|words: &Vec<&str>| first.contains(&words[0]))
        .collect()
}

/// What the events behind the first ones did, each deed with its register.
fn deeds_after(skipped: usize, script: &Script) -> String {
    let text = text(script);
    let deeds = lines(&text, &["event"]).into_iter().skip(skipped);
    let deeds = deeds.map(|words| words[7..9].join(" ").replace(" --", ""));
    deeds.collect::<Vec<String>>().join(", ")
}

/// The lines that stand between the events.
fn moments(script: &Script) -> String {
    let text = text(script);
    let moments = lines(&text, &["pulse", "counts"]);
    let moments = moments.iter().map(|words| words.join(" "));
    moments.collect::<Vec<String>>().join(", ")
}
