//! Runs that are worth a look at their lines and last states.

use super::NEW_CENTURY;
use crate::chance::draws::Draws;
use crate::chance::files::{draw_file, pulse_count};
use crate::file::example::example_script;
use crate::file::owed::run_lent;
use crate::file::placed::Placed;
use crate::file::{Case, Run};
use crate::script::Script;
use reference::Reading;

/// Bytes for 10h: lock bit, frequency or countdown on the pin and enabled.
const FREQUENCY: u8 = 0xA1;
const COUNTDOWN: u8 = 0xB4;

pub fn cases() -> Vec<Case> {
    let mut cases = vec![
        Case::new("all-kinds", Placed::start_first(&all_kinds())),
        Case::new("pulses-300", Placed::start_first(&pulses_300())),
        Case::new("pulses-65535", Placed::events_first(&pulses_65535())),
        Case::new("transfer-too-old", Placed::at(&too_old(), 150, 9)),
        Case::new("crystal", Placed::start_first(&crystal())),
        Case::new("evening", Placed::start_first(&evening())),
        many_events(),
    ];
    cases.extend(["read", "boot"].map(example_case));
    cases.extend(deep_runs());
    cases
}

fn all_kinds() -> Script {
    Script::at(NEW_CENTURY)
        .unlock_with(&[COUNTDOWN, 0x00, 0x00, 0x03])
        .pulses(23)
        .pulses(1)
        .fetch(0x0F, 5)
        .start()
        .power_loss()
        .fetch(0x14, 2)
}

/// The pin tells 300 pulses from 44 and from 11,265.
fn pulses_300() -> Script {
    Script::at(NEW_CENTURY)
        .unlock_with(&[FREQUENCY, 0x04])
        .pulses(300)
        .pulses(211)
        .pulses(1)
}

/// One pulse short of two seconds.
fn pulses_65535() -> Script {
    Script::at([0x57, 0x59, 0xA3, 0x06, 0x31, 0x12, 0x99])
        .pulses(65_535)
        .fetch(0x00, 7)
        .pulses(1)
        .fetch(0x00, 7)
        .pulses(32_768)
}

fn too_old() -> Script {
    Script::at(NEW_CENTURY)
        .start()
        .write(&[0x65])
        .pulses(16_383)
        .read_on(3)
        .pulses(1)
        .read(2)
        .stop()
}

fn crystal() -> Script {
    Script::at(NEW_CENTURY)
        .unlock_with(&[FREQUENCY, 0x01])
        .pulses(3)
        .store(0x11, &[0x0F])
        .pulses(16_380)
        .pulses(1)
        .store(0x10, &[0x00])
}

/// From 11:59:59 in the evening to the next day, in 12-hour hours.
fn evening() -> Script {
    Script::at([0x59, 0x59, 0x31, 0x02, 0x29, 0x02, 0x28])
        .pulses(32_767)
        .fetch(0x00, 7)
        .pulses(1)
        .fetch(0x00, 7)
}

/// More than a byte can count, all reads but a few.
fn many_events() -> Case {
    let script = Script::at(NEW_CENTURY).fetch(0x14, 294);
    Case::new("many-events", Placed::events_first(&script)).rooms(&[1_500, 1_499, 220])
}

/// An example file with the room it needs.
fn example_case(name: &str) -> Case {
    let script = example_script(name).expect("a known name");
    Case::new(&format!("example-{name}"), Placed::start_first(&script))
}

/// Good files by chance, in which time goes on for a second or two.
fn deep_runs() -> Vec<Case> {
    let mut draws = Draws::from(2_068);
    let drawn = std::iter::repeat_with(|| draw_file(&mut draws));
    let deep = drawn.filter(goes_deep).take(8).enumerate();
    deep.map(|(n, drawn)| Case::of_bytes(&format!("deep-{n}"), drawn.file, &[drawn.room]))
        .collect()
}

fn goes_deep(drawn: &Run) -> bool {
    let (run, _) = run_lent(&drawn.file, drawn.room, Reading::Right);
    run.refusal == 0 && (32_768..=100_000).contains(&pulse_count(&drawn.file))
}
