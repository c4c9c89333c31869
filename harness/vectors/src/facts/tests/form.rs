//! The lines as they are written, to the letter.

use super::{text, TIME};
use crate::facts::facts;
use crate::file::cases::stored_cases;
use crate::file::owed::answer;
use crate::file::placed::Placed;
use crate::script::Script;
use reference::START_BYTES;

/// Powered up at TIME, with zeros in the RAM.
fn zero_ram() -> Script {
    let mut bytes = [0; START_BYTES];
    bytes[..7].copy_from_slice(&TIME);
    Script::from_bytes(bytes)
}

/// A state in which these parts are not 0; they end with the divider.
fn state(time: &str, latch: &str, pointer: &str, phase: &str, divider: &str) -> String {
    let (alarm, rest) = ("00".repeat(8), "00".repeat(16));
    let registers = format!("{time}{alarm}01{rest}");
    let inner = "00".repeat(11);
    format!("{registers}{latch}00{pointer}{phase}{inner}{divider}00000000")
}

/// 219,953,960 is the number of TIME, by the days of the months.
#[test]
fn a_small_script_is_told_to_the_letter() {
    let (time, next) = ("20199803201206", "21199803201206");
    let (none, still) = ("00000000000000", "00000000");
    let script = zero_ram().start().write(&[0x65]).read_on(1).pulses(32_768);
    let expected = [
        format!("start {} 219953960 H", state(time, none, "00", "00", still)),
        format!(
            "event 0 0 00 0 -- H opened -- {} 219953960 - 00000000",
            state(time, none, "00", "01", still)
        ),
        format!(
            "event 1 2 65 0 AK H to-read -- {} 219953960 219953960 12201819",
            state(time, time, "00", "04", still)
        ),
        format!(
            "event 2 3 00 0 20 H latched 00 {} 219953960 219953960 12201819",
            state(time, time, "01", "04", still)
        ),
        "pulse 16384 timeout".to_string(),
        "pulse 32768 second 219953961".to_string(),
        "counts 1 0 0 0".to_string(),
        format!(
            "event 3 5 00 32768 -- H passed -- {} 219953961 219953960 12201819",
            state(next, time, "00", "00", "00800000")
        ),
        "end 4\n".to_string(),
    ];
    assert_eq!(text(&script), expected.join("\n"));
}

#[test]
fn no_events_are_a_start_and_an_end() {
    let powered = state("20199803201206", "00000000000000", "00", "00", "00000000");
    let expected = format!("start {powered} 219953960 H\nend 0\n");
    assert_eq!(text(&zero_ram()), expected);
}

#[test]
fn a_refused_file_is_one_line() {
    let good = zero_ram().stop();
    assert_eq!(text(&good.clone().event(7, 0, 0)), "refused 2 1\n");
    assert_eq!(text(&good.clone().stop().event(5, 0, 0)), "refused 3 2\n");
    let file = Placed::start_first(&good);
    let too_few = file.clone().start_count(18).finish();
    assert_eq!(facts(&too_few), "refused 5 0\n");
    let fixed_bit = Script::from_bytes([0x80; START_BYTES]).stop();
    assert_eq!(text(&fixed_bit), "refused 6 0\n");
    assert_eq!(facts(&file.finish()[..7]), "refused 4 0\n");
    assert_eq!(facts(&[0; 16_385]), "refused 8 0\n");
}

/// The month, the day, 9 in the evening, the minute; then 23 in 24-hour mode.
#[test]
fn an_id_leaves_the_mode_out() {
    for (hour, shown) in [(0x29, "03142915"), (0xA3, "03142315"), (0x3F, "03143F15")] {
        let script = Script::at([0x00, 0x15, hour, 0x04, 0x14, 0x03, 0x24]);
        let text = text(&script.start().write(&[0x65]));
        let event = text.lines().nth(2).expect("a start and two events");
        assert!(event.ends_with(shown), "{event}");
    }
}

/// An illegal hour has no number, live or latched.
#[test]
fn no_time_has_no_number() {
    let script = Script::at([0x00, 0x15, 0x3F, 0x04, 0x14, 0x03, 0x24]);
    let text = text(&script.start().write(&[0x65]));
    let words: Vec<Vec<&str>> = text.lines().map(|line| line.split(' ').collect()).collect();
    assert_eq!(words[0][2..], ["-", "H"]);
    assert_eq!(words[2][10..12], ["-", "-"]);
}

/// Pulse by pulse it comes to the same lines as a run of the whole file.
#[test]
fn answers_and_pins_are_those_of_the_script_program() {
    let mut run = 0;
    for case in stored_cases() {
        let facts = facts(&case.file);
        let events = super::lines(&facts, &["event"]);
        let lines: Vec<String> = events.iter().map(|words| words[5..7].join(" ")).collect();
        let printed = String::from_utf8(answer(&case.file)).expect("plain text");
        if facts.starts_with("refused") {
            assert_eq!(
                facts.split(' ').nth(1),
                printed.trim_end().split(' ').nth(1)
            );
        } else {
            assert_eq!(
                lines,
                printed.lines().collect::<Vec<&str>>(),
                "{}",
                case.name
            );
            run += 1;
        }
    }
    assert!(run > 40, "{run}");
}
