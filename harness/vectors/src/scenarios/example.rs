//! The first example of the repository's README.

use crate::script::Script;

pub fn scripts() -> Vec<Script> {
    let example = Script::at([0x20, 0x19, 0x98, 0x03, 0x20, 0x12, 0x06])
        .start()
        .write(&[0x65])
        .read(2)
        .stop();
    vec![example.named("the README's first example")]
}
