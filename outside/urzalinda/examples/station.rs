//! The example table's station: a job arrives, acquires, gives back and finishes.
//!
//!     cargo run --example station

use urzalinda::State;

/// Stack size 90; one resource of 4 units; jobs of levels 10, 20 and 30, with frames of 40, 30 and 20 bytes, and needs 4, 3 and 1.
const TABLE: [u8; 41] = [
    0x01, 0, 1, 1, //
    0x02, 0, 2, 0, 90, //
    0x03, 0, 2, 0, 4, //
    0x04, 0, 5, 10, 0, 40, 0, 4, //
    0x04, 0, 5, 20, 0, 30, 0, 3, //
    0x04, 0, 5, 30, 0, 20, 0, 1, //
    0x05, 0, 0,
];

const EVENTS: [(&str, &[u8]); 7] = [
    ("arrive 0", &[0x11, 0, 1, 0]),
    ("acquire 0", &[0x12, 0, 4, 0, 0, 0, 2]),
    ("arrive 1", &[0x11, 0, 1, 1]),
    ("finish 0", &[0x14, 0, 1, 0]),
    ("release 0", &[0x13, 0, 4, 0, 0, 0, 2]),
    ("finish 1", &[0x14, 0, 1, 1]),
    ("finish 0", &[0x14, 0, 1, 0]),
];

fn main() {
    let mut memory = [0; 90];
    let mut state = State::fresh(&TABLE).expect("the table could be written");
    for (name, event) in EVENTS {
        let answer = state.apply(event, &mut memory);
        let frame = state.running_frame(&mut memory);
        frame.fill(0xFF);
        println!("{name}: {answer:?}; running {:?}, its frame has {} bytes", state.running(), frame.len());
    }
}
