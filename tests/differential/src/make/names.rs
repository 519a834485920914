//! Names of nodes: many begin alike, some are empty, some long, some mere bytes.

use crate::random::Random;

const USUAL: [&[u8]; 16] = [
    b"air",
    b"ai",
    b"air2",
    b"ignore",
    b"default:stone",
    b"default:ston",
    b"default:stone_with_coal",
    b"default:stone\0",
    b"default:dirt",
    b"default:",
    b"default;",
    b"z",
    b"\xff",
    b"\x7f",
    b"a\nEndInventory\n",
    b"",
];

pub fn name(random: &mut Random) -> Vec<u8> {
    match random.below(40) {
        0..=23 => random.pick(&USUAL).to_vec(),
        24..=32 => format!("mod{}:node{}", random.below(4), random.below(300)).into_bytes(),
        33 => vec![random.pick(b"\x00\x01a\x80\xff"); random.below(20)],
        34 => long_name(random),
        _ => {
            let length = random.below(24);
            random.bytes(length)
        }
    }
}

fn long_name(random: &mut Random) -> Vec<u8> {
    let length = match random.below(200) {
        0 => 65_535,
        1..=9 => random.below(9000),
        _ => random.pick(&[255, 256, 257, 300]),
    };
    let mut name = vec![b'n'; length];
    if let Some(last) = name.last_mut() {
        *last = random.pick(b"nm\xff\0");
    }
    name
}
