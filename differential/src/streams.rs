//! Frames, damaged frames and streams to compare on.
use crate::random::Random;
use crate::rust;

/// The byte that every frame begins with.
pub const PREAMBLE: u8 = 0xD3;

/// The data in a good frame. The six reserved bits are the upper ones of `reserved`.
pub fn framed(data: &[u8], reserved: u8) -> Vec<u8> {
    let len = data.len();
    let mut frame = vec![PREAMBLE, reserved & 0xFC | (len >> 8) as u8, len as u8];
    frame.extend_from_slice(data);
    let sum = rust::checksum(&frame);
    frame.extend_from_slice(&sum.to_be_bytes()[1..]);
    frame
}

/// A good frame with random data of that many bytes.
pub fn any_frame(random: &mut Random, len: usize) -> Vec<u8> {
    let reserved = if random.one_in(4) { random.byte() } else { 0 };
    let mut data = random.bytes(len);
    if random.one_in(4) {
        data.iter_mut().step_by(3).for_each(|byte| *byte = PREAMBLE);
    }
    framed(&data, reserved)
}

/// A length of data: often near a limit, else any.
pub fn any_len(random: &mut Random) -> usize {
    match random.below(4) {
        0 => random.pick(&[0, 1, 2, 3, 255, 256, 257, 511, 512, 1022, 1023]),
        1 => random.below(1024),
        _ => random.below(40),
    }
}

/// A copy with one piece of damage. It is never empty.
pub fn damaged(random: &mut Random, frame: &[u8]) -> Vec<u8> {
    let mut copy = frame.to_vec();
    let place = random.below(copy.len());
    match random.below(7) {
        0 => copy[place] ^= 1 << random.below(8),
        1 => copy[place] = random.byte(),
        2 => drop(copy.remove(place)),
        3 => copy.insert(place, random.byte()),
        4 => copy.truncate(place.max(1)),
        5 => {
            let burst = random.within(1, 4).min(copy.len() - place);
            random.fill(&mut copy[place..place + burst]);
        }
        _ => copy[2] = copy[2].wrapping_add(random.pick(&[1, 255])),
    }
    copy
}

/// A stream of good and damaged frames, noise and false beginnings, of about that many bytes.
pub fn any_stream(random: &mut Random, len: usize) -> Vec<u8> {
    let mut stream = Vec::new();
    while stream.len() < len {
        let data_len = any_len(random).min(len);
        let frame = any_frame(random, data_len);
        match random.below(6) {
            0 => stream.extend(damaged(random, &frame)),
            1 => {
                let noise = random.within(1, 20);
                stream.extend(random.bytes(noise));
            }
            2 => {
                // A false beginning that declares a length, often beyond the frames that follow.
                let declared = random.below(1024);
                stream.extend([PREAMBLE, (declared >> 8) as u8, declared as u8]);
            }
            _ => stream.extend(frame),
        }
    }
    stream
}
