//! Entries on frames and scanning.
use super::{refusal, Entry};
use crate::area::hex;
use crate::pv;
use crate::rust::Build;
use crate::streams::framed;
use shapes::{Frame, Refused};

pub fn entries() -> Vec<Entry> {
    vec![number_from_behind(), framing(), pieces(), refusals(), ubx()]
}

fn number(frame: Result<Frame, Refused>) -> String {
    match frame.map(|frame| frame.number) {
        Ok(Some(number)) => format!("number {number}"),
        Ok(None) => "no number".to_string(),
        Err(error) => error.to_string(),
    }
}

fn our_number(bytes: &[u8]) -> String {
    let told = pv::frame_check(bytes);
    match told.extra {
        _ if told.number != 0 => refusal(&told).unwrap_or_default(),
        [_, _, 1, number, ..] => format!("number {number}"),
        _ => "no number".to_string(),
    }
}

fn number_from_behind() -> Entry {
    let mut entry = Entry::new("F1");
    let empty = [framed(&[], 0), vec![0, 0]].concat();
    let one = [framed(&[0x43], 0), vec![0]].concat();
    for bytes in [empty, one] {
        entry.builds(&hex(&bytes), |build| number(build.frame(&bytes)));
        entry.ours(&hex(&bytes), our_number(&bytes));
    }
    entry
}

fn our_frame(data: &[u8]) -> String {
    let mut out = vec![0; data.len() + 6];
    let told = pv::frame_write(data, &mut out);
    refusal(&told).unwrap_or(hex(&out))
}

fn framing() -> Entry {
    let mut entry = Entry::new("F2");
    let asked = "nothing to frame";
    let built = |build: &Build, number, bytes: &[u8]| {
        let built = build.build_message(number, 0, bytes);
        built.map_or_else(str::to_string, |frame| hex(&frame))
    };
    entry.builds(asked, |build| built(build, 0, &[]));
    entry.ours(asked, our_frame(&[]));
    let asked = "1,024 bytes, 42 30 and zeros";
    let bytes = [0; pv::DATA - 1];
    entry.builds(asked, |build| built(build, 1059, &bytes));
    entry.ours(asked, our_frame(&[&[0x42, 0x30], &bytes[..]].concat()));
    entry
}

fn scanned(build: &Build, bytes: &[u8]) -> String {
    match build.scan(bytes) {
        Ok(scanned) => {
            let (frames, consumed) = (scanned.frames.len(), scanned.consumed);
            format!("{frames} frames, {consumed} bytes consumed")
        }
        Err(error) => error.to_string(),
    }
}

fn pieces() -> Entry {
    let mut entry = Entry::new("F3");
    let frame = framed(&[], 0);
    let (first, second) = frame.split_at(3);
    let mut held = [0; pv::HELD];
    let mut out = [0; pv::HELD];
    let mut count = 0;
    for piece in [first, second] {
        entry.builds(&hex(piece), |build| scanned(build, piece));
        let [is_frame, _, _, now, len, ..] = pv::feed(&mut held, count, piece, &mut out).extra;
        count = now as usize;
        let is = if is_frame == 1 {
            format!("a frame of {len} bytes")
        } else {
            format!("More, {now} bytes held")
        };
        entry.ours(&hex(piece), is);
    }
    entry
}

fn refusals() -> Entry {
    let mut entry = Entry::new("F4");
    let mut held = [0; pv::HELD];
    let mut out = [0; pv::HELD];
    let mut fed = |count, piece: usize, room: usize| {
        let told = pv::feed(&mut held, count, &vec![0; piece], &mut out[..room]);
        refusal(&told).unwrap_or_default()
    };
    entry.ours("a held count of 1,030", fed(1_030, 0, pv::HELD));
    entry.ours("a piece of 65,537 bytes", fed(0, pv::PIECE + 1, pv::HELD));
    let asked = "an output of 1,028 bytes for the scanner";
    entry.ours(asked, fed(0, 0, pv::HELD - 1));
    let mut framed = |data: usize, room: usize| {
        let told = pv::frame_write(&vec![0; data], &mut out[..room]);
        refusal(&told).unwrap_or_default()
    };
    entry.ours("1,024 data bytes to frame", framed(pv::DATA + 1, pv::HELD));
    entry.ours("an output of 5 bytes for no data", framed(0, 5));
    entry
}

fn ubx() -> Entry {
    let mut entry = Entry::new("F5");
    let frame = [0xB5, 0x62, 0, 0, 0, 0, 0, 0];
    entry.builds(&hex(&frame), |build| scanned(build, &frame));
    let (mut held, mut out) = ([0; pv::HELD], [0; pv::HELD]);
    let [is_frame, _, _, _, len, ..] = pv::feed_in(1, &mut held, 0, &frame, &mut out).extra;
    let is = if is_frame == 1 {
        format!("a frame of {len} bytes")
    } else {
        "More".to_string()
    };
    entry.ours(&hex(&frame), is);
    entry
}
