//! rtcm-rs behind C names, so that the benchmark's own driver can time it beside the library. rtcm_rust.h describes
//! the calls. The caller gives valid pointers and lengths, and inputs on which the crate does not panic.
use rtcm_wrapping::calls::{self, List1059, List1230};
use shapes::{Bias, Block, FieldType, Reading};
use std::slice;

/// # Safety
/// The pointer is valid for that many elements, or the length is 0.
unsafe fn area<'a, T>(first: *const T, len: usize) -> &'a [T] {
    match len {
        0 => &[],
        _ => slice::from_raw_parts(first, len),
    }
}

/// # Safety
/// The pointer is valid for that many elements and for writing, or the length is 0.
unsafe fn area_mut<'a, T>(first: *mut T, len: usize) -> &'a mut [T] {
    match len {
        0 => &mut [],
        _ => slice::from_raw_parts_mut(first, len),
    }
}

/// The crate's smallest unsigned type for a width.
fn unsigned(width: usize) -> FieldType {
    FieldType {
        reading: Reading::Unsigned,
        bits: width.next_power_of_two().max(8),
    }
}

/// # Safety
/// The area is valid.
#[no_mangle]
pub unsafe extern "C" fn rs_field_read(
    data: *const u8,
    len: usize,
    start: usize,
    width: usize,
) -> u64 {
    let value = calls::parse(unsigned(width), area(data, len), start, width);
    value.map_or(u64::MAX, |(value, _)| value as u64)
}

/// # Safety
/// The area is valid and can be written.
#[no_mangle]
pub unsafe extern "C" fn rs_field_write(
    data: *mut u8,
    len: usize,
    start: usize,
    width: usize,
    value: u64,
) -> usize {
    let end = calls::put(
        unsigned(width),
        area_mut(data, len),
        start,
        width,
        value as i128,
    );
    end.unwrap_or(0)
}

/// # Safety
/// The area is valid.
#[no_mangle]
pub unsafe extern "C" fn rs_frame_check(bytes: *const u8, len: usize) -> usize {
    calls::frame(area(bytes, len)).map_or(0, |frame| frame.frame_len)
}

/// # Safety
/// The area is valid.
#[no_mangle]
pub unsafe extern "C" fn rs_scan(bytes: *const u8, len: usize) -> usize {
    calls::count_frames(area(bytes, len))
}

/// # Safety
/// The area is valid.
#[no_mangle]
pub unsafe extern "C" fn rs_1059_read(data: *const u8, len: usize, start: usize) -> usize {
    calls::count_1059(area(data, len), start)
}

/// The raw records as the crate has them. The lists have the same length, and the signals are assigned.
fn records(block: Block, satellites: &[u8], signals: &[u8], biases: &[i16]) -> Vec<Bias> {
    let record = |i: usize| block.record(satellites[i], signals[i], biases[i]);
    (0..satellites.len()).map(record).collect()
}

/// # Safety
/// The three areas have that many elements.
#[no_mangle]
pub unsafe extern "C" fn rs_1059_list_new(
    satellites: *const u8,
    signals: *const u8,
    biases: *const i16,
    len: usize,
) -> Box<List1059> {
    let records = records(
        Block::Msg1059,
        area(satellites, len),
        area(signals, len),
        area(biases, len),
    );
    Box::new(calls::list_1059(&records))
}

/// # Safety
/// The area is valid and can be written; the list is one that `rs_1059_list_new` gave.
#[no_mangle]
pub unsafe extern "C" fn rs_1059_write(
    data: *mut u8,
    len: usize,
    start: usize,
    list: *const List1059,
) -> usize {
    calls::encode_1059(area_mut(data, len), start, &*list).unwrap_or(0)
}

#[no_mangle]
pub extern "C" fn rs_1059_list_free(list: Box<List1059>) {
    drop(list);
}

/// # Safety
/// The area is valid.
#[no_mangle]
pub unsafe extern "C" fn rs_1230_read(data: *const u8, len: usize, start: usize) -> usize {
    calls::count_1230(area(data, len), start)
}

/// # Safety
/// The two areas have that many elements.
#[no_mangle]
pub unsafe extern "C" fn rs_1230_list_new(
    signals: *const u8,
    biases: *const i16,
    len: usize,
) -> Box<List1230> {
    let records = records(
        Block::Msg1230,
        &vec![0; len],
        area(signals, len),
        area(biases, len),
    );
    Box::new(calls::list_1230(&records))
}

/// # Safety
/// The area is valid and can be written; the list is one that `rs_1230_list_new` gave.
#[no_mangle]
pub unsafe extern "C" fn rs_1230_write(
    data: *mut u8,
    len: usize,
    start: usize,
    list: *const List1230,
) -> usize {
    calls::encode_1230(area_mut(data, len), start, &*list).unwrap_or(0)
}

#[no_mangle]
pub extern "C" fn rs_1230_list_free(list: Box<List1230>) {
    drop(list);
}
