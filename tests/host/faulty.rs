//! The linked library with one fault in what it does outside its buffers, to try guards, fences and valgrind.

use crate::library::{Library, LINKED};

use std::ptr::{read_volatile, write_volatile};

pub struct Faulty {
    pub name: &'static str,
    pub library: Library,
    /// Whether guard bytes or the bytes compared show it; a fence shows every one.
    pub guarded: bool,
}

// SAFETY of all below: none. Each does on purpose what the comparison has to see.

unsafe fn flip(byte: *mut u8) {
    write_volatile(byte, !read_volatile(byte));
}

unsafe extern "C" fn state_written_past(state: *mut u8, n: usize, symbol: u32, result: *mut u8, room: usize) -> i32 {
    flip(state.add(n));
    (LINKED.hear)(state, n, symbol, result, room)
}

unsafe extern "C" fn state_read_past(state: *mut u8, n: usize, symbol: u32, result: *mut u8, room: usize) -> i32 {
    read_volatile(state.add(n));
    (LINKED.hear)(state, n, symbol, result, room)
}

unsafe extern "C" fn heard_written_past(state: *mut u8, n: usize, symbol: u32, result: *mut u8, room: usize) -> i32 {
    flip(result.add(room));
    (LINKED.hear)(state, n, symbol, result, room)
}

unsafe extern "C" fn bytes_read_past(bytes: *const u8, n: usize, result: *mut u8, room: usize) -> i32 {
    read_volatile(bytes.add(n));
    (LINKED.read)(bytes, n, result, room)
}

unsafe extern "C" fn bytes_read_before(bytes: *const u8, n: usize, result: *mut u8, room: usize) -> i32 {
    read_volatile(bytes.sub(1));
    (LINKED.read)(bytes, n, result, room)
}

unsafe extern "C" fn bytes_written(bytes: *const u8, n: usize, result: *mut u8, room: usize) -> i32 {
    if n > 0 {
        flip(bytes.cast_mut());
    }
    let returned = (LINKED.read)(bytes, n, result, room);
    if n > 1 {
        flip(bytes.cast_mut());
        flip(bytes.add(1).cast_mut());
    }
    returned
}

unsafe extern "C" fn bytes_written_back(bytes: *const u8, n: usize, result: *mut u8, room: usize) -> i32 {
    if n > 0 {
        write_volatile(bytes.cast_mut(), read_volatile(bytes));
    }
    (LINKED.read)(bytes, n, result, room)
}

unsafe extern "C" fn fields_written_past(bytes: *const u8, n: usize, result: *mut u8, room: usize) -> i32 {
    flip(result.add(room));
    (LINKED.read)(bytes, n, result, room)
}

unsafe extern "C" fn fields_written_before(bytes: *const u8, n: usize, result: *mut u8, room: usize) -> i32 {
    flip(result.sub(1));
    (LINKED.read)(bytes, n, result, room)
}

unsafe extern "C" fn fields_read_past(command: u32, fields: *const u8, n: usize, result: *mut u8, room: usize) -> i32 {
    read_volatile(fields.add(n));
    (LINKED.write)(command, fields, n, result, room)
}

unsafe extern "C" fn symbols_written_past(
    command: u32,
    fields: *const u8,
    n: usize,
    result: *mut u8,
    room: usize,
) -> i32 {
    flip(result.add(room));
    (LINKED.write)(command, fields, n, result, room)
}

unsafe extern "C" fn symbols_written_before(
    command: u32,
    fields: *const u8,
    n: usize,
    result: *mut u8,
    room: usize,
) -> i32 {
    flip(result.sub(1));
    (LINKED.write)(command, fields, n, result, room)
}

unsafe extern "C" fn record_written_past(time: u32, symbol: u32, result: *mut u8, room: usize) -> i32 {
    flip(result.add(room));
    (LINKED.record)(time, symbol, result, room)
}

unsafe extern "C" fn record_written_before(time: u32, symbol: u32, result: *mut u8, room: usize) -> i32 {
    flip(result.sub(1));
    (LINKED.record)(time, symbol, result, room)
}

pub const FAULTY: &[Faulty] = &[
    Faulty { name: "state-written-past", library: Library { hear: state_written_past, ..LINKED }, guarded: true },
    Faulty { name: "state-read-past", library: Library { hear: state_read_past, ..LINKED }, guarded: false },
    Faulty { name: "heard-written-past", library: Library { hear: heard_written_past, ..LINKED }, guarded: true },
    Faulty { name: "bytes-read-past", library: Library { read: bytes_read_past, ..LINKED }, guarded: false },
    Faulty { name: "bytes-read-before", library: Library { read: bytes_read_before, ..LINKED }, guarded: false },
    Faulty { name: "bytes-written", library: Library { read: bytes_written, ..LINKED }, guarded: true },
    Faulty { name: "bytes-written-back", library: Library { read: bytes_written_back, ..LINKED }, guarded: false },
    Faulty { name: "fields-written-past", library: Library { read: fields_written_past, ..LINKED }, guarded: true },
    Faulty { name: "fields-written-before", library: Library { read: fields_written_before, ..LINKED }, guarded: true },
    Faulty { name: "fields-read-past", library: Library { write: fields_read_past, ..LINKED }, guarded: false },
    Faulty { name: "symbols-written-past", library: Library { write: symbols_written_past, ..LINKED }, guarded: true },
    Faulty {
        name: "symbols-written-before",
        library: Library { write: symbols_written_before, ..LINKED },
        guarded: true,
    },
    Faulty { name: "record-written-past", library: Library { record: record_written_past, ..LINKED }, guarded: true },
    Faulty {
        name: "record-written-before",
        library: Library { record: record_written_before, ..LINKED },
        guarded: true,
    },
];
