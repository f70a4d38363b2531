//! The four calls of include/seatalk.h as a Rust program links them.

pub type Hear = unsafe extern "C" fn(*mut u8, usize, u32, *mut u8, usize) -> i32;
pub type Read = unsafe extern "C" fn(*const u8, usize, *mut u8, usize) -> i32;
pub type Write = unsafe extern "C" fn(u32, *const u8, usize, *mut u8, usize) -> i32;
pub type Record = unsafe extern "C" fn(u32, u32, *mut u8, usize) -> i32;

extern "C" {
    fn seatalk_hear(state: *mut u8, state_length: usize, symbol: u32, result: *mut u8, result_length: usize) -> i32;
    fn seatalk_read(bytes: *const u8, bytes_length: usize, result: *mut u8, result_length: usize) -> i32;
    fn seatalk_write(
        command: u32,
        fields: *const u8,
        fields_length: usize,
        result: *mut u8,
        result_length: usize,
    ) -> i32;
    fn seatalk_record(time: u32, symbol: u32, result: *mut u8, result_length: usize) -> i32;
}

/// Which of the four calls, by the name that the report gives it.
#[derive(Clone, Copy, PartialEq, Debug)]
pub enum Call {
    Hear,
    Read,
    Write,
    Record,
}

/// A library to compare: the linked one, or one with a fault to try the comparison itself.
#[derive(Clone, Copy)]
pub struct Library {
    pub hear: Hear,
    pub read: Read,
    pub write: Write,
    pub record: Record,
}

pub const LINKED: Library =
    Library { hear: seatalk_hear, read: seatalk_read, write: seatalk_write, record: seatalk_record };
