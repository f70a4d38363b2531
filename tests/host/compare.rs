//! Each call goes to the library and to the second implementation, and everything that it may change is compared:
//! the number returned, every byte of both buffers, and the guard bytes around them.

use crate::library::{Call, Library};
use crate::memory::{Lent, Place};
use crate::second::{Second, INPUT, KINDS};

/// Enough differences were seen.
#[derive(Debug)]
pub struct Enough;

pub type Compared<T> = Result<T, Enough>;

/// The longest result buffer that is lent.
pub const ROOM: usize = 64;

/// How often each outcome was compared, so that a comparison of nothing cannot pass.
#[derive(Default)]
pub struct Seen {
    /// By call and refusal number.
    refused: [[u64; 16]; 4],
    /// The listener's answers.
    answers: [u64; 8],
    /// Messages read and written, by place in the table of kinds.
    read: [u64; KINDS.len()],
    written: [u64; KINDS.len()],
    /// Spellings of a pilot's angles, and those of them that were read.
    pub pilots: u64,
    pub pilots_read: u64,
    /// Records written.
    records: u64,
}

pub struct Comparison {
    library: Library,
    second: Second,
    input: Lent,
    result: Lent,
    /// How many differences are printed before it stops; 0 stops at the first and prints nothing.
    patience: usize,
    fill: [u8; 512],
    wanted_input: [u8; INPUT],
    wanted_result: [u8; ROOM],
    pub calls: u64,
    pub faults: usize,
    pub seen: Seen,
}

fn hex(bytes: &[u8]) -> String {
    bytes.iter().map(|byte| format!("{byte:02X}")).collect::<Vec<_>>().join(" ")
}

/// The time that `Comparison::record` gives as an input.
fn time_of(input: &[u8]) -> u32 {
    u32::from_le_bytes(input.try_into().expect("four bytes of time"))
}

impl Comparison {
    pub fn new(library: Library, second: Second, place: Place, patience: usize) -> Comparison {
        let mut fill = [0; 512];
        for (i, byte) in fill.iter_mut().enumerate() {
            *byte = (i * 13 + 5) as u8;
        }
        Comparison {
            library,
            second,
            input: Lent::new(place),
            result: Lent::new(place),
            patience,
            fill,
            wanted_input: [0; INPUT],
            wanted_result: [0; ROOM],
            calls: 0,
            faults: 0,
            seen: Seen::default(),
        }
    }

    pub fn hear(&mut self, state: &[u8], symbol: u32, room: usize) -> Compared<i32> {
        let got = self.call(Call::Hear, state, symbol, room)?;
        if got >= 0 {
            self.seen.answers[usize::from(self.result.bytes()[0] % 8)] += 1;
        }
        Ok(got)
    }

    pub fn read(&mut self, bytes: &[u8], room: usize) -> Compared<i32> {
        let got = self.call(Call::Read, bytes, 0, room)?;
        if got >= 0 {
            if let Some(kind) = KINDS.iter().position(|kind| kind.command == bytes[0]) {
                self.seen.read[kind] += 1;
            }
        }
        Ok(got)
    }

    pub fn write(&mut self, command: u32, fields: &[u8], room: usize) -> Compared<i32> {
        let got = self.call(Call::Write, fields, command, room)?;
        if got >= 0 {
            if let Some(kind) = KINDS.iter().position(|kind| u32::from(kind.command) == command) {
                self.seen.written[kind] += 1;
            }
        }
        Ok(got)
    }

    /// The recording writer has no input buffer. So that `call` serves it too, the time goes there as an input of four
    /// bytes and the symbol as the number; the library is given the two numbers.
    pub fn record(&mut self, time: u32, symbol: u32, room: usize) -> Compared<i32> {
        let got = self.call(Call::Record, &time.to_le_bytes(), symbol, room)?;
        if got >= 0 {
            self.seen.records += 1;
        }
        Ok(got)
    }

    /// One call of both. A result buffer is filled differently from call to call, so that no byte written is like
    /// the one that stood there every time.
    fn call(&mut self, call: Call, input: &[u8], number: u32, room: usize) -> Compared<i32> {
        let turn = self.calls as usize;
        let fill = &self.fill[turn % 256..][..room];
        let wanted_input = &mut self.wanted_input[..input.len()];
        let wanted_result = &mut self.wanted_result[..room];
        wanted_input.copy_from_slice(input);
        wanted_result.copy_from_slice(fill);
        let wanted = match call {
            Call::Hear => self.second.hear(wanted_input, number, wanted_result),
            Call::Read => self.second.read(wanted_input, wanted_result),
            Call::Write => self.second.write(number, wanted_input, wanted_result),
            Call::Record => self.second.record(time_of(wanted_input), number, wanted_result),
        };

        let given = self.input.lend(input, turn);
        let result = self.result.lend(fill, turn / 16);
        self.input.hold(call != Call::Hear);
        // SAFETY: both buffers are lent with their lengths and do not overlap. What the library does outside them is
        // what the guards and fences are for.
        let got = unsafe {
            match call {
                Call::Hear => (self.library.hear)(given, input.len(), number, result, room),
                Call::Read => (self.library.read)(given, input.len(), result, room),
                Call::Write => (self.library.write)(number, given, input.len(), result, room),
                Call::Record => (self.library.record)(time_of(input), number, result, room),
            }
        };
        self.input.hold(false);

        self.calls += 1;
        if got < 0 {
            self.seen.refused[call as usize][(got.unsigned_abs() % 16) as usize] += 1;
        }
        let same = got == wanted && self.input.bytes() == wanted_input && self.result.bytes() == wanted_result;
        let intact = self.input.intact() && self.result.intact();
        if !(same && intact) {
            self.differs(call, input, number, room, (got, wanted), intact)?;
        }
        Ok(got)
    }

    #[cold]
    fn differs(
        &mut self,
        call: Call,
        input: &[u8],
        number: u32,
        room: usize,
        (got, wanted): (i32, i32),
        intact: bool,
    ) -> Compared<()> {
        if self.patience > 0 {
            let number = if call == Call::Read { String::new() } else { format!(" with {number:#X}") };
            println!("{call:?}{number} of [{}], room {room}:", hex(input));
            println!("  returned {got}, wanted {wanted}");
            let buffers = [
                ("input", self.input.bytes(), &self.wanted_input[..input.len()]),
                ("result", self.result.bytes(), &self.wanted_result[..room]),
            ];
            for (name, got, wanted) in buffers {
                if got != wanted {
                    println!("  {name} is [{}]\n  wanted [{}]", hex(got), hex(wanted));
                }
            }
        }
        if !intact {
            if self.patience > 0 {
                println!("  guard bytes outside the buffers were written");
            }
            self.input.restore();
            self.result.restore();
        }
        self.fault("")
    }

    /// Counts a difference, with a line about it if there is one to print.
    pub fn fault(&mut self, what: &str) -> Compared<()> {
        if self.patience > 0 && !what.is_empty() {
            println!("{what}");
        }
        self.faults += 1;
        if self.faults >= self.patience {
            Err(Enough)
        } else {
            Ok(())
        }
    }

    /// The library's state after a call of the listener.
    pub fn state(&self) -> &[u8] {
        self.input.bytes()
    }

    /// The library's result buffer after a call.
    pub fn result(&self) -> &[u8] {
        self.result.bytes()
    }
}

impl Seen {
    /// What was never compared, of all that the calls can do.
    pub fn missing(&self) -> Vec<String> {
        let mut missing = Vec::new();
        for (call, numbers) in [
            (Call::Hear, &[1, 2, 8][..]),
            (Call::Read, &[3, 4, 5, 6, 7, 8]),
            (Call::Write, &[4, 5, 7, 8]),
            (Call::Record, &[1, 8]),
        ] {
            for &number in numbers {
                if self.refused[call as usize][number] == 0 {
                    missing.push(format!("{call:?}: refusal {number}"));
                }
            }
        }
        for (answer, count) in self.answers.iter().take(5).enumerate() {
            if *count == 0 {
                missing.push(format!("answer {answer} of the listener"));
            }
        }
        for (i, kind) in KINDS.iter().enumerate() {
            for (what, count) in [("read", self.read[i]), ("written", self.written[i])] {
                if count == 0 {
                    missing.push(format!("a {} {what}", kind.name));
                }
            }
        }
        if self.pilots_read == 0 || self.pilots_read == self.pilots {
            missing.push("angles of a pilot, read and refused".to_string());
        }
        if self.records == 0 {
            missing.push("a record written".to_string());
        }
        missing
    }

    pub fn handed(&self) -> u64 {
        self.answers[4]
    }

    pub fn read(&self) -> u64 {
        self.read.iter().sum()
    }

    pub fn written(&self) -> u64 {
        self.written.iter().sum()
    }

    pub fn records(&self) -> u64 {
        self.records
    }
}
