//! The calls that are compared, in sections.

use crate::compare::{Compared, Comparison, ROOM};
use crate::second::{kind_of, Field, Kind, HEARD, KINDS, LONGEST, MOST_FIELDS, RECORD, STATE};

/// How many of the calls are made: one in so many of the large sections and of the sections of limits, and how many
/// symbols of a random bus.
#[derive(Clone, Copy)]
pub struct Effort {
    pub large: u64,
    pub limits: u64,
    pub symbols: u64,
}

/// Repeatable random numbers (splitmix64).
pub struct Random(pub u64);

impl Random {
    fn next(&mut self) -> u64 {
        self.0 = self.0.wrapping_add(0x9E3779B97F4A7C15);
        let mut z = self.0;
        z = (z ^ (z >> 30)).wrapping_mul(0xBF58476D1CE4E5B9);
        z = (z ^ (z >> 27)).wrapping_mul(0x94D049BB133111EB);
        z ^ (z >> 31)
    }

    /// A number below this one.
    fn below(&mut self, end: u64) -> u64 {
        ((self.next() >> 32) * end) >> 32
    }

    fn one_in(&mut self, n: u64) -> bool {
        n == 1 || self.below(n) == 0
    }

    fn byte(&mut self) -> u8 {
        self.next() as u8
    }

    fn fill(&mut self, bytes: &mut [u8]) {
        bytes.iter_mut().for_each(|byte| *byte = self.byte());
    }

    fn pick<T: Copy>(&mut self, from: &[T]) -> T {
        from[self.below(from.len() as u64) as usize]
    }

    /// A value of a field in range, at its limits often.
    fn value(&mut self, field: &Field) -> i32 {
        match self.below(8) {
            0 => field.low,
            1 => field.high,
            _ => field.low + self.below((field.high - field.low + 1) as u64) as i32,
        }
    }

    fn message(&mut self, kind: &Kind) -> Vec<i32> {
        kind.fields.iter().map(|field| self.value(field)).collect()
    }
}

/// Symbols above 511: next to it, with low bits that would be a symbol, and the largest.
const ABOVE: &[u32] = &[
    512,
    513,
    767,
    768,
    1023,
    1024,
    32767,
    32768,
    65535,
    65536,
    65536 + 0x03E,
    65536 + 0x120,
    0x0100_0120,
    0x7FFF_FFFF,
    0x8000_0000,
    0x8000_0120,
    0xFFFF_FE20,
    0xFFFF_FFFF,
];

/// Times of a record: around each number of bytes, four bytes that differ, and around the sign.
const TIMES: &[u32] =
    &[0, 1, 255, 256, 65535, 65536, 0x00FF_FFFF, 0x0100_0000, 0x1234_5678, 0x7FFF_FFFF, 0x8000_0000, 0xFFFF_FFFF];

const EMPTY: [u8; STATE] = [0; STATE];

/// Room for the fields of any kind.
const FIELDS: usize = 4 * MOST_FIELDS;

/// How many combinations of a kind's limits are made at most.
const COMBINATIONS: u64 = 50_000;

/// Every U, VW and XY of a pilot, and how many of them are read: six bits to 44, XY to 179.
pub const SPELLINGS: u64 = 16 * 256 * 256;
pub const SPELLINGS_READ: u64 = 16 * 4 * 45 * 180;

fn laid_out(fields: &[i32]) -> Vec<u8> {
    fields.iter().flat_map(|field| field.to_le_bytes()).collect()
}

/// The bytes of the symbols in a writer's result.
fn bytes_of(symbols: &[u8]) -> Vec<u8> {
    symbols.chunks_exact(2).map(|symbol| symbol[0]).collect()
}

/// A state that holds the first bytes of a datagram which declares `length`.
fn holding(random: &mut Random, held: usize, length: usize) -> [u8; STATE] {
    let mut state = EMPTY;
    state[0] = held as u8;
    random.fill(&mut state[1..1 + held]);
    if held >= 2 {
        state[2] = (state[2] & 0xF0) | (length - 3) as u8;
    }
    state
}

/// The empty state and every state with one symbol held, with every symbol.
pub fn one_symbol_states(c: &mut Comparison, effort: Effort, random: &mut Random) -> Compared<()> {
    for held in 0..=256u32 {
        let mut state = EMPTY;
        if held > 0 {
            state[0] = 1;
            state[1] = (held - 1) as u8;
        }
        for symbol in (0..512).chain(ABOVE.iter().copied()) {
            if random.one_in(effort.large) {
                c.hear(&state, symbol, HEARD)?;
            }
        }
    }
    Ok(())
}

/// Every number held with every declared length, sound and not, with every symbol.
pub fn longer_states(c: &mut Comparison, effort: Effort, random: &mut Random) -> Compared<()> {
    for held in 2..=17 {
        for length in 3..=LONGEST {
            for symbol in (0..512).chain(ABOVE.iter().copied()) {
                if random.one_in(effort.large) {
                    let state = holding(random, held, length);
                    c.hear(&state, symbol, HEARD)?;
                }
            }
            for symbol in [0, 255, 256, 511, 512] {
                let state = holding(random, held, length);
                c.hear(&state, symbol, HEARD)?;
            }
        }
    }
    Ok(())
}

/// States with one thing wrong or more, states of every length, and every length of the result, with symbols of
/// every sort: each alone and all of them together, so that the order of refusals is compared.
pub fn damaged_states(c: &mut Comparison, effort: Effort, random: &mut Random) -> Compared<()> {
    const SYMBOLS: [u32; 8] = [0x000, 0x03E, 0x0FF, 0x100, 0x120, 0x1FF, 512, 65536 + 0x120];
    // A byte past those held: each place, each number held, one bit.
    for held in 0..=17 {
        for place in held..17 {
            for symbol in SYMBOLS {
                let mut state = holding(random, held, sound_length(held));
                state[1 + place] = 1 << random.below(8);
                c.hear(&state, symbol, HEARD)?;
            }
        }
    }
    // Every number held, with bytes and without.
    for held in 0..=255 {
        for symbol in SYMBOLS {
            let mut state = EMPTY;
            state[0] = held;
            c.hear(&state, symbol, HEARD)?;
            state[2] = 0x0F;
            c.hear(&state, symbol, HEARD)?;
            random.fill(&mut state[1..]);
            c.hear(&state, symbol, HEARD)?;
        }
    }
    // Every length of the state, sound as far as it goes and not, with every length of the result.
    for length in 0..=40 {
        for room in 0..=40 {
            for symbol in [0x03E, 0x120, 512] {
                if !random.one_in(effort.limits) {
                    continue;
                }
                let mut long = [0; 40];
                c.hear(&long[..length], symbol, room)?;
                long[..3].copy_from_slice(&[2, 0x20, 0x01]);
                c.hear(&long[..length], symbol, room)?;
                long[..STATE].copy_from_slice(&holding(random, 17, LONGEST));
                c.hear(&long[..length], symbol, room)?;
                random.fill(&mut long);
                c.hear(&long[..length], symbol, room)?;
            }
        }
    }
    // Random ones.
    for _ in 0..2_000_000 / effort.large {
        let held = random.below(18) as usize;
        let length = random.pick(&[3, 4, 5, 7, 18, (held + 1).clamp(3, LONGEST), (held + 2).clamp(3, LONGEST)]);
        let mut state = holding(random, held, length);
        for _ in 0..random.below(3) {
            state[random.below(STATE as u64) as usize] = random.byte();
        }
        let symbol = random.below(520) as u32;
        let room = if random.one_in(8) { random.below(ROOM as u64 + 1) as usize } else { HEARD };
        c.hear(&state, symbol, room)?;
    }
    Ok(())
}

/// The least declared length with which this number held is sound.
fn sound_length(held: usize) -> usize {
    (held + 1).max(3)
}

/// Writes a message and reads what was written, which has to give it back.
fn there_and_back(c: &mut Comparison, kind: &Kind, message: &[i32]) -> Compared<bool> {
    let fields = laid_out(message);
    let written = c.write(u32::from(kind.command), &fields, 2 * kind.length())?;
    if written < 0 {
        return Ok(false);
    }
    let bytes = bytes_of(c.result());
    let read = c.read(&bytes, 4 * kind.fields.len())?;
    if read != fields.len() as i32 || c.result() != fields {
        c.fault(&format!("{} {message:?} does not come back", kind.name))?;
    }
    Ok(true)
}

/// A field's limits and their neighbours; numbers whose low bits are in range and whose high bits are not; signs.
fn edges(field: &Field) -> Vec<i32> {
    let mut edges = vec![
        i32::MIN,
        i32::MIN + 1,
        -65536,
        -32768,
        -256,
        -255,
        -129,
        -128,
        -127,
        -101,
        -100,
        -99,
        -2,
        -1,
        0,
        1,
        2,
        3,
        127,
        128,
        254,
        255,
        256,
        257,
        32767,
        32768,
        65535,
        65536,
        65537,
        1 << 24,
        (1 << 24) + 1,
        i32::MAX - 1,
        i32::MAX,
    ];
    for limit in [field.low, field.high] {
        edges.extend([limit - 2, limit - 1, limit, limit + 1, limit + 2]);
        for bit in [7, 8, 15, 16, 20, 24, 30, 31] {
            edges.push(limit ^ (1 << bit));
        }
        edges.push(-limit);
        edges.push(!limit);
    }
    edges.sort_unstable();
    edges.dedup();
    edges
}

/// Every kind at each limit of each field and its neighbours, the other fields in range, written and read back.
pub fn limits(c: &mut Comparison, effort: Effort, random: &mut Random) -> Compared<()> {
    for kind in &KINDS {
        for (i, field) in kind.fields.iter().enumerate() {
            for edge in edges(field) {
                for _ in 0..8 {
                    if random.one_in(effort.limits) {
                        let mut message = random.message(kind);
                        message[i] = edge;
                        let taken = there_and_back(c, kind, &message)?;
                        if taken != field.has(edge) {
                            c.fault(&format!(
                                "{} field {i}: {edge} is {}taken",
                                kind.name,
                                if taken { "" } else { "not " }
                            ))?;
                        }
                    }
                }
            }
        }
    }
    Ok(())
}

/// A field's limits and their neighbours alone.
fn around(field: &Field) -> Vec<i32> {
    let mut around = vec![field.low - 1, field.low, field.low + 1, field.high - 1, field.high, field.high + 1];
    around.sort_unstable();
    around.dedup();
    around
}

/// Every two fields of a kind at their limits and neighbours, in every combination, the other fields in range: so each
/// field out of range also stands before and behind each other one.
pub fn limits_of_two(c: &mut Comparison, effort: Effort, random: &mut Random) -> Compared<()> {
    for kind in &KINDS {
        let fields = kind.fields.iter().enumerate();
        let limits: Vec<(usize, i32)> =
            fields.flat_map(|(i, field)| around(field).into_iter().map(move |value| (i, value))).collect();
        for &(i, first) in &limits {
            for &(j, second) in limits.iter().filter(|&&(j, _)| j > i) {
                if !random.one_in(effort.limits) {
                    continue;
                }
                let mut message = random.message(kind);
                (message[i], message[j]) = (first, second);
                let taken = there_and_back(c, kind, &message)?;
                if taken != (kind.fields[i].has(first) && kind.fields[j].has(second)) {
                    c.fault(&format!("{} {message:?} is {}taken", kind.name, if taken { "" } else { "not " }))?;
                }
            }
        }
    }
    Ok(())
}

/// All fields of a kind at their limits and neighbours, in every combination; of a kind with very many, in some.
pub fn limits_together(c: &mut Comparison, effort: Effort, random: &mut Random) -> Compared<()> {
    for kind in &KINDS {
        let choices: Vec<Vec<i32>> = kind.fields.iter().map(around).collect();
        let combinations: u64 = choices.iter().map(|choice| choice.len() as u64).product();
        for n in 0..combinations.min(COMBINATIONS) {
            if random.one_in(effort.limits) {
                let mut which = if combinations > COMBINATIONS { random.below(combinations) } else { n };
                let message: Vec<i32> = choices
                    .iter()
                    .map(|choice| {
                        let value = choice[(which % choice.len() as u64) as usize];
                        which /= choice.len() as u64;
                        value
                    })
                    .collect();
                there_and_back(c, kind, &message)?;
            }
        }
    }
    Ok(())
}

/// Every value of every field, the other fields in range.
pub fn every_value(c: &mut Comparison, effort: Effort, random: &mut Random) -> Compared<()> {
    for kind in &KINDS {
        for (i, field) in kind.fields.iter().enumerate() {
            for value in field.low..=field.high {
                if random.one_in(effort.large) {
                    let mut message = random.message(kind);
                    message[i] = value;
                    there_and_back(c, kind, &message)?;
                }
            }
        }
    }
    // Every whole degree with both ways of turning.
    for kind in [kind_of(0x84), kind_of(0x9C)] {
        for degrees in 0..360 {
            for right in 0..2 {
                let mut message = random.message(kind);
                (message[0], message[1]) = (degrees, right);
                there_and_back(c, kind, &message)?;
            }
        }
    }
    Ok(())
}

/// The datagram of a message in range, as the library writes it.
fn datagram(c: &mut Comparison, random: &mut Random, kind: &Kind) -> Compared<Vec<u8>> {
    let fields = laid_out(&random.message(kind));
    let size = c.write(u32::from(kind.command), &fields, 2 * kind.length())?;
    let mut bytes = bytes_of(&c.result()[..size.max(0) as usize]);
    bytes.resize(kind.length(), 0);
    Ok(bytes)
}

/// What was read, written again and read again: as long as a firmware would keep it.
fn read_and_write(c: &mut Comparison, bytes: &[u8], room: usize) -> Compared<()> {
    let size = c.read(bytes, room)?;
    if size < 0 {
        return Ok(());
    }
    let fields = c.result()[..size as usize].to_vec();
    let size = c.write(u32::from(bytes[0]), &fields, 2 * bytes.len())?;
    let again = bytes_of(&c.result()[..size.max(0) as usize]);
    let size = c.read(&again, room)?;
    if size != fields.len() as i32 || c.result()[..fields.len()] != fields {
        c.fault("what was read does not come back")?;
    }
    Ok(())
}

/// Every value of every byte of every kind, the other bytes of a message in range, zeros, ones or random.
pub fn every_byte(c: &mut Comparison, effort: Effort, random: &mut Random) -> Compared<()> {
    for kind in &KINDS {
        for base in 0..8 {
            for place in 0..kind.length() {
                for value in 0..=255 {
                    if !random.one_in(effort.limits) {
                        continue;
                    }
                    let mut bytes = datagram(c, random, kind)?;
                    match base {
                        0 => bytes[2..].fill(0),
                        1 => bytes[2..].fill(255),
                        2 => random.fill(&mut bytes[2..]),
                        _ => {}
                    }
                    bytes[place] = value;
                    read_and_write(c, &bytes, ROOM)?;
                }
            }
        }
        // Every second byte with every third.
        for pair in 0..65536u32 {
            if random.one_in(effort.large) {
                let mut bytes = datagram(c, random, kind)?;
                bytes[1] = (pair / 256) as u8;
                bytes[2] = pair as u8;
                read_and_write(c, &bytes, ROOM)?;
            }
        }
    }
    Ok(())
}

/// Every U, VW and XY of a pilot, its other bytes random.
pub fn every_pilot(c: &mut Comparison, effort: Effort, random: &mut Random) -> Compared<()> {
    for spelled in 0..SPELLINGS as u32 {
        if random.one_in(effort.large) {
            let [xy, vw, u, _] = spelled.to_le_bytes();
            let read = pilot(c, random, u, vw, xy)?;
            c.seen.pilots += 1;
            c.seen.pilots_read += u64::from(read);
        }
    }
    Ok(())
}

/// Whether this pilot is read. Written again it has to have its own bytes, the ignored bits cleared.
fn pilot(c: &mut Comparison, random: &mut Random, u: u8, vw: u8, xy: u8) -> Compared<bool> {
    let mut bytes = [0x84, u << 4 | 6, vw, xy, 0, 0, 0, 0, 0];
    random.fill(&mut bytes[4..]);
    if c.read(&bytes, FIELDS)? < 0 {
        return Ok(false);
    }
    let fields = c.result().to_vec();
    c.write(0x84, &fields, 2 * bytes.len())?;
    bytes[4] &= !0xF1;
    bytes[5] &= !0xF3;
    if bytes_of(c.result()) != bytes {
        c.fault(&format!("a pilot is not written as it was read: {bytes:02X?}"))?;
    }
    Ok(true)
}

/// Bytes of every length, with every declared length and every command, and every room for those of the table.
pub fn every_length(c: &mut Comparison, effort: Effort, random: &mut Random) -> Compared<()> {
    let mut bytes = [0; 40];
    for length in 0..=40 {
        for declared in 0..16 {
            for command in 0..=255 {
                if random.one_in(effort.large.min(16)) {
                    random.fill(&mut bytes);
                    bytes[0] = command;
                    bytes[1] = (bytes[1] & 0xF0) | declared;
                    c.read(&bytes[..length], random_room(random))?;
                }
            }
        }
    }
    for command in 0..=255 {
        for declared in 0..16 {
            for _ in 0..4 {
                random.fill(&mut bytes);
                bytes[0] = command;
                bytes[1] = (bytes[1] & 0xF0) | declared;
                c.read(&bytes[..3 + usize::from(declared)], random_room(random))?;
            }
        }
    }
    Ok(())
}

/// Room for everything more often than not.
fn random_room(random: &mut Random) -> usize {
    if random.one_in(3) {
        random.below(FIELDS as u64 + 6) as usize
    } else {
        ROOM
    }
}

/// Every command and numbers above 255 with fields of every length, in range and not.
pub fn every_command(c: &mut Comparison, effort: Effort, random: &mut Random) -> Compared<()> {
    let above = [256, 257, 511, 512, 65535, 65536, 1 << 24, 0x7FFF_FFFF, 0x8000_0000, 0xFFFF_FFFF];
    let mut commands: Vec<u32> = (0..=255).chain(above).collect();
    for kind in &KINDS {
        for high in [1 << 8, 1 << 16, 1 << 24, 1 << 31, 0xFFFF_FF00] {
            commands.push(u32::from(kind.command) | high);
        }
    }
    for command in commands {
        let kind = KINDS.iter().find(|kind| u32::from(kind.command) == command % 256);
        for length in 0..=60 {
            for attempt in 0..5 {
                if !random.one_in(effort.limits) {
                    continue;
                }
                let mut fields = vec![0; 60];
                match (attempt, kind) {
                    (0, _) => {}
                    (1, _) => random.fill(&mut fields),
                    (_, Some(kind)) => {
                        let message = laid_out(&random.message(kind));
                        fields[..message.len()].copy_from_slice(&message);
                        if attempt == 4 {
                            fields[random.below(message.len() as u64) as usize] ^= 1 << random.below(8);
                        }
                    }
                    _ => fields.iter_mut().step_by(4).for_each(|low| *low = 1),
                }
                c.write(command, &fields[..length], random_room(random))?;
            }
        }
    }
    Ok(())
}

/// Result buffers of every length around the one needed, for accepted and refused calls of every kind.
pub fn every_room(c: &mut Comparison, effort: Effort, random: &mut Random) -> Compared<()> {
    for room in 0..=ROOM {
        for (held, length) in [(0, 3), (1, 3), (2, 3), (2, 4), (17, 18)] {
            for symbol in [0x000, 0x0FE, 0x120, 0x1FF, 512] {
                let state = holding(random, held, length);
                c.hear(&state, symbol, room)?;
            }
        }
        for kind in &KINDS {
            for _ in 0..8 {
                if !random.one_in(effort.limits) {
                    continue;
                }
                let bytes = datagram(c, random, kind)?;
                c.read(&bytes, room)?;
                c.read(&bytes[..bytes.len() - 1], room)?;
                let mut damaged = bytes.clone();
                random.fill(&mut damaged[2..]);
                c.read(&damaged, room)?;
                let mut longer = bytes.clone();
                longer.push(0);
                longer[1] += 1;
                c.read(&longer, room)?;
                let mut message = random.message(kind);
                c.write(u32::from(kind.command), &laid_out(&message), room)?;
                let i = random.below(message.len() as u64) as usize;
                message[i] = random.pick(&edges(&kind.fields[i]));
                c.write(u32::from(kind.command), &laid_out(&message), room)?;
                c.write(u32::from(kind.command), &laid_out(&message)[1..], room)?;
            }
        }
    }
    Ok(())
}

/// Random symbols as a bus has them: messages, with ignored bits set too, damaged and unknown datagrams, abandoned
/// attempts, strays and symbols above 511. The reader follows what is handed out, and the writer what is read.
pub fn bus(c: &mut Comparison, effort: Effort, random: &mut Random) -> Compared<()> {
    let mut state = EMPTY;
    let mut heard = 0;
    let mut symbols = Vec::new();
    while heard < effort.symbols {
        said(c, random, &mut symbols)?;
        heard += symbols.len() as u64;
        for &symbol in &symbols {
            let room =
                if random.one_in(64) { random.below(ROOM as u64 + 1) as usize } else { HEARD + (symbol & 7) as usize };
            let mut returned = c.hear(&state, symbol, room)?;
            if returned == -8 {
                returned = c.hear(&state, symbol, HEARD)?;
            }
            state.copy_from_slice(c.state());
            if returned == HEARD as i32 && c.result()[0] == 4 {
                let bytes = c.result()[2..2 + usize::from(c.result()[1]).min(LONGEST)].to_vec();
                let (least, choices) = if random.one_in(64) { (0, FIELDS + 1) } else { (FIELDS, 9) };
                let room = least + random.below(choices as u64) as usize;
                read_and_write(c, &bytes, room)?;
            }
        }
    }
    Ok(())
}

/// The symbols of the next thing said on the bus.
fn said(c: &mut Comparison, random: &mut Random, symbols: &mut Vec<u32>) -> Compared<()> {
    let kind = &KINDS[random.below(KINDS.len() as u64) as usize];
    symbols.clear();
    let mut bytes = datagram(c, random, kind)?;
    match random.below(32) {
        // Ignored bits and fields out of range: any bit but those of the declared length.
        0..=5 => {
            for _ in 0..=random.below(3) {
                let place = 1 + random.below(bytes.len() as u64 - 1) as usize;
                bytes[place] ^= if place == 1 { 16 << random.below(4) } else { 1 << random.below(8) };
            }
        }
        6..=7 => random.fill(&mut bytes[2..]),
        // Any command of any length.
        8..=9 => {
            bytes.resize(random.below(16) as usize + 3, 0);
            random.fill(&mut bytes);
            bytes[1] = (bytes[1] & 0xF0) | (bytes.len() - 3) as u8;
        }
        // A kind with another length.
        10 => {
            bytes.resize(random.below(16) as usize + 3, 0);
            bytes[1] = (bytes[1] & 0xF0) | (bytes.len() - 3) as u8;
        }
        // An attempt: cut before its end.
        11..=12 => bytes.truncate(1 + random.below(bytes.len() as u64 - 1) as usize),
        _ => {}
    }
    symbols.extend(bytes.iter().map(|&byte| u32::from(byte)));
    symbols[0] += 256;
    if random.one_in(16) {
        symbols.insert(random.below(symbols.len() as u64 + 1) as usize, random.pick(ABOVE));
    }
    if random.one_in(16) {
        for _ in 0..=random.below(3) {
            symbols.push(u32::from(random.byte()));
        }
    }
    Ok(())
}

/// Every symbol and those above with every time of the list; every bit of the time and every length of the result,
/// with symbols of every sort; and random ones.
pub fn records(c: &mut Comparison, effort: Effort, random: &mut Random) -> Compared<()> {
    const SYMBOLS: [u32; 8] = [0x000, 0x03E, 0x0FF, 0x100, 0x120, 0x1FF, 512, 65536 + 0x120];
    for symbol in (0..=1100).chain(ABOVE.iter().copied()) {
        for &time in TIMES {
            if random.one_in(effort.limits) {
                c.record(time, symbol, RECORD)?;
            }
        }
    }
    for time in TIMES.iter().copied().chain((0..32).map(|bit| 1 << bit)) {
        for symbol in SYMBOLS {
            c.record(time, symbol, ROOM)?;
        }
    }
    for room in (0..=20).chain([ROOM]) {
        for symbol in SYMBOLS {
            c.record(random.pick(TIMES), symbol, room)?;
        }
    }
    // Random ones; one symbol in eight is above 511 with low bits that would be a symbol.
    for _ in 0..2_000_000 / effort.large {
        let time = random.next() as u32;
        let symbol = match random.below(8) {
            0 => random.next() as u32,
            1 => random.next() as u32 & !0xFE00 | 1 << (16 + random.below(16)),
            _ => random.below(520) as u32,
        };
        let room = if random.one_in(8) { random.below(ROOM as u64 + 1) as usize } else { RECORD };
        c.record(time, symbol, room)?;
    }
    Ok(())
}

pub type Section = (&'static str, fn(&mut Comparison, Effort, &mut Random) -> Compared<()>);

pub const SECTIONS: &[Section] = &[
    ("one-symbol states", one_symbol_states),
    ("longer states", longer_states),
    ("damaged states", damaged_states),
    ("limits of each field", limits),
    ("limits of two fields", limits_of_two),
    ("limits together", limits_together),
    ("every value of each field", every_value),
    ("every byte of each kind", every_byte),
    ("every angle of the pilot", every_pilot),
    ("bytes of every length", every_length),
    ("every command", every_command),
    ("every length of result", every_room),
    ("random bus", bus),
    ("records", records),
];
