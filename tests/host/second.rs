//! The listener, the reader, the writer and the recording writer behind the C boundary, written a second time from the
//! text of docs/RULES.md alone. One rule at a time can be broken, to try whether the comparison sees it.

use crate::library::Call;
use crate::rules::{Broken, Rule};

pub struct Field {
    pub low: i32,
    pub high: i32,
    pub flag: bool,
}

impl Field {
    pub fn has(&self, value: i32) -> bool {
        (self.low..=self.high).contains(&value)
    }
}

pub struct Kind {
    pub command: u8,
    /// The bytes after the command, as the table prints them.
    after: &'static str,
    pub name: &'static str,
    pub fields: &'static [Field],
}

const fn number(low: i32, high: i32) -> Field {
    Field { low, high, flag: false }
}

const FLAG: Field = Field { low: 0, high: 1, flag: true };
const WORD: Field = number(0, 65535);
const TWENTY_BITS: Field = number(0, 1048575);
const HALF_DEGREES: Field = number(0, 719);
const WHOLE_DEGREES: Field = number(0, 359);
const BYTE: Field = number(0, 255);
const SIGNED_BYTE: Field = number(-128, 127);
const MINUTES: Field = number(0, 5999);

const fn kind(command: u8, after: &'static str, name: &'static str, fields: &'static [Field]) -> Kind {
    Kind { command, after, name, fields }
}

pub const KINDS: [Kind; 21] = [
    kind(0x00, "02 YZ XX XX", "depth", &[WORD, FLAG, FLAG, FLAG, FLAG, FLAG]),
    kind(0x10, "01 XX YY", "windangle", &[HALF_DEGREES]),
    kind(0x11, "01 XX 0Y", "windspeed", &[number(0, 1279), FLAG]),
    kind(0x20, "01 XX XX", "speed", &[WORD]),
    kind(0x21, "02 XX XX 0X", "trip", &[TWENTY_BITS]),
    kind(0x22, "02 XX XX 00", "total", &[WORD]),
    kind(0x25, "Z4 XX YY UU VV AW", "logs", &[TWENTY_BITS, TWENTY_BITS]),
    kind(0x26, "04 XX XX YY YY DE", "speeds", &[WORD, WORD, FLAG, FLAG, FLAG]),
    kind(0x27, "01 XX XX", "water", &[number(-100, 65435)]),
    kind(0x30, "00 0X", "lamp", &[number(0, 3)]),
    kind(0x50, "Z2 XX YY YY", "lat", &[number(0, 90), MINUTES, FLAG]),
    kind(0x51, "Z2 XX YY YY", "lon", &[number(0, 180), MINUTES, FLAG]),
    kind(0x52, "01 XX XX", "ground", &[WORD]),
    kind(0x53, "U0 VW", "course", &[HALF_DEGREES]),
    kind(0x54, "T1 RS HH", "time", &[number(0, 23), number(0, 59), number(0, 59)]),
    kind(0x56, "M1 DD YY", "date", &[number(1, 12), number(1, 31), number(0, 99)]),
    kind(
        0x84,
        "U6 VW XY 0Z 0M RR SS TT",
        "pilot",
        &[WHOLE_DEGREES, FLAG, HALF_DEGREES, FLAG, FLAG, FLAG, FLAG, FLAG, SIGNED_BYTE, BYTE, BYTE],
    ),
    kind(0x86, "X1 YY yy", "key", &[number(0, 15), BYTE]),
    kind(0x89, "U2 VW XY 2Z", "heading", &[HALF_DEGREES, HALF_DEGREES, FLAG]),
    kind(0x99, "00 XX", "variation", &[number(-127, 128)]),
    kind(0x9C, "U1 VW RR", "turn", &[WHOLE_DEGREES, FLAG, SIGNED_BYTE]),
];

pub fn kind_of(command: u8) -> &'static Kind {
    KINDS.iter().find(|kind| kind.command == command).expect("a kind")
}

impl Kind {
    /// Length of its datagram: the command and the printed bytes.
    pub const fn length(&self) -> usize {
        1 + (self.after.len() + 1) / 3
    }
}

pub const STATE: usize = 18;
pub const HEARD: usize = 20;
pub const RECORD: usize = 8;
pub const LONGEST: usize = 18;
pub const MOST_FIELDS: usize = 11;
/// No input is longer than this.
pub const INPUT: usize = 64;

/// The refusals of each call in the order that decides.
const HEAR_ORDER: &[u8] = &[1, 2, 8];
const READ_ORDER: &[u8] = &[3, 4, 5, 6, 7, 8];
const WRITE_ORDER: &[u8] = &[4, 5, 7, 8];
const RECORD_ORDER: &[u8] = &[1, 8];

type Fields = [i32; MOST_FIELDS];

/// Which refusals hold, by number.
type Holds = [bool; 9];

/// In the place of a command where nothing is broken.
const NO_COMMAND: u16 = 999;

pub struct Second {
    /// What is broken, each part whole whether it is in use or not.
    rule: Option<Rule>,
    order: (Option<Call>, u8, u8),
    length: (u16, usize),
    low: (u16, usize, i32),
    high: (u16, usize, i32),
    kinds: [Option<usize>; 256],
    /// U and the six bits for each half degree.
    halves: Vec<(u8, u8)>,
    /// The same for each degree turning left, and then for each turning right.
    wholes: Vec<(u8, u8)>,
}

fn word(low: u8, high: u8) -> i32 {
    i32::from(low) + 256 * i32::from(high)
}

fn half_degrees(u: u8, six: u8) -> i32 {
    180 * i32::from(u & 3) + 4 * i32::from(six) + i32::from((u & 0xC) / 4)
}

fn whole_degrees(u: u8, six: u8) -> i32 {
    (90 * i32::from(u & 3) + 2 * i32::from(six) + (u & 0xC).count_ones() as i32) % 360
}

/// Every spelling of an angle, each at the place that it reads as: one spelling for each place.
fn spellings(places: usize, place: fn(u8, u8) -> usize) -> Vec<(u8, u8)> {
    let mut spelled = vec![None; places];
    for u in 0..16 {
        for six in 0..=44 {
            let was = spelled[place(u, six)].replace((u, six));
            assert!(was.is_none(), "two spellings of one angle");
        }
    }
    spelled.into_iter().map(|spelling| spelling.expect("an angle without a spelling")).collect()
}

impl Second {
    pub fn new(broken: Broken) -> Second {
        let mut kinds = [None; 256];
        for (i, kind) in KINDS.iter().enumerate() {
            kinds[kind.command as usize] = Some(i);
        }
        let mut second = Second {
            rule: None,
            order: (None, 0, 0),
            length: (NO_COMMAND, 0),
            low: (NO_COMMAND, 0, 0),
            high: (NO_COMMAND, 0, 0),
            kinds,
            halves: spellings(720, |u, six| half_degrees(u, six) as usize),
            wholes: spellings(720, |u, six| whole_degrees(u, six) as usize + if u & 8 != 0 { 360 } else { 0 }),
        };
        match broken {
            Broken::Nothing => {}
            Broken::Rule(rule) => second.rule = Some(rule),
            Broken::Order(call, later, sooner) => second.order = (Some(call), later, sooner),
            Broken::Missing(command) => second.kinds[usize::from(command)] = None,
            Broken::Length(command, length) => second.length = (u16::from(command), length),
            Broken::Low(command, field, by) => second.low = (u16::from(command), field, by),
            Broken::High(command, field, by) => second.high = (u16::from(command), field, by),
        }
        if second.is(Rule::Command85) {
            second.kinds[0x85] = second.kinds[0x9C];
        }
        if second.is(Rule::Command95) {
            second.kinds[0x95] = second.kinds[0x84];
        }
        second
    }

    fn is(&self, rule: Rule) -> bool {
        self.rule == Some(rule)
    }

    /// One of two values, the second when the rule is broken.
    fn or<T>(&self, rule: Rule, right: T, wrong: T) -> T {
        if self.is(rule) {
            wrong
        } else {
            right
        }
    }

    fn first(&self, call: Call, order: &[u8], holds: &Holds) -> Option<u8> {
        let (broken, later, sooner) = self.order;
        if broken == Some(call) && holds[later as usize] && holds[sooner as usize] {
            return Some(later);
        }
        order.iter().copied().find(|&number| holds[number as usize])
    }

    /// What a refused call returns. The buffers stay, unless that rule is broken.
    fn refused(&self, number: u8, result: &mut [u8]) -> i32 {
        if self.is(Rule::ResultTouchedWhenRefused) || (self.is(Rule::ResultTouchedWithoutRoom) && number == 8) {
            if let Some(byte) = result.last_mut() {
                *byte = byte.wrapping_add(1);
            }
        }
        let number = i32::from(number);
        match self.rule {
            Some(Rule::RefusalPositive) => number,
            Some(Rule::RefusalWithPlace) => -(number + 256),
            Some(Rule::RefusalAllOnes) => -1,
            _ => -number,
        }
    }

    fn past_result(&self, result: &mut [u8], size: usize) {
        if self.is(Rule::PastResultCleared) {
            result[size..].fill(0);
        }
        if self.is(Rule::BytePastResultCleared) && size < result.len() {
            result[size] = 0;
        }
    }

    fn room(&self, size: usize) -> usize {
        match self.rule {
            Some(Rule::RoomOneShort) => size.saturating_sub(1),
            Some(Rule::RoomOneMore) => size + 1,
            _ => size,
        }
    }

    fn sound(&self, state: &[u8]) -> bool {
        let taken = state.len() == STATE
            || (self.is(Rule::LongerState) && state.len() > STATE)
            || (self.is(Rule::ShorterState) && state.len() == STATE - 1);
        if !taken {
            return false;
        }
        let held = usize::from(state[0]);
        if held > 17 {
            return self.is(Rule::EighteenHeld) && held == 18;
        }
        let past = state.get(1 + held..).unwrap_or(&[]);
        let past = match self.rule {
            Some(Rule::PastNotJudged) => &[],
            Some(Rule::LastPastNotJudged) => &past[..past.len().saturating_sub(1)],
            Some(Rule::FirstPastNotJudged) => &past[past.len().min(1)..],
            Some(Rule::EmptyNotJudged) if held == 0 => &[],
            _ => past,
        };
        let declared = 3 + usize::from(state[2] % 16);
        let fewer = match self.rule {
            Some(Rule::DeclaredNotJudged) => true,
            Some(Rule::DeclaredHeld) => held <= declared,
            Some(Rule::DeclaredLess) => held + 1 < declared,
            _ => held < declared,
        };
        past.iter().all(|&byte| byte == 0) && (held < 2 || fewer)
    }

    pub fn hear(&self, state: &mut [u8], symbol: u32, result: &mut [u8]) -> i32 {
        let judged = match self.rule {
            Some(Rule::SymbolOf16Bits) => symbol % 65536,
            Some(Rule::SymbolOf9Bits) => symbol % 512,
            _ => symbol,
        };
        let mut holds = [false; 9];
        holds[1] = judged > self.or(Rule::Symbol512, self.or(Rule::Symbol511, 511, 510), 512);
        holds[2] = !self.sound(state);
        holds[8] = result.len() < self.room(HEARD);
        if let Some(number) = self.first(Call::Hear, HEAR_ORDER, &holds) {
            if number == 8 && self.is(Rule::StateChangedWithoutRoom) {
                state[1] ^= 1;
            }
            if number == 1 && self.is(Rule::StateClearedByRefusedSymbol) {
                state.fill(0);
            }
            return self.refused(number, result);
        }

        let byte = (symbol % 256) as u8;
        let mut held = usize::from(state[0]).min(17);
        let mut bytes = [0; LONGEST];
        for (to, from) in bytes.iter_mut().zip(&state[1..]).take(held) {
            *to = *from;
        }
        let mut handed = 0;
        let answer;
        if judged >= 256 {
            answer = if held == 0 || self.is(Rule::CancelledNotTold) { 0 } else { 1 };
            match self.rule {
                Some(Rule::HeldKeptAfterCommand) if held > 0 && held < 17 => held += 1,
                Some(Rule::CommandLost) if held > 0 => held = 0,
                _ => held = 1,
            }
            if !self.is(Rule::CancelledBytesStay) {
                bytes[held..].fill(0);
            }
            if held > 0 {
                bytes[held - 1] = byte;
            }
        } else if held == 0 {
            answer = self.or(Rule::StrayIsKept, 2, 3);
            if self.is(Rule::StrayOpens) {
                held = 1;
                bytes[0] = byte;
            }
        } else {
            bytes[held] = byte;
            held += 1;
            let declared = match self.rule {
                Some(Rule::LengthTwoMore) => 2 + usize::from(bytes[1] % 16),
                Some(Rule::LengthFourMore) => 4 + usize::from(bytes[1] % 16),
                Some(Rule::LengthOfWholeByte) => 3 + usize::from(bytes[1]),
                Some(Rule::LengthOf3Bits) => 3 + usize::from(bytes[1] % 8),
                _ => 3 + usize::from(bytes[1] % 16),
            };
            if held >= 2 && held >= declared.min(LONGEST) {
                answer = 4;
                handed = held;
            } else {
                answer = self.or(Rule::KeptIsStray, 3, 2);
            }
        }

        if result.len() >= HEARD {
            result[0] = answer;
            result[1] = match self.rule {
                Some(Rule::NumberHeldGiven) => held as u8,
                Some(Rule::NumberOneLess) if handed > 0 => handed as u8 - 1,
                _ => handed as u8,
            };
            for (i, to) in result[2..HEARD].iter_mut().enumerate() {
                if i < handed || (self.is(Rule::KeptBytesShown) && i < held) {
                    *to = bytes[i];
                } else if !self.is(Rule::RestOfResultStays) {
                    *to = 0;
                }
            }
        }
        if handed > 0 && !self.is(Rule::HandedStaysHeld) {
            held = 0;
            if !self.is(Rule::HandedBytesStay) {
                bytes.fill(0);
            }
        }
        if !self.is(Rule::StateNeverChanges) {
            state[0] = held as u8;
            for (to, from) in state[1..].iter_mut().zip(&bytes[..17]) {
                *to = *from;
            }
        }
        let size = result.len().min(HEARD);
        self.past_result(result, size);
        self.or(Rule::HearReturnsNumber, HEARD as i32, 2 + handed as i32)
    }

    fn kind(&self, command: u32) -> Option<&'static Kind> {
        let command = match self.rule {
            Some(Rule::CommandOf8Bits) => command % 256,
            Some(Rule::CommandOf16Bits) => command % 65536,
            _ => command,
        };
        self.kinds.get(command as usize).copied().flatten().map(|i| &KINDS[i])
    }

    fn length(&self, kind: &Kind) -> usize {
        let (command, length) = self.length;
        if command == u16::from(kind.command) {
            length
        } else {
            kind.length()
        }
    }

    pub fn read(&self, bytes: &[u8], result: &mut [u8]) -> i32 {
        // Zeros past the end, so that every refusal can be judged by itself.
        let mut d = [0; INPUT];
        d[..bytes.len()].copy_from_slice(bytes);
        let declared = 3 + usize::from(d[1] % 16);
        let kind = self.kind(u32::from(d[0]));
        let mut holds = [false; 9];
        holds[3] = match self.rule {
            Some(Rule::LongerIsWhole) => bytes.len() < declared,
            Some(Rule::ShorterIsWhole) => bytes.len() > declared || bytes.len() < 2,
            Some(Rule::EmptyIsWhole) => bytes.len() != declared && !bytes.is_empty(),
            Some(Rule::SeventeenAtMost) => bytes.len() != declared || declared > 17,
            Some(Rule::FourAtLeast) => bytes.len() != declared || declared < 4,
            _ => bytes.len() != declared,
        };
        let Some(kind) = kind else {
            holds[4] = true;
            // No kind and so no length or room to judge: these stand in for them when the order is broken.
            holds[5] = declared > 9;
            holds[8] = result.len() < 4;
            let number = self.first(Call::Read, READ_ORDER, &holds).unwrap_or(4);
            return self.refused(number, result);
        };
        holds[5] = match self.rule {
            Some(Rule::LongerDeclared) => declared < self.length(kind),
            Some(Rule::HighDigitDeclares) => usize::from(d[1]) + 3 != self.length(kind),
            _ => declared != self.length(kind),
        };
        let mut fields = [0; MOST_FIELDS];
        let refusal = self.fields(kind.command, &d, &mut fields);
        holds[6] = refusal == Err(6);
        holds[7] = refusal == Err(7);
        let size = 4 * kind.fields.len();
        holds[8] = result.len() < self.room(size);
        if let Some(number) = self.first(Call::Read, READ_ORDER, &holds) {
            return self.refused(number, result);
        }
        for ((to, &value), field) in result.chunks_exact_mut(4).zip(&fields).zip(kind.fields) {
            let value = if field.flag { value * self.or(Rule::FlagsAllOnes, 1, -1) } else { value };
            to.copy_from_slice(&match self.rule {
                Some(Rule::FieldsHighFirst) => value.to_be_bytes(),
                Some(Rule::FieldsOf16Bits) => (value & 0xFFFF).to_le_bytes(),
                Some(Rule::FieldsSignOf16Bits) => i32::from(value as i16).to_le_bytes(),
                Some(Rule::FieldsSize) => value.abs().to_le_bytes(),
                _ => value.to_le_bytes(),
            });
        }
        let size = result.len().min(size);
        self.past_result(result, size);
        self.or(Rule::ReadReturnsCount, size as i32, kind.fields.len() as i32)
    }

    /// The fields of a datagram of this kind; refusal 6 or 7.
    fn fields(&self, command: u8, d: &[u8; INPUT], fields: &mut Fields) -> Result<(), u8> {
        use Rule::*;
        let (u, l) = (d[1] / 16, d[1] % 16);
        let byte = |i: usize| i32::from(d[i]);
        let flag = |bits: u8| i32::from(bits != 0);
        let within = |value: i32, low: i32, high: i32| if (low..=high).contains(&value) { Ok(value) } else { Err(7) };
        let six_most = self.or(Six45, self.or(Six44Refused, 44, 43), 45);
        let six = |vw: u8| within(i32::from(vw & self.or(SevenBits, 0x3F, 0x7F)), 0, six_most).map(|six| six as u8);
        let half = |six: u8| match self.rule {
            Some(HalfDividedBy2) => half_degrees(u, six) + i32::from(u / 4),
            Some(HalfQuarter90) => half_degrees(u, six) - 90 * i32::from(u & 3),
            Some(HalfSixByTwo) => half_degrees(u, six) - 2 * i32::from(six),
            _ => half_degrees(u, six),
        };
        let mut put = |values: &[i32]| fields[..values.len()].copy_from_slice(values);
        match command {
            0x00 => {
                let (y, z) = (d[2] / 16, d[2] % 16);
                let depth = self.or(DepthHighFirst, word(d[3], d[4]), word(d[4], d[3]));
                let anchor = flag(self.or(AnchorBit, y & 8, z & 8));
                let metric = flag(self.or(MetricBit, y & 4, y & 2));
                let defective = flag(self.or(DefectiveBit, z & 4, z & 8));
                let (deep, shallow) = (flag(z & 2), flag(z & 1));
                let (deep, shallow) = self.or(DeepShallowSwapped, (deep, shallow), (shallow, deep));
                put(&[depth, anchor, metric, defective, deep, shallow]);
            }
            0x10 => {
                let angle = self.or(WindAngleLowFirst, word(d[3], d[2]), word(d[2], d[3]));
                put(&[within(angle, 0, self.or(WindAngle720, self.or(WindAngle719, 719, 718), 720))?]);
            }
            0x11 => {
                let y = self.or(WindZeroJudged, d[3] % 16, d[3]);
                let tenth = within(i32::from(y), 0, self.or(WindTenth10, self.or(WindTenth9, 9, 8), 10))?;
                let knots = self.or(WindFlagInSpeed, d[2] & 0x7F, d[2]);
                put(&[10 * i32::from(knots) + tenth, flag(self.or(MetresBit, d[2] & 0x80, d[3] & 0x80))]);
            }
            0x20 => put(&[self.or(SpeedHighFirst, word(d[2], d[3]), word(d[3], d[2]))]),
            0x21 => put(&[word(d[2], d[3]) + 65536 * i32::from(self.or(TripZeroRead, d[4] % 16, d[4]))]),
            0x22 => put(&[word(d[2], d[3]) + self.or(TotalZerosRead, 0, 65536) * byte(4)]),
            0x25 => {
                let total = word(d[2], d[3]) + self.or(Logs4096, 65536, 4096) * i32::from(u);
                let trip = word(d[4], d[5]) + 65536 * i32::from(self.or(LogsARead, d[6] % 16, d[6]));
                put(&[total, self.or(LogsTripHigh, trip, word(d[5], d[4]))]);
            }
            0x26 => {
                let (high, low) = (d[6] / 16, d[6] % 16);
                let both = (word(d[2], d[3]), word(d[4], d[5]));
                let (now, average) = self.or(SpeedsSwapped, both, (both.1, both.0));
                let valid = flag(self.or(ValidBit, high & 4, high & 8));
                let (stopped, mph) = (flag(low & 1), flag(low & 2));
                let (stopped, mph) = self.or(StoppedMphSwapped, (stopped, mph), (mph, stopped));
                put(&[now, average, valid, stopped, mph]);
            }
            0x27 => {
                let water = word(d[2], d[3]) - self.or(Water100, 100, 0);
                put(&[self.or(WaterNotBelow0, water, water.max(0))]);
            }
            0x30 => {
                let x = i32::from(self.or(LampZeroJudged, d[2] % 16, d[2]));
                let level = self.or(LampNotDivided, x / 4, x);
                let judged = (x % 4 == 0 || self.is(LampAnyDigit)) && x < 16;
                put(&[if judged { level } else { return Err(7) }]);
            }
            0x50 | 0x51 => {
                let yyyy = word(d[3], d[4]);
                let most = match (command, self.rule) {
                    (0x50, Some(Lat91)) => 91,
                    (0x50, Some(Lat90Refused)) => 89,
                    (0x50, _) => 90,
                    (_, Some(Lon181)) => 181,
                    (_, Some(Lon180Refused)) => 179,
                    _ => 180,
                };
                let minutes = yyyy & self.or(SouthInMinutes, 0x7FFF, 0xFFFF);
                let minutes = within(minutes, 0, self.or(Minutes6000, self.or(Minutes5999, 5999, 5998), 6000))?;
                let side = self.or(SouthInverted, yyyy & 0x8000 != 0, yyyy & 0x8000 == 0);
                put(&[within(byte(2), 0, most)?, minutes, i32::from(side)]);
            }
            0x52 => put(&[self.or(GroundHighFirst, word(d[2], d[3]), word(d[3], d[2]))]),
            0x53 => put(&[half(six(d[2])?)]),
            0x54 => {
                let s = i32::from(d[2] % 4);
                let second = self.or(SecondLowFirst, 16 * s + i32::from(u), s + 4 * i32::from(u));
                put(&[
                    within(byte(3), 0, self.or(Hour24, 23, 24))?,
                    within(i32::from((d[2] & 0xFC) / 4), 0, self.or(Minute60, 59, 60))?,
                    within(second, 0, self.or(Second60, 59, 60))?,
                ]);
            }
            0x56 => {
                let month = within(i32::from(u), self.or(Month0, 1, 0), self.or(Month13, 12, 13))?;
                let days = if self.is(DaysOfMonth) && [4, 6, 9, 11].contains(&month) { 30 } else { 31 };
                let day = within(byte(2), self.or(Day0, 1, 0), self.or(Day32, days, 32))?;
                put(&[month, day, within(byte(3), 0, self.or(Year100, 99, 100))?]);
            }
            0x84 => put(&self.pilot(d)?),
            0x86 => {
                let sum = self.or(SumModulo, byte(2) + byte(3), (byte(2) + byte(3)) % 64 + 192);
                if sum != 255 && !self.is(SumNotJudged) {
                    return Err(self.or(SumIsRange, 6, 7));
                }
                let code = self.or(KeyCodeRepeat, byte(2), byte(3));
                put(&[i32::from(self.or(KeySourceLow, u, l)), code]);
            }
            0x89 => {
                let quarter = i32::from(self.or(ReferenceLowBits, d[2] / 64, d[2] / 16 % 4));
                let xy = within(byte(3), 0, self.or(Reference180, self.or(Reference179, 179, 178), 180))?;
                let reference = self.or(ReferenceQuarter90, 180, 90) * quarter + xy;
                if self.is(HeadingTwoJudged) && d[4] / 16 != 2 {
                    return Err(7);
                }
                put(&[half(six(d[2])?), reference, flag(self.or(LockedBit, d[4] & 2, d[4] & 1))]);
            }
            0x99 => {
                let signed = i32::from(d[2] as i8);
                let east = self.or(VariationUnsigned, -signed, -byte(2));
                let east = self.or(VariationWest, east, signed);
                put(&[self.or(Variation128, east, if signed == -128 { -128 } else { east })]);
            }
            0x9C => {
                let six = six(d[2])?;
                let degrees = match self.rule {
                    Some(TurnNotModulo) => 90 * i32::from(u & 3) + 2 * i32::from(six) + (u & 12).count_ones() as i32,
                    Some(TurnHighTwo) => (90 * i32::from(u & 3) + 2 * i32::from(six) + i32::from(u / 4)) % 360,
                    _ => whole_degrees(u, six),
                };
                let right = flag(self.or(RightBit, u & 8, u & 4));
                put(&[degrees, right, self.or(RudderUnsigned, i32::from(d[3] as i8), byte(3))]);
            }
            _ => put(&[0; MOST_FIELDS]),
        }
        Ok(())
    }

    /// The fields of a pilot; refusal 7.
    fn pilot(&self, d: &[u8; INPUT]) -> Result<Fields, u8> {
        use Rule::*;
        let (u, xy, z, m) = (d[1] / 16, d[3], d[4], d[5]);
        let flag = |bits: u8| i32::from(bits != 0);
        let six = d[2] & self.or(PilotSevenBits, 0x3F, 0x7F);
        let misspelled = six > self.or(PilotSix45, self.or(PilotSix44Refused, 44, 43), 45)
            || xy > self.or(Course180, self.or(Course179Refused, 179, 178), 180)
            || (self.is(PilotZerosJudged) && (z | m) > 0xF)
            || (self.is(OneModeAtMost) && (z & 0xE).count_ones() > 1);
        if misspelled {
            return Err(7);
        }
        let degrees = match self.rule {
            Some(PilotNotModulo) if (u, six) == (0xF, 44) => 360,
            Some(PilotHighTwo) => (90 * i32::from(u & 3) + 2 * i32::from(six) + i32::from(u / 4)) % 360,
            Some(PilotHalfAngle) => half_degrees(u, six) / 2,
            _ => whole_degrees(u, six),
        };
        let right = flag(self.or(PilotRightBit, u & 8, u & 4));
        let quarter = match self.rule {
            Some(CourseWithoutV) => 0,
            Some(CourseByTwo) => d[2] / 32,
            Some(CourseLowBits) => d[2] / 16 % 4,
            _ => d[2] / 64,
        };
        let course = self.or(CourseQuarter90, 180, 90) * i32::from(quarter) + i32::from(xy);
        let modes = self.or(ModesHigh, z, z / 16);
        let auto = flag(modes & self.or(AutoBit, 2, 1));
        let vane = flag(modes & self.or(VaneBit, 4, 2));
        let track = flag(modes & self.or(TrackBit, 8, 4));
        let off_course = flag(self.or(OffCourseInZ, m, z) & self.or(OffCourseBit, 4, 8));
        let wind_shift = flag(self.or(WindShiftInZ, m, z) & self.or(WindShiftBit, 8, 2));
        let rudder = match self.rule {
            Some(PilotRudderUnsigned) => i32::from(d[6]),
            Some(PilotRudderLeft) => -i32::from(d[6] as i8),
            _ => i32::from(d[6] as i8),
        };
        let (ss, tt) = self.or(SsTtSwapped, (d[7], d[8]), (d[8], d[7]));
        let tt = self.or(TtSigned, i32::from(tt), i32::from(tt as i8));
        let mut fields = [degrees, right, course, auto, vane, track, off_course, wind_shift, rudder, i32::from(ss), tt];
        match self.rule {
            Some(CourseBeforeTurning) => fields.swap(1, 2),
            Some(AlarmsBeforeModes) => fields[3..8].rotate_left(3),
            _ => {}
        }
        Ok(fields)
    }

    pub fn write(&self, command: u32, fields: &[u8], result: &mut [u8]) -> i32 {
        let mut holds = [false; 9];
        let Some(kind) = self.kind(command) else {
            holds[4] = true;
            // As in the reader: these stand in when the order is broken.
            holds[5] = fields.len() % 4 != 0;
            holds[8] = result.len() < 6;
            let number = self.first(Call::Write, WRITE_ORDER, &holds).unwrap_or(4);
            return self.refused(number, result);
        };
        let count = kind.fields.len();
        holds[5] = match self.rule {
            Some(Rule::MoreFields) => fields.len() < 4 * count,
            Some(Rule::FewerFields) => fields.len() > 4 * count || fields.len() % 4 != 0,
            Some(Rule::PartOfField) => fields.len() / 4 != count,
            Some(Rule::FieldsLengthOf8) => fields.len() != 8 * count,
            _ => fields.len() != 4 * count,
        };
        let mut values = [0; MOST_FIELDS];
        for (i, (value, field)) in values.iter_mut().zip(kind.fields).enumerate() {
            let mut bytes = [0; 4];
            let Some(given) = fields.get(4 * i..4 * i + 4) else {
                *value = field.low;
                continue;
            };
            bytes.copy_from_slice(given);
            *value = self.value(bytes);
            holds[7] |= !self.in_range(kind.command, i, field, value);
        }
        let length = self.length(kind);
        holds[8] = result.len() < self.room(2 * length);
        if let Some(number) = self.first(Call::Write, WRITE_ORDER, &holds) {
            return self.refused(number, result);
        }
        let bytes = self.bytes(kind.command, &values);
        for (i, to) in result.chunks_exact_mut(2).take(length).enumerate() {
            let bit = match self.rule {
                Some(Rule::NoCommandBit) => 0,
                Some(Rule::CommandBits) => 256,
                _ => 256 * u16::from(i == 0),
            };
            let symbol = u16::from(bytes[i]) + bit;
            to.copy_from_slice(&self.or(Rule::SymbolsHighFirst, symbol.to_le_bytes(), symbol.to_be_bytes()));
        }
        let size = result.len().min(2 * length);
        self.past_result(result, size);
        self.or(Rule::WriteReturnsLength, size as i32, length as i32)
    }

    fn value(&self, bytes: [u8; 4]) -> i32 {
        match self.rule {
            Some(Rule::ValueHighFirst) => i32::from_be_bytes(bytes),
            Some(Rule::ValueOf16Bits) => word(bytes[0], bytes[1]),
            Some(Rule::ValueOf24Bits) => i32::from_le_bytes([bytes[0], bytes[1], bytes[2], 0]),
            Some(Rule::ValueOf31Bits) => i32::from_le_bytes(bytes) & i32::MAX,
            Some(Rule::ValueSignOf16Bits) => i32::from(word(bytes[0], bytes[1]) as i16),
            _ => i32::from_le_bytes(bytes),
        }
    }

    fn in_range(&self, command: u8, i: usize, field: &Field, value: &mut i32) -> bool {
        let moved = |(c, f, by): (u16, usize, i32)| if (c, f) == (u16::from(command), i) { by } else { 0 };
        let (low, high) = (field.low + moved(self.low), field.high + moved(self.high));
        match self.rule {
            Some(Rule::AnyFlag) if field.flag => *value = i32::from(*value != 0),
            Some(Rule::FlagAllOnes) if field.flag && *value == -1 => *value = 1,
            Some(Rule::FlagOfOneBit) if field.flag => *value &= 1,
            Some(Rule::FlagOfOneByte) if field.flag => *value &= 255,
            _ => {}
        }
        (low..=high).contains(value)
    }

    /// The datagram of a message in range. Arithmetic wraps only where a broken rule lets a field out of range.
    fn bytes(&self, command: u8, f: &Fields) -> [u8; LONGEST] {
        use Rule::*;
        let low = |value: i32| value as u8;
        let second = |value: i32| (value >> 8) as u8;
        let third = |value: i32| (value >> 16) as u8 & 15;
        let flag = |value: i32, bit: u8| if value != 0 { bit } else { 0 };
        let digits = |u: u8, l: u8| (u & 15) * 16 + l;
        let half = |value: i32| self.halves[value.rem_euclid(720) as usize];
        let mut bytes = [0; LONGEST];
        bytes[0] = command;
        let mut put = |after: &[u8]| bytes[1..=after.len()].copy_from_slice(after);
        match command {
            0x00 => {
                let y = flag(f[1], 8) | flag(f[2], self.or(WriteMetricBit, 4, 2));
                let (deep, shallow) = self.or(WriteDeepShallow, (f[4], f[5]), (f[5], f[4]));
                let z = flag(f[3], 4) | flag(deep, 2) | flag(shallow, 1);
                put(&[0x02, digits(y, z), low(f[0]), second(f[0])]);
            }
            0x10 => {
                let both = [second(f[0]), low(f[0])];
                let [x, y] = self.or(WriteWindAngle, both, [both[1], both[0]]);
                put(&[0x01, x, y]);
            }
            0x11 => put(&[0x01, (f[0] / 10) as u8 | flag(f[1], 0x80), (f[0] % 10) as u8]),
            0x20 | 0x52 => put(&[0x01, low(f[0]), second(f[0])]),
            0x21 => put(&[0x02, low(f[0]), second(f[0]), third(f[0])]),
            0x22 => put(&[0x02, low(f[0]), second(f[0]), 0]),
            0x25 => put(&[digits(third(f[0]), 4), low(f[0]), second(f[0]), low(f[1]), second(f[1]), third(f[1])]),
            0x26 => {
                let de = digits(flag(f[2], 4), flag(f[3], 1) | flag(f[4], 2));
                let de = self.or(WriteSensorBit, de, de | 0x80);
                put(&[0x04, low(f[0]), second(f[0]), low(f[1]), second(f[1]), de]);
            }
            0x27 => {
                let value = f[0] + self.or(WriteWater100, 100, 0);
                put(&[0x01, low(value), second(value)]);
            }
            0x30 => put(&[0x00, low(self.or(WriteLampTimes4, 4, 1) * f[0])]),
            0x50 | 0x51 => {
                let z = self.or(WritePositionA, 0, 0xA);
                put(&[digits(z, 2), low(f[0]), low(f[1]), second(f[1]) | flag(f[2], 0x80)]);
            }
            0x53 => {
                let (u, six) = half(f[0]);
                put(&[digits(u, 0), six]);
            }
            0x54 => {
                let rs = low(4 * f[1] + f[2] / 16);
                put(&[digits((f[2] % 16) as u8, 1), self.or(WriteSeconds, rs, low(4 * f[1])), low(f[0])]);
            }
            0x56 => put(&[digits(low(f[0]), 1), low(f[1]), low(f[2])]),
            0x84 => put(&self.pilot_bytes(f)),
            0x86 => put(&[digits(low(f[0]), 1), low(f[1]), self.or(WriteRepeat, !low(f[1]), low(f[1]))]),
            0x89 => {
                let (u, six) = half(f[0]);
                let quarter = (f[1] / 180) as u8 & 3;
                let two = self.or(WriteHeadingTwo, 2, 0);
                put(&[digits(u, 2), quarter * 64 + six, (f[1] % 180) as u8, digits(two, flag(f[2], 2))]);
            }
            0x99 => put(&[0x00, low(self.or(WriteVariation, -f[0], f[0]))]),
            _ => {
                let right = f[1] != 0;
                let (mut u, mut six) = self.whole(f[0], right);
                if self.is(WriteEvenRight) && right && f[0] % 2 == 0 {
                    (u, six) = self.whole(f[0], false);
                }
                if self.is(WriteNorthRight) && right && f[0] == 0 {
                    (u, six) = (0xC, 0);
                }
                if self.is(WriteTurnOneDegree) && !right && f[0] == 271 {
                    (u, six) = self.whole(270, right);
                }
                put(&[digits(u, 1), six, low(f[2])]);
            }
        }
        bytes
    }

    /// U and the six bits of a whole degree.
    fn whole(&self, degrees: i32, right: bool) -> (u8, u8) {
        self.wholes[degrees.rem_euclid(360) as usize + if right { 360 } else { 0 }]
    }

    /// The bytes of a pilot after its command.
    fn pilot_bytes(&self, f: &Fields) -> [u8; 8] {
        use Rule::*;
        let flag = |value: i32, bit: u8| if value != 0 { bit } else { 0 };
        let (degrees, right) = (f[0], f[1] != 0);
        let (u, six) = match self.rule {
            Some(WritePilotLeft) => self.whole(degrees, false),
            Some(WritePilotNorth) if right && degrees == 0 => (0xC, 0),
            Some(WritePilotOneDegree) if right && degrees == 271 => self.whole(270, right),
            Some(WritePilotHalfAngle) => self.halves[(2 * degrees).rem_euclid(720) as usize],
            _ => self.whole(degrees, right),
        };
        let quarter = self.or(WriteCourseWithoutV, (f[2] / 180) as u8 & 3, 0);
        let (vane, track) = self.or(WriteVaneTrack, (f[4], f[5]), (f[5], f[4]));
        let (off_course, wind_shift) = self.or(WriteAlarms, (f[6], f[7]), (f[7], f[6]));
        let mut z = flag(f[3], 2) | flag(vane, 4) | flag(track, 8);
        let mut m = flag(off_course, 4) | flag(wind_shift, 8);
        match self.rule {
            Some(WriteModeTwo) => z |= 0x20,
            Some(WriteAlarmBit) => m |= 1,
            Some(WriteOffCourseInZ) => (z, m) = (z | m & 4, m & 8),
            _ => {}
        }
        let rudder = self.or(WriteRudderSize, f[8], f[8].abs());
        let (ss, tt) = self.or(WriteSsTt, (f[9], f[10]), (f[10], f[9]));
        let attribute = u * 16 + self.or(WritePilotLength, 6, 5);
        [attribute, quarter * 64 + six, (f[2] % 180) as u8, z, m, rudder as u8, ss as u8, tt as u8]
    }

    pub fn record(&self, time: u32, symbol: u32, result: &mut [u8]) -> i32 {
        let judged = match self.rule {
            Some(Rule::RecordSymbolOf16Bits) => symbol % 65536,
            Some(Rule::RecordSymbolOf9Bits) => symbol % 512,
            _ => symbol,
        };
        let refused_time = match self.rule {
            Some(Rule::RecordLargestTime) => time == u32::MAX,
            Some(Rule::RecordTimeSign) => time > 0x7FFF_FFFF,
            _ => false,
        };
        let mut holds = [false; 9];
        holds[1] = judged > self.or(Rule::Record512, self.or(Rule::Record511, 511, 510), 512) || refused_time;
        holds[8] = result.len() < self.or(Rule::RecordRoom7, self.or(Rule::RecordRoom9, self.room(RECORD), 9), 7);
        let bytes = self.record_bytes(time, judged as u16);
        let size = result.len().min(RECORD);
        if let Some(number) = self.first(Call::Record, RECORD_ORDER, &holds) {
            if self.is(if number == 1 { Rule::RecordAboveWritten } else { Rule::RecordCutWritten }) {
                result[..size].copy_from_slice(&bytes[..size]);
            }
            return self.refused(number, result);
        }
        let written = match self.rule {
            Some(Rule::RecordMarkStays) => 2..size,
            Some(Rule::RecordHighByteStays) => 0..size - 1,
            _ => 0..size,
        };
        let front = self.or(Rule::RecordAtEnd, 0, result.len() - size);
        result[front..][written.clone()].copy_from_slice(&bytes[written]);
        if self.is(Rule::RecordPastCleared) {
            result[size..].fill(0);
        }
        self.past_result(result, size);
        match self.rule {
            Some(Rule::RecordReturnsCount) => 1,
            Some(Rule::RecordReturnsRoom) => result.len() as i32,
            _ => size as i32,
        }
    }

    fn record_bytes(&self, time: u32, symbol: u16) -> [u8; RECORD] {
        use Rule::*;
        let mark = match self.rule {
            Some(RecordMarkSwapped) => [0x54, 0x53],
            Some(RecordMarkSecond) => [0x53, 0x53],
            Some(RecordMarkFirst) => [0x54, 0x54],
            _ => [0x53, 0x54],
        };
        let time = match self.rule {
            Some(RecordTimeHighFirst) => time.to_be_bytes(),
            Some(RecordTimeHalves) => time.rotate_left(16).to_le_bytes(),
            Some(RecordTimeOf31Bits) => (time & 0x7FFF_FFFF).to_le_bytes(),
            Some(RecordTimeOf24Bits) => (time & 0x00FF_FFFF).to_le_bytes(),
            Some(RecordTimeOf16Bits) => (time & 0xFFFF).to_le_bytes(),
            _ => time.to_le_bytes(),
        };
        let symbol = match self.rule {
            Some(RecordSymbolHighFirst) => symbol.to_be_bytes(),
            Some(RecordNinthBitLost) => (symbol & 255).to_le_bytes(),
            Some(RecordNinthBitSet) => (symbol | 256).to_le_bytes(),
            _ => symbol.to_le_bytes(),
        };
        let (m, t, s) = (mark, time, symbol);
        match self.rule {
            Some(RecordSymbolFirst) => [m[0], m[1], s[0], s[1], t[0], t[1], t[2], t[3]],
            Some(RecordMarkLast) => [t[0], t[1], t[2], t[3], s[0], s[1], m[0], m[1]],
            _ => [m[0], m[1], t[0], t[1], t[2], t[3], s[0], s[1]],
        }
    }
}
