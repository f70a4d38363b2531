//! The worked examples of reference.txt through the library: heard symbol by symbol, read, and written again. Here
//! the wanted values stand in the file; the second implementation is compared with them too, as in every call.

use crate::compare::{Compared, Comparison};
use crate::second::{HEARD, KINDS, LONGEST, MOST_FIELDS, STATE};

const EXAMPLES: &str = include_str!("reference.txt");

fn hex(text: &str) -> Vec<u8> {
    text.split_whitespace().map(|byte| u8::from_str_radix(byte, 16).expect("two hex digits")).collect()
}

/// Whether the listener hands out exactly these bytes, at the last symbol and only there.
fn heard(c: &mut Comparison, bytes: &[u8]) -> Compared<bool> {
    let mut state = [0; STATE];
    let mut handed = false;
    for (i, &byte) in bytes.iter().enumerate() {
        let symbol = u32::from(byte) + if i == 0 { 256 } else { 0 };
        let returned = c.hear(&state, symbol, HEARD)?;
        state.copy_from_slice(c.state());
        let mut wanted = [0; LONGEST];
        wanted[..bytes.len()].copy_from_slice(bytes);
        let whole = usize::from(c.result()[1]) == bytes.len() && c.result()[2..] == wanted;
        handed = returned == HEARD as i32 && c.result()[0] == 4 && whole;
        if handed != (c.result()[0] == 4) || (handed && i + 1 < bytes.len()) {
            return Ok(false);
        }
    }
    Ok(handed)
}

/// Runs one example; false if the library gives anything else.
fn holds(c: &mut Comparison, bytes: &[u8], reading: &str, written: &[u8]) -> Compared<bool> {
    let mut words = reading.split_whitespace();
    let name = words.next().expect("a name");
    let numbers: Vec<i32> = words.map(|word| word.parse().expect("a number")).collect();
    if heard(c, bytes)? != (reading != "refused 3") {
        return Ok(false);
    }
    let returned = c.read(bytes, 4 * MOST_FIELDS)?;
    if name == "refused" {
        return Ok(returned == -numbers[0]);
    }
    let kind = KINDS.iter().find(|kind| kind.name == name).expect("a kind");
    let fields: Vec<u8> = numbers.iter().flat_map(|number| number.to_le_bytes()).collect();
    if kind.command != bytes[0] || returned != fields.len() as i32 || c.result()[..fields.len()] != fields {
        return Ok(false);
    }
    let mut symbols: Vec<u8> = written.iter().flat_map(|&byte| [byte, 0]).collect();
    symbols[1] = 1;
    Ok(c.write(u32::from(bytes[0]), &fields, symbols.len())? == symbols.len() as i32 && c.result() == symbols)
}

/// Runs all examples and gives their number.
pub fn examples(c: &mut Comparison) -> Compared<usize> {
    let mut count = 0;
    for line in EXAMPLES.lines().filter(|line| !line.is_empty() && !line.starts_with('#')) {
        let mut columns = line.split('|').map(str::trim);
        let (Some(bytes), Some(reading), Some(_)) = (columns.next(), columns.next(), columns.next()) else {
            panic!("three columns: {line}");
        };
        let bytes = hex(bytes);
        let (reading, written) = match reading.split_once("->") {
            Some((reading, written)) => (reading, hex(written)),
            None => (reading, bytes.clone()),
        };
        if !holds(c, &bytes, reading.trim(), &written)? {
            c.fault(&format!("the library does not give this example: {line}"))?;
        }
        count += 1;
    }
    Ok(count)
}
