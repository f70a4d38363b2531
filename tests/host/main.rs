//! Compares libseatalk.a, call by call, with a second implementation written from docs/RULES.md. See tests/boundary.
//!
//!     compared all            every section, between guard bytes and then against unreadable pages
//!     compared exact          few calls, in blocks of their exact length, for valgrind
//!     compared broken         breaks one rule of the second implementation at a time: each has to be seen
//!     compared faulty         tries guards and fences on a library that leaves its buffers
//!     compared faulty NAME PLACE   one such library, where PLACE is exact, end or start; it should not come back well

mod cases;
mod compare;
mod faulty;
mod library;
mod memory;
mod reference;
mod rules;
mod second;

use cases::{Effort, Random, SECTIONS, SPELLINGS, SPELLINGS_READ};
use compare::{Compared, Comparison};
use faulty::FAULTY;
use library::{Library, LINKED};
use memory::Place;
use rules::Broken;
use second::Second;

use std::os::unix::process::ExitStatusExt;
use std::process::{Command, ExitCode, Stdio};

const SEED: u64 = 4800;
const PATIENCE: usize = 10;
const SEGMENTATION_FAULT: i32 = 11;

const FULL: Effort = Effort { large: 1, limits: 1, symbols: 20_000_000 };
const FENCED: Effort = Effort { large: 40, limits: 4, symbols: 300_000 };
const QUICK: Effort = Effort { large: 100, limits: 1, symbols: 20_000 };
const EXACT: Effort = Effort { large: 2000, limits: 60, symbols: 20_000 };
const LEAST: Effort = Effort { large: 100_000, limits: 5_000, symbols: 500 };

/// Every section; each count is handed to `told`.
fn sections(c: &mut Comparison, effort: Effort, mut told: impl FnMut(&str, u64)) -> Compared<()> {
    for (i, (name, section)) in SECTIONS.iter().enumerate() {
        let before = c.calls;
        section(c, effort, &mut Random(SEED + i as u64))?;
        told(name, c.calls - before);
    }
    Ok(())
}

fn in_place(library: Library, place: Place, patience: usize) -> Comparison {
    Comparison::new(library, Second::new(Broken::Nothing), place, patience)
}

fn all() -> bool {
    let mut c = in_place(LINKED, Place::Guarded, PATIENCE);
    let mut calls = 0;
    let mut faults = 0;
    let stopped = sections(&mut c, FULL, |name, count| println!("compared: {count:>9} calls: {name}")).is_err();
    if !stopped {
        for missing in c.seen.missing() {
            println!("compared: nothing was compared of: {missing}");
            faults += 1;
        }
        let (handed, read, written) = (c.seen.handed(), c.seen.read(), c.seen.written());
        let symbols = FULL.symbols;
        println!("compared: the random bus has {symbols} symbols; of all sections {handed} datagrams were handed out,");
        println!("compared: {read} messages read and {written} written, and {} records written", c.seen.records());
        let (pilots, pilots_read) = (c.seen.pilots, c.seen.pilots_read);
        println!("compared: {pilots} spellings of a pilot's angles, {pilots_read} of them read and written back");
        if (pilots, pilots_read) != (SPELLINGS, SPELLINGS_READ) {
            println!("compared: there are {SPELLINGS} of them, and {SPELLINGS_READ} are to be read");
            faults += 1;
        }
        let before = c.calls;
        if let Ok(examples) = reference::examples(&mut c) {
            println!("compared: {:>9} calls: {examples} worked examples", c.calls - before);
        }
    }
    calls += c.calls;
    faults += c.faults;
    println!("compared: against unreadable pages, where a segmentation fault is a touch outside a buffer:");
    for (name, place) in [("end", Place::FencedEnd), ("start", Place::FencedStart)] {
        let mut c = in_place(LINKED, place, PATIENCE);
        let stopped = sections(&mut c, FENCED, |_, _| ()).is_err() || reference::examples(&mut c).is_err();
        println!("compared: {:>9} calls: buffers with their {name} against an unreadable page", c.calls);
        calls += c.calls;
        faults += c.faults + if stopped { 0 } else { c.seen.missing().len() };
    }
    println!("compared: {calls} calls, {faults} faults");
    faults == 0
}

fn exact(library: Library, effort: Effort) -> bool {
    let mut c = in_place(library, Place::Exact, PATIENCE);
    let done = sections(&mut c, effort, |_, _| ()).is_ok() && reference::examples(&mut c).is_ok();
    println!("compared: {} calls in blocks of their exact length, {} faults", c.calls, c.faults);
    done && c.faults == 0
}

fn broken() -> bool {
    let rules = rules::all();
    let mut seen = 0;
    if sections(&mut in_place(LINKED, Place::Guarded, PATIENCE), QUICK, |_, _| ()).is_err() {
        println!("compared: there are differences with no rule broken");
        return false;
    }
    for &(broken, ref what) in &rules {
        let mut c = Comparison::new(LINKED, Second::new(broken), Place::Guarded, 0);
        if sections(&mut c, QUICK, |_, _| ()).is_err() {
            seen += 1;
        } else {
            println!("compared: a broken rule is not seen: {what}");
        }
    }
    println!("compared: {seen} of {} broken rules seen", rules.len());
    seen == rules.len()
}

/// Each faulty library: guards and bytes show it in this process, fences end another one.
fn faulty() -> bool {
    let program = std::env::current_exe().expect("this program's path");
    let mut tried = 0;
    let mut unseen = 0;
    for faulty in FAULTY {
        let mut places = Vec::new();
        if faulty.guarded {
            let mut c = in_place(faulty.library, Place::Guarded, 0);
            places.push(("guards", sections(&mut c, LEAST, |_, _| ()).is_err()));
        }
        let fence = if faulty.name.ends_with("before") { "start" } else { "end" };
        let mut child = Command::new(&program);
        child.args(["faulty", faulty.name, fence]).stdout(Stdio::null()).stderr(Stdio::null());
        let status = child.status().expect("a process of this program");
        places.push(("fences", status.signal() == Some(SEGMENTATION_FAULT)));
        for (place, seen) in places {
            tried += 1;
            if !seen {
                unseen += 1;
                println!("compared: {place} do not show {}", faulty.name);
            }
        }
    }
    println!("compared: {} of {tried} faults outside the buffers seen", tried - unseen);
    unseen == 0
}

fn one_faulty(name: &str, place: &str) -> bool {
    let library = FAULTY.iter().find(|faulty| faulty.name == name).expect("a faulty library").library;
    match place {
        "exact" => exact(library, LEAST),
        "end" => sections(&mut in_place(library, Place::FencedEnd, PATIENCE), LEAST, |_, _| ()).is_ok(),
        _ => sections(&mut in_place(library, Place::FencedStart, PATIENCE), LEAST, |_, _| ()).is_ok(),
    }
}

fn main() -> ExitCode {
    let words: Vec<String> = std::env::args().skip(1).collect();
    let passed = match words.iter().map(String::as_str).collect::<Vec<_>>()[..] {
        ["all"] => all(),
        ["exact"] => exact(LINKED, EXACT),
        ["broken"] => broken(),
        ["faulty"] => faulty(),
        ["faulty", name, place] => one_faulty(name, place),
        _ => {
            eprintln!("use: compared all | exact | broken | faulty [NAME PLACE]");
            false
        }
    };
    if passed {
        ExitCode::SUCCESS
    } else {
        ExitCode::FAILURE
    }
}
