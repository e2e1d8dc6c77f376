// Compares the proved library, linked through its C interface, with rules.rs, an implementation of its own, on inputs made by chance, valid and damaged.
// Prints how many cases of each kind were compared and how often each refusal came; at the first difference it prints that and ends with status 1.
//
// usage: compare [SEED [ROUNDS]]
mod chance;
mod library;
mod rules;

use chance::Chance;
use rules::{Draft, OPEN};
use std::fmt::Debug;
use std::process::exit;

// Cases by kind, and refusals by number.
struct Counts {
    seed: u64,
    kinds: Vec<(&'static str, usize)>,
    refusals: [usize; 32],
}

impl Counts {
    fn same<T: PartialEq + Debug>(&mut self, kind: &'static str, library: T, reference: T, told: impl FnOnce() -> String) {
        if library != reference {
            println!("seed {}: {kind} differs", self.seed);
            println!("  library:   {library:?}\n  reference: {reference:?}\n  {}", told());
            exit(1);
        }
        match self.kinds.iter_mut().find(|(name, _)| *name == kind) {
            Some((_, count)) => *count += 1,
            None => self.kinds.push((kind, 1)),
        }
    }

    fn refused(&mut self, number: u8) {
        self.refusals[number as usize] += 1;
    }
}

fn draft(chance: &mut Chance, wild: bool) -> Draft {
    let side = [4, 12, 40][chance.below(3)];
    let least = if wild && chance.once_in(4) { chance.tone(true) } else { 128 };
    Draft { rows: 1 + chance.below(side), columns: 1 + chance.below(side), least }
}

fn tones(chance: &mut Chance, count: usize, wild: bool) -> Vec<i32> {
    (0..count).map(|_| chance.tone(wild)).collect()
}

// A finished draft is the definition's, and so are its losses and totals.
fn finished(chance: &mut Chance, counts: &mut Counts) {
    let wild = chance.once_in(2);
    let d = draft(chance, wild);
    let drawing = tones(chance, d.squares(), wild);
    let (mut amounts, mut codes) = (vec![7; d.squares()], vec![7; d.squares()]);
    let opened = library::open(&d, &drawing, &mut amounts, &mut codes);
    counts.same("open", opened, 0, || format!("{d:?}"));
    let answer = library::finish(&d, &drawing, &mut amounts, &mut codes);
    counts.same("finished draft", (answer, codes.clone(), amounts.clone()), {
        let (codes, amounts) = d.bands(&drawing, &vec![true; d.squares()]);
        ((d.squares(), 0), codes, amounts)
    }, || format!("{d:?} {drawing:?}"));
    counts.same("tally", library::tally(&d, &drawing, &amounts, &codes), d.tally(&drawing, &amounts, &codes), || format!("{d:?} {drawing:?}"));
}

// A number of entries that mostly fits.
fn length(chance: &mut Chance, due: usize) -> usize {
    match chance.below(40) {
        0 => due + 1,
        1 => due.saturating_sub(1),
        2 => chance.below(2 * due + 2),
        _ => due,
    }
}

// Places by chance, of which most can be fixed in their turn.
fn places(chance: &mut Chance, d: &Draft, drawing: &[i32], amounts: &[i32], codes: &[u8]) -> Vec<usize> {
    let (mut amounts, mut codes) = (amounts.to_vec(), codes.to_vec());
    let mut places = Vec::new();
    for _ in 0..chance.below(4 * codes.len() + 1) {
        let place = chance.below(codes.len() + 2);
        if d.follow(drawing, &mut amounts, &mut codes, &[place]) == (1, 0) || chance.once_in(200) {
            places.push(place);
        }
    }
    places
}

// A list of calls, on the bands of a new job or on bands of any content and length.
fn list_of_calls(chance: &mut Chance, counts: &mut Counts) {
    let wild = chance.once_in(2);
    let mut d = draft(chance, wild);
    if chance.once_in(30) {
        d.rows = [0, 4097, 70000, 2048][chance.below(4)];
    }
    let n = d.squares().min(4000);
    let worked = !chance.once_in(4);
    let drawing = { let l = if worked { n } else { length(chance, n) }; tones(chance, l, wild) };
    let mut amounts = { let l = if worked { n } else { length(chance, n) }; tones(chance, l, wild) };
    let mut codes: Vec<u8> = { let l = if worked { n } else { length(chance, n) }; (0..l).map(|_| if chance.once_in(2) { OPEN } else { chance.byte() }).collect() };
    let mut records: Vec<Vec<u8>> = Vec::new();
    if worked {
        let (mut a, mut c) = (amounts.clone(), codes.clone());
        let library = (library::open(&d, &drawing, &mut a, &mut c), a, c);
        let reference = (d.open(&drawing, &mut amounts, &mut codes), amounts.clone(), codes.clone());
        counts.refused(reference.0);
        counts.same("open", library, reference, || format!("{d:?} {drawing:?}"));
    }
    for _ in 0..1 + chance.below(12) {
        let (a, c) = (amounts.clone(), codes.clone());
        let (mut la, mut lc) = (a.clone(), c.clone());
        let before = format!("{d:?} drawing {drawing:?} amounts {a:?} codes {c:?}");
        match chance.below(if n > 3000 { 2 } else { 9 }) {
            0 | 1 => {
                let (row, column) = (chance.below(d.rows.min(100) + 1), chance.below(d.columns + 1));
                let library = library::fix(&d, &drawing, &mut la, &mut lc, row, column);
                let reference = d.fix(&drawing, &mut amounts, &mut codes, row, column);
                counts.refused(reference.1);
                counts.same("fix", (library, la, lc), (reference, amounts.clone(), codes.clone()), || format!("{row} {column} {before}"));
            }
            2 | 3 => {
                let places = places(chance, &d, &drawing, &amounts, &codes);
                let library = library::follow(&d, &drawing, &mut la, &mut lc, &places);
                let reference = d.follow(&drawing, &mut amounts, &mut codes, &places);
                counts.refused(reference.1);
                counts.same("follow", (library, la, lc), (reference, amounts.clone(), codes.clone()), || format!("{places:?} {before}"));
            }
            4 if chance.once_in(3) => {
                let library = library::finish(&d, &drawing, &mut la, &mut lc);
                let reference = d.finish(&drawing, &mut amounts, &mut codes);
                counts.refused(reference.1);
                counts.same("finish", (library, la, lc), (reference, amounts.clone(), codes.clone()), || before);
            }
            4 | 5 => {
                let due = d.record(&codes).len();
                let out: Vec<u8> = { let l = length(chance, due); (0..l).map(|_| chance.byte()).collect() };
                let (mut lo, mut ro) = (out.clone(), out.clone());
                let library = library::halt(&d, &drawing, &a, &c, &mut lo);
                let reference = d.halt(&drawing, &amounts, &codes, &mut ro);
                counts.refused(reference.1);
                if reference.1 == 0 {
                    records.push(ro[..reference.0].to_vec());
                }
                counts.same("halt", (library, lo), (reference, ro), || format!("output {out:?} {before}"));
            }
            6 => {
                let mut record = match records.len() {
                    0 => d.record(&codes),
                    k => records[chance.below(k)].clone(),
                };
                match chance.below(6) {
                    0 => record.truncate(chance.below(record.len() + 1)),
                    1 => record.push(chance.byte()),
                    2 | 3 => {
                        let at = chance.below(record.len());
                        record[at] ^= 1 << chance.below(8);
                    }
                    _ => {}
                }
                let library = library::resume(&d, &drawing, &mut la, &mut lc, &record);
                let reference = d.resume(&drawing, &mut amounts, &mut codes, &record);
                counts.refused(reference.1);
                counts.same("resume", (library, la, lc), (reference, amounts.clone(), codes.clone()), || format!("record {record:?} {before}"));
            }
            7 => {
                let reference = d.tally(&drawing, &amounts, &codes);
                counts.refused(reference.1);
                counts.same("tally", library::tally(&d, &drawing, &a, &c), reference, || before);
            }
            _ => {
                let due = (0..n.min(codes.len())).filter(|&place| codes[place] != OPEN && d.is_baron(place)).count();
                let (mut lp, mut le) = (vec![9; length(chance, due)], vec![9; length(chance, due)]);
                let (mut rp, mut re) = (lp.clone(), le.clone());
                let library = library::losses(&d, &drawing, &a, &c, &mut lp, &mut le);
                let reference = d.losses(&drawing, &amounts, &codes, &mut rp, &mut re);
                counts.refused(reference.1);
                counts.same("losses", (library, lp, le), (reference, rp, re), || before);
            }
        }
    }
}

// Pack at one width, with codes that fit or not.
fn packed(chance: &mut Chance, counts: &mut Counts, columns: usize) {
    let rows = 1 + chance.below(5);
    let count = length(chance, rows * columns);
    let mut codes: Vec<u8> = (0..count).map(|_| chance.byte() & 1).collect();
    if chance.once_in(5) && count > 0 {
        for _ in 0..1 + chance.below(3) {
            codes[chance.below(count)] = if chance.once_in(2) { OPEN } else { chance.byte() };
        }
    }
    let due = format!("P4\n{columns} {rows}\n").len() + rows * columns.div_ceil(8);
    let out = vec![chance.byte(); length(chance, due)];
    let (mut lo, mut ro) = (out.clone(), out);
    let library = library::pack(rows, columns, &codes, &mut lo);
    let reference = rules::pack(rows, columns, &codes, &mut ro);
    counts.refused(reference.1);
    counts.same("pack", (library, lo), (reference, ro), || format!("{rows} by {columns} {codes:?}"));
}

// Read of a file that is whole, or damaged at some bytes.
fn was_read(chance: &mut Chance, counts: &mut Counts) {
    let (rows, columns) = (1 + chance.below(6), 1 + chance.below(12));
    let greatest = if chance.once_in(3) { 1 + chance.below(255) } else { 255 };
    let mut file = b"P2".to_vec();
    let numbers = [columns, rows, greatest].into_iter().chain((0..rows * columns).map(|_| chance.below(greatest + 1))).collect::<Vec<_>>();
    for number in numbers {
        for _ in 0..1 + if chance.once_in(8) { chance.below(3) } else { 0 } {
            file.push(b" \t\r\n"[chance.below(4)]);
        }
        let zeros = if chance.once_in(20) { chance.below(30) } else { 0 };
        file.extend("0".repeat(zeros).bytes().chain(number.to_string().bytes()));
    }
    for _ in 0..if chance.once_in(3) { 0 } else { 1 + chance.below(3) } {
        let at = chance.below(file.len());
        match chance.below(5) {
            0 => file.truncate(at),
            1 => drop(file.remove(at)),
            2 => file.insert(at, b"0123456789 \n\t\r\x0cx-#"[chance.below(18)]),
            3 => file[at] = b"0123456789 \nP2\x0bz"[chance.below(16)],
            _ => file[at] = chance.byte(),
        }
        if file.is_empty() {
            break;
        }
    }
    let band = vec![chance.byte(); length(chance, rows * columns)];
    let (mut lb, mut rb) = (band.clone(), band);
    let library = library::read(&file, &mut lb);
    let reference = rules::read(&file, &mut rb);
    counts.refused(reference.4);
    counts.same("read", (library, lb), (reference, rb), || String::from_utf8_lossy(&file).into_owned());
}

fn main() {
    let mut words = std::env::args().skip(1).map(|word| word.parse::<u64>().expect("usage: compare [SEED [ROUNDS]]"));
    let seed = words.next().unwrap_or(1987);
    let rounds = words.next().unwrap_or(2000);
    let mut chance = Chance::new(seed);
    let mut counts = Counts { seed, kinds: Vec::new(), refusals: [0; 32] };
    for round in 0..rounds {
        finished(&mut chance, &mut counts);
        list_of_calls(&mut chance, &mut counts);
        packed(&mut chance, &mut counts, 1 + round as usize % 70);
        was_read(&mut chance, &mut counts);
    }
    println!("seed {seed}, {rounds} rounds: no difference");
    for (kind, count) in &counts.kinds {
        println!("{count:8} {kind}");
    }
    for (number, count) in counts.refusals.iter().enumerate().filter(|(_, count)| **count > 0) {
        println!("{count:8} {}", if number == 0 { "accepted".to_string() } else { format!("refused with {number}") });
    }
}
