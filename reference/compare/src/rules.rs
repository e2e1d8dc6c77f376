// The rules of docs/RULES.md once more, in another manner than the library: what a set of squares sends is found by recursion from the squares that
// receive, with a memo, and a sweep goes through all squares sorted by rank.

const KNUTH: [[u8; 8]; 8] = [
    [34, 48, 40, 32, 29, 15, 23, 31],
    [42, 58, 56, 53, 21, 5, 7, 10],
    [50, 62, 61, 45, 13, 1, 2, 18],
    [38, 46, 54, 37, 25, 17, 9, 26],
    [28, 14, 22, 30, 35, 49, 41, 33],
    [20, 4, 6, 11, 43, 59, 57, 52],
    [12, 0, 3, 19, 51, 63, 60, 44],
    [24, 16, 8, 27, 39, 47, 55, 36],
];

// N, NE, E, SE, S, SW, W, NW: rows down, columns to the right, weight.
const AROUND: [(i64, i64, i64); 8] =
    [(-1, 0, 2), (-1, 1, 1), (0, 1, 2), (1, 1, 1), (1, 0, 2), (1, -1, 1), (0, -1, 2), (-1, -1, 1)];

pub const OPEN: u8 = 255;

// A size, and the least tone of code 1.
#[derive(Clone, Copy, Debug)]
pub struct Draft {
    pub rows: usize,
    pub columns: usize,
    pub least: i32,
}

// An answer: a count, and a refusal's number or 0.
pub type Answer = (usize, u8);

pub fn size_refused(rows: usize, columns: usize) -> bool {
    !(1..=4096).contains(&rows) || !(1..=4096).contains(&columns) || rows * columns > 1 << 20
}

impl Draft {
    pub fn squares(&self) -> usize {
        self.rows * self.columns
    }

    fn rank(&self, place: usize) -> u8 {
        KNUTH[place / self.columns % 8][place % self.columns % 8]
    }

    // The neighbours inside the drawing, in the order of the directions, each with its weight.
    fn neighbours(&self, place: usize) -> Vec<(usize, i64)> {
        let (row, column) = ((place / self.columns) as i64, (place % self.columns) as i64);
        AROUND
            .iter()
            .map(|&(down, across, weight)| (row + down, column + across, weight))
            .filter(|&(r, c, _)| 0 <= r && r < self.rows as i64 && 0 <= c && c < self.columns as i64)
            .map(|(r, c, weight)| (r as usize * self.columns + c as usize, weight))
            .collect()
    }

    fn higher(&self, place: usize) -> Vec<(usize, i64)> {
        self.neighbours(place).into_iter().filter(|&(n, _)| self.rank(n) > self.rank(place)).collect()
    }

    fn lower(&self, place: usize) -> Vec<usize> {
        self.neighbours(place).into_iter().filter(|&(n, _)| self.rank(n) < self.rank(place)).map(|(n, _)| n).collect()
    }

    pub fn is_baron(&self, place: usize) -> bool {
        self.higher(place).is_empty()
    }

    // What each higher neighbour receives of an error: all but the last by weight, the last what is left.
    fn parts(&self, place: usize, error: i32) -> Vec<(usize, i32)> {
        let higher = self.higher(place);
        let whole: i64 = higher.iter().map(|&(_, weight)| weight).sum();
        let mut left = error;
        let mut parts = Vec::new();
        for (i, &(n, weight)) in higher.iter().enumerate() {
            let part = if i + 1 == higher.len() { left } else { (error as i64 * weight / whole) as i32 };
            left = left.wrapping_sub(part);
            parts.push((n, part));
        }
        parts
    }

    fn choose(&self, amount: i32) -> u8 {
        (amount >= self.least) as u8
    }

    fn output(code: u8) -> i32 {
        if code == 1 { 255 } else { 0 }
    }

    // The code and the error that the definition has for a square.
    fn defined(&self, drawing: &[i32], place: usize, memo: &mut Vec<Option<(u8, i32)>>) -> (u8, i32) {
        if let Some(known) = memo[place] {
            return known;
        }
        let amount = self.received(drawing, place, &|_| true, memo);
        let code = self.choose(amount);
        let found = (code, amount.wrapping_sub(Self::output(code)));
        memo[place] = Some(found);
        found
    }

    // The drawing's tone, and what the lower neighbours that are counted send.
    fn received(&self, drawing: &[i32], place: usize, counted: &dyn Fn(usize) -> bool, memo: &mut Vec<Option<(u8, i32)>>) -> i32 {
        let mut sum = drawing[place];
        for n in self.lower(place) {
            if counted(n) {
                let error = self.defined(drawing, n, memo).1;
                let part = self.parts(n, error).into_iter().find(|&(to, _)| to == place).unwrap().1;
                sum = sum.wrapping_add(part);
            }
        }
        sum
    }

    // The codes and amounts of a job with just these squares fixed.
    pub fn bands(&self, drawing: &[i32], fixed: &[bool]) -> (Vec<u8>, Vec<i32>) {
        let mut memo = vec![None; self.squares()];
        (0..self.squares())
            .map(|place| {
                if fixed[place] {
                    self.defined(drawing, place, &mut memo)
                } else {
                    (OPEN, self.received(drawing, place, &|n| fixed[n], &mut memo))
                }
            })
            .unzip()
    }

    fn lengths_wrong(&self, drawing: &[i32], amounts: &[i32], codes: &[u8]) -> bool {
        [drawing.len(), amounts.len(), codes.len()].iter().any(|&length| length != self.squares())
    }

    // 1 and 2, which come first in every call.
    fn barred(&self, drawing: &[i32], amounts: &[i32], codes: &[u8]) -> u8 {
        if size_refused(self.rows, self.columns) {
            1
        } else if self.lengths_wrong(drawing, amounts, codes) {
            2
        } else {
            0
        }
    }

    pub fn open(&self, drawing: &[i32], amounts: &mut [i32], codes: &mut [u8]) -> u8 {
        let barred = self.barred(drawing, amounts, codes);
        if barred == 0 {
            codes.fill(OPEN);
            amounts.copy_from_slice(drawing);
        }
        barred
    }

    fn fix_place(&self, amounts: &mut [i32], codes: &mut [u8], place: usize) -> Answer {
        if place >= self.squares() {
            return (0, 3);
        }
        if codes[place] != OPEN {
            return (0, 4);
        }
        if self.lower(place).iter().any(|&n| codes[n] == OPEN) {
            return (0, 5);
        }
        let code = self.choose(amounts[place]);
        let error = amounts[place].wrapping_sub(Self::output(code));
        codes[place] = code;
        amounts[place] = error;
        for (n, part) in self.parts(place, error) {
            amounts[n] = amounts[n].wrapping_add(part);
        }
        (code as usize, 0)
    }

    pub fn fix(&self, drawing: &[i32], amounts: &mut [i32], codes: &mut [u8], row: usize, column: usize) -> Answer {
        match self.barred(drawing, amounts, codes) {
            0 if row >= self.rows || column >= self.columns => (0, 3),
            0 => self.fix_place(amounts, codes, row * self.columns + column),
            barred => (0, barred),
        }
    }

    pub fn follow(&self, drawing: &[i32], amounts: &mut [i32], codes: &mut [u8], places: &[usize]) -> Answer {
        let barred = self.barred(drawing, amounts, codes);
        if barred != 0 {
            return (0, barred);
        }
        for (i, &place) in places.iter().enumerate() {
            let (_, refusal) = self.fix_place(amounts, codes, place);
            if refusal != 0 {
                return (i, refusal);
            }
        }
        (places.len(), 0)
    }

    pub fn finish(&self, drawing: &[i32], amounts: &mut [i32], codes: &mut [u8]) -> Answer {
        let barred = self.barred(drawing, amounts, codes);
        if barred != 0 {
            return (0, barred);
        }
        let mut places: Vec<usize> = (0..self.squares()).collect();
        places.sort_by_key(|&place| (self.rank(place), place));
        (places.into_iter().filter(|&place| self.fix_place(amounts, codes, place).1 == 0).count(), 0)
    }

    pub fn record(&self, codes: &[u8]) -> Vec<u8> {
        let mut record = vec![(self.rows / 256) as u8, self.rows as u8, (self.columns / 256) as u8, self.columns as u8];
        record.extend(codes.chunks(8).map(|eight| eight.iter().enumerate().map(|(i, &code)| ((code != OPEN) as u8) << (7 - i)).sum::<u8>()));
        record.extend(codes.iter().filter(|&&code| code != OPEN));
        record
    }

    pub fn halt(&self, drawing: &[i32], amounts: &[i32], codes: &[u8], out: &mut [u8]) -> Answer {
        let barred = self.barred(drawing, amounts, codes);
        if barred != 0 {
            return (0, barred);
        }
        put(&self.record(codes), out)
    }

    // The standing squares of a record, in order, or 7 or 8.
    fn standing(&self, record: &[u8]) -> Result<Vec<bool>, u8> {
        let squares = self.squares();
        let start = 4 + squares.div_ceil(8);
        let Some((size, rest)) = record.split_at_checked(4) else { return Err(7) };
        if [size[0] as usize * 256 + size[1] as usize, size[2] as usize * 256 + size[3] as usize] != [self.rows, self.columns] {
            return Err(7);
        }
        if record.len() < start {
            return Err(7);
        }
        let bits: Vec<bool> = rest[..start - 4].iter().flat_map(|byte| (0..8).map(move |i| byte >> (7 - i) & 1 == 1)).collect();
        let (fixed, spare) = bits.split_at(squares);
        if spare.contains(&true) || record.len() != start + fixed.iter().filter(|&&bit| bit).count() {
            return Err(7);
        }
        if (0..squares).any(|place| fixed[place] && self.lower(place).iter().any(|&n| !fixed[n])) {
            return Err(8);
        }
        Ok(fixed.to_vec())
    }

    pub fn resume(&self, drawing: &[i32], amounts: &mut [i32], codes: &mut [u8], record: &[u8]) -> Answer {
        let barred = self.barred(drawing, amounts, codes);
        if barred != 0 {
            return (0, barred);
        }
        let fixed = match self.standing(record) {
            Ok(fixed) => fixed,
            Err(refusal) => return (0, refusal),
        };
        let bands = self.bands(drawing, &fixed);
        if self.record(&bands.0) != record {
            codes.fill(OPEN);
            amounts.copy_from_slice(drawing);
            return (0, 9);
        }
        codes.copy_from_slice(&bands.0);
        amounts.copy_from_slice(&bands.1);
        (0, 0)
    }

    // Drawing, outputs, losses, amounts, and a refusal's number or 0.
    pub fn tally(&self, drawing: &[i32], amounts: &[i32], codes: &[u8]) -> ([i32; 4], u8) {
        let barred = self.barred(drawing, amounts, codes);
        if barred != 0 {
            return ([0; 4], barred);
        }
        let total = |tone: &dyn Fn(usize) -> i32| (0..self.squares()).map(tone).fold(0i32, i32::wrapping_add);
        let fixed = |place: usize| codes[place] != OPEN;
        (
            [
                total(&|place| drawing[place]),
                total(&|place| if fixed(place) { Self::output(codes[place]) } else { 0 }),
                total(&|place| if fixed(place) && self.is_baron(place) { amounts[place] } else { 0 }),
                total(&|place| if fixed(place) { 0 } else { amounts[place] }),
            ],
            0,
        )
    }

    pub fn losses(&self, drawing: &[i32], amounts: &[i32], codes: &[u8], places: &mut [usize], errors: &mut [i32]) -> Answer {
        let barred = self.barred(drawing, amounts, codes);
        if barred != 0 {
            return (0, barred);
        }
        let found: Vec<usize> = (0..self.squares()).filter(|&place| codes[place] != OPEN && self.is_baron(place)).collect();
        if places.len() < found.len() || errors.len() < found.len() {
            return (0, 6);
        }
        for (i, &place) in found.iter().enumerate() {
            places[i] = place;
            errors[i] = amounts[place];
        }
        (found.len(), 0)
    }
}

// Writes to the front of an output, or refuses with 6.
fn put(bytes: &[u8], out: &mut [u8]) -> Answer {
    if out.len() < bytes.len() {
        return (0, 6);
    }
    out[..bytes.len()].copy_from_slice(bytes);
    (bytes.len(), 0)
}

// A draft as a raw PBM.
pub fn pack(rows: usize, columns: usize, codes: &[u8], out: &mut [u8]) -> Answer {
    if size_refused(rows, columns) {
        return (0, 1);
    }
    if codes.len() != rows * columns {
        return (0, 2);
    }
    let mut file = format!("P4\n{columns} {rows}\n").into_bytes();
    for row in codes.chunks(columns) {
        for eight in row.chunks(8) {
            file.push(eight.iter().enumerate().map(|(i, &code)| ((code == 0) as u8) << (7 - i)).sum());
        }
    }
    if out.len() < file.len() {
        return (0, 6);
    }
    match codes.iter().find(|&&code| code > 1) {
        Some(&OPEN) => (0, 10),
        Some(_) => (0, 11),
        None => put(&file, out),
    }
}

// Rows, columns, end, offset of a fault, and a refusal's number or 0.
pub type Reading = (usize, usize, usize, usize, u8);

// The numbers of a text behind a position, one word after the other.
struct Words<'a> {
    text: &'a [u8],
    position: usize,
}

fn separates(byte: u8) -> bool {
    b" \t\r\n".contains(&byte)
}

impl Words<'_> {
    // The next number and where it begins; or where it should.
    fn next(&mut self) -> Result<(usize, usize), usize> {
        let skip = self.text[self.position..].iter().take_while(|&&byte| separates(byte)).count();
        let start = self.position + skip;
        let length = self.text[start..].iter().take_while(|&&byte| !separates(byte)).count();
        let word = &self.text[start..start + length];
        if word.is_empty() || !word.iter().all(u8::is_ascii_digit) {
            return Err(start);
        }
        let zeros = word.iter().take_while(|&&byte| byte == b'0').count();
        let digits = std::str::from_utf8(&word[zeros..]).unwrap();
        let value = if digits.is_empty() { 0 } else { digits.parse::<u128>().unwrap_or(u128::MAX) };
        if value > 65535 {
            return Err(start);
        }
        self.position = start + length;
        Ok((value as usize, start))
    }
}

// Reads a plain PGM into a band of bytes.
pub fn read(input: &[u8], band: &mut [u8]) -> Reading {
    if input.len() < 3 || &input[..2] != b"P2" || !separates(input[2]) {
        return (0, 0, 0, 0, 12);
    }
    let mut words = Words { text: input, position: 2 };
    let mut head = [(0, 0); 3];
    for number in &mut head {
        match words.next() {
            Ok(found) => *number = found,
            Err(offset) => return (0, 0, 0, offset, 13),
        }
    }
    let [(columns, _), (rows, _), (greatest, offset)] = head;
    if size_refused(rows, columns) {
        return (0, 0, 0, 0, 1);
    }
    if !(1..=255).contains(&greatest) {
        return (0, 0, 0, offset, 14);
    }
    if band.len() < rows * columns {
        return (0, 0, 0, 0, 6);
    }
    for sample in &mut band[..rows * columns] {
        match words.next() {
            Err(offset) => return (0, 0, 0, offset, 13),
            Ok((value, offset)) if value > greatest => return (0, 0, 0, offset, 14),
            Ok((value, _)) => *sample = value as u8,
        }
    }
    (rows, columns, words.position, 0, 0)
}
