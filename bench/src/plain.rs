// Dot diffusion in plain Rust, unproved and unchecked, as fast as was found: the measure for the proved library. Grey, Knuth's plan, a threshold.
const RANKS: [[u8; 8]; 8] = [
    [34, 48, 40, 32, 29, 15, 23, 31],
    [42, 58, 56, 53, 21, 5, 7, 10],
    [50, 62, 61, 45, 13, 1, 2, 18],
    [38, 46, 54, 37, 25, 17, 9, 26],
    [28, 14, 22, 30, 35, 49, 41, 33],
    [20, 4, 6, 11, 43, 59, 57, 52],
    [12, 0, 3, 19, 51, 63, 60, 44],
    [24, 16, 8, 27, 39, 47, 55, 36],
];

// Rows down and columns across, by direction: north, then clockwise.
const STEPS: [(isize, isize); 8] = [(-1, 0), (-1, 1), (0, 1), (1, 1), (1, 0), (1, -1), (0, -1), (-1, -1)];

// The higher neighbours of a square in the order in which they are served: how far away each lies in the bands, and its weight.
#[derive(Clone, Copy)]
pub struct Around {
    offsets: [isize; 8],
    weights: [i64; 8],
    count: usize,
    total: i64,
}

// What lies around a square of an 8 by 8 period, less what a row or a column at an edge lacks.
fn around(row: usize, column: usize, columns: usize, up: bool, down: bool, left: bool, right: bool) -> Around {
    let mut a = Around {
        offsets: [0; 8],
        weights: [0; 8],
        count: 0,
        total: 0,
    };
    for (d, (y, x)) in STEPS.iter().enumerate() {
        if (*y < 0 && !up) || (*y > 0 && !down) || (*x < 0 && !left) || (*x > 0 && !right) {
            continue;
        }
        let r = (row as isize + 8 + y) as usize % 8;
        let c = (column as isize + 8 + x) as usize % 8;
        if RANKS[r][c] > RANKS[row % 8][column % 8] {
            a.offsets[a.count] = y * columns as isize + x;
            a.weights[a.count] = if d % 2 == 0 { 2 } else { 1 };
            a.total += a.weights[a.count];
            a.count += 1;
        }
    }
    a
}

// x ÷ total, by a multiplication for each total that occurs.
#[inline(always)]
fn divided(x: i64, total: i64) -> i64 {
    match total {
        1 => x,
        2 => x / 2,
        3 => x / 3,
        4 => x / 4,
        5 => x / 5,
        6 => x / 6,
        7 => x / 7,
        8 => x / 8,
        9 => x / 9,
        10 => x / 10,
        11 => x / 11,
        _ => x / 12,
    }
}

// Fixes one square.
#[inline(always)]
unsafe fn fix_one(amounts: *mut i32, codes: *mut u8, place: usize, least: i32, a: &Around) {
    unsafe {
        let amount = *amounts.add(place);
        let code = (amount >= least) as u8;
        *codes.add(place) = code;
        let error = amount.wrapping_sub(if code == 1 { 255 } else { 0 });
        *amounts.add(place) = error;
        if a.count == 0 {
            return;
        }
        let corner = divided(error as i64, a.total) as i32;
        let side = divided(error as i64 * 2, a.total) as i32;
        let mut left = error;
        for k in 0..a.count - 1 {
            let part = if *a.weights.get_unchecked(k) == 2 { side } else { corner };
            left = left.wrapping_sub(part);
            let at = amounts.offset(place as isize + *a.offsets.get_unchecked(k));
            *at = (*at).wrapping_add(part);
        }
        let at = amounts.offset(place as isize + *a.offsets.get_unchecked(a.count - 1));
        *at = (*at).wrapping_add(left);
    }
}

// The class lists: for each rank, the row and the column of its one square in the period.
fn classes() -> [(usize, usize); 64] {
    let mut list = [(0, 0); 64];
    for r in 0..8 {
        for c in 0..8 {
            list[RANKS[r][c] as usize] = (r, c);
        }
    }
    list
}

// Finish: all squares, class by class. Every square must be open.
pub fn finish(rows: usize, columns: usize, least: i32, amounts: &mut [i32], codes: &mut [u8]) {
    assert!(amounts.len() == rows * columns && codes.len() == rows * columns);
    let (amounts, codes) = (amounts.as_mut_ptr(), codes.as_mut_ptr());
    for (r, c) in classes() {
        let mut row = r;
        while row < rows {
            let (up, down) = (row > 0, row + 1 < rows);
            let inner = around(r, c, columns, up, down, true, true);
            let mut column = c;
            if column == 0 && column < columns {
                let edge = around(r, c, columns, up, down, false, columns > 1);
                unsafe { fix_one(amounts, codes, row * columns, least, &edge) };
                column = 8;
            }
            while column + 1 < columns {
                unsafe { fix_one(amounts, codes, row * columns + column, least, &inner) };
                column += 8;
            }
            if column + 1 == columns {
                let edge = around(r, c, columns, up, down, column > 0, false);
                unsafe { fix_one(amounts, codes, row * columns + column, least, &edge) };
            }
            row += 8;
        }
    }
}

// The lists of higher and of lower neighbours for each square of a period and each edge, worked out once for many single fixes.
pub struct Lists {
    rows: usize,
    columns: usize,
    higher: Vec<Around>,
    lower: Vec<([isize; 8], usize)>,
}

// The number of a list: the square of the period, and which edges it lies on.
#[inline(always)]
fn list_at(row: usize, column: usize, rows: usize, columns: usize) -> usize {
    let edges = (row == 0) as usize | ((row + 1 == rows) as usize) << 1 | ((column == 0) as usize) << 2 | ((column + 1 == columns) as usize) << 3;
    (edges << 6) | ((row & 7) << 3) | (column & 7)
}

impl Lists {
    pub fn new(rows: usize, columns: usize) -> Lists {
        let mut higher = vec![];
        let mut lower = vec![];
        for edges in 0..16 {
            for square in 0..64 {
                let (row, column) = (square >> 3, square & 7);
                let (up, down, left, right) = (edges & 1 == 0, edges & 2 == 0, edges & 4 == 0, edges & 8 == 0);
                higher.push(around(row, column, columns, up, down, left, right));
                let mut offsets = [0; 8];
                let mut count = 0;
                for (y, x) in STEPS {
                    if (y < 0 && !up) || (y > 0 && !down) || (x < 0 && !left) || (x > 0 && !right) {
                        continue;
                    }
                    let r = (row as isize + 8 + y) as usize % 8;
                    let c = (column as isize + 8 + x) as usize % 8;
                    if RANKS[r][c] < RANKS[row][column] {
                        offsets[count] = y * columns as isize + x;
                        count += 1;
                    }
                }
                lower.push((offsets, count));
            }
        }
        Lists {
            rows,
            columns,
            higher,
            lower,
        }
    }

    // One square, refused where it is fixed or a lower neighbour is open, as a caller of single fixes needs to know.
    #[inline(never)]
    pub fn fix(&self, least: i32, amounts: &mut [i32], codes: &mut [u8], row: usize, column: usize) -> u8 {
        if row >= self.rows || column >= self.columns {
            return 3;
        }
        let place = row * self.columns + column;
        let (amounts, codes) = (amounts.as_mut_ptr(), codes.as_mut_ptr());
        unsafe {
            if *codes.add(place) != 255 {
                return 4;
            }
            let at = list_at(row, column, self.rows, self.columns);
            let (offsets, count) = self.lower.get_unchecked(at);
            for k in 0..*count {
                if *codes.offset(place as isize + *offsets.get_unchecked(k)) == 255 {
                    return 5;
                }
            }
            fix_one(amounts, codes, place, least, self.higher.get_unchecked(at));
        }
        0
    }
}

// The squares of a drawing in rank order, each rank in reading order.
pub fn in_rank_order(rows: usize, columns: usize) -> Vec<(usize, usize)> {
    let mut list = vec![];
    for (r, c) in classes() {
        for row in (r..rows).step_by(8) {
            for column in (c..columns).step_by(8) {
                list.push((row, column));
            }
        }
    }
    list
}

// A packer byte by byte: 1 for code 0, from the high bit, each row padded to a byte.
pub fn pack(rows: usize, columns: usize, codes: &[u8], out: &mut [u8]) -> usize {
    let head = format!("P4\n{columns} {rows}\n");
    out[..head.len()].copy_from_slice(head.as_bytes());
    let mut at = head.len();
    for row in codes.chunks(columns) {
        for eight in row.chunks(8) {
            let mut byte = 0;
            for (i, code) in eight.iter().enumerate() {
                byte |= ((*code == 0) as u8) << (7 - i);
            }
            out[at] = byte;
            at += 1;
        }
    }
    at
}

// A reader of plain PGM files that are known to be whole.
pub fn read(input: &[u8], band: &mut [u8]) -> usize {
    let mut at = 2;
    let mut next = || {
        while input[at] <= b' ' {
            at += 1;
        }
        let mut value = 0usize;
        while at < input.len() && input[at] > b' ' {
            value = value * 10 + (input[at] - b'0') as usize;
            at += 1;
        }
        value
    };
    let (columns, rows, _) = (next(), next(), next());
    for sample in &mut band[..rows * columns] {
        *sample = next() as u8;
    }
    rows * columns
}

// The record of a job: size, map, codes.
pub fn halt(rows: usize, columns: usize, codes: &[u8], out: &mut [u8]) -> usize {
    out[..4].copy_from_slice(&[(rows >> 8) as u8, rows as u8, (columns >> 8) as u8, columns as u8]);
    let mut at = 4;
    for eight in codes.chunks(8) {
        let mut byte = 0;
        for (i, code) in eight.iter().enumerate() {
            byte |= ((*code != 255) as u8) << (7 - i);
        }
        out[at] = byte;
        at += 1;
    }
    for code in codes {
        if *code != 255 {
            out[at] = *code;
            at += 1;
        }
    }
    at
}
