// Times the proved library beside plain Rust on the same drawings, in one run, and checks that both leave the same codes and amounts.
mod library;
mod plain;

// Seconds and nanoseconds, as the C library tells them.
#[repr(C)]
struct Timespec {
    seconds: i64,
    nanoseconds: i64,
}

unsafe extern "C" {
    fn clock_gettime(clock: i32, time: *mut Timespec) -> i32;
}

// The nanoseconds that this thread has had a processor for (clock 3 of Linux), so that other work on the machine counts less.
fn processor_time() -> f64 {
    let mut time = Timespec {
        seconds: 0,
        nanoseconds: 0,
    };
    // SAFETY: the time is ours, and laid out as C has it.
    let told = unsafe { clock_gettime(3, &mut time) };
    assert_eq!(told, 0);
    time.seconds as f64 * 1e9 + time.nanoseconds as f64
}

const LEAST: i32 = 128;
const REPETITIONS: usize = 41;

// Tones 0 to 255 from a seed, smooth with some noise, the same in every run.
fn drawing(rows: usize, columns: usize) -> Vec<i32> {
    let mut s = 0x9E37_79B9_7F4A_7C15u64;
    let mut tones = vec![];
    for row in 0..rows {
        for column in 0..columns {
            s ^= s << 13;
            s ^= s >> 7;
            s ^= s << 17;
            let slope = 128 * row / rows + 96 * column / columns;
            tones.push((slope as i32 + (s % 32) as i32).min(255));
        }
    }
    tones
}

// The bands of one side.
struct Bands {
    amounts: Vec<i32>,
    codes: Vec<u8>,
}

impl Bands {
    fn new(squares: usize) -> Bands {
        Bands {
            amounts: vec![0; squares],
            codes: vec![0; squares],
        }
    }
}

// Nanoseconds of processor time of the library and of the plain version, the best of some repetitions each, in turn. The bands are opened anew before each.
fn best(
    rows: usize,
    columns: usize,
    mut proved: impl FnMut(&[i32], &mut Bands),
    mut plain: impl FnMut(&mut Bands),
) -> (f64, f64) {
    let tones = drawing(rows, columns);
    let (mut a, mut b) = (Bands::new(rows * columns), Bands::new(rows * columns));
    let (mut one, mut two) = (f64::MAX, f64::MAX);
    for _ in 0..REPETITIONS {
        assert_eq!(library::open(rows, columns, &tones, &mut a.amounts, &mut a.codes), 0);
        let start = processor_time();
        proved(&tones, &mut a);
        one = one.min(processor_time() - start);
        assert_eq!(library::open(rows, columns, &tones, &mut b.amounts, &mut b.codes), 0);
        let start = processor_time();
        plain(&mut b);
        two = two.min(processor_time() - start);
        assert!(a.codes == b.codes, "the codes differ");
        assert!(a.amounts == b.amounts, "the amounts differ");
    }
    (one, two)
}

// Finish at a size.
fn finish(rows: usize, columns: usize) -> (f64, f64) {
    best(
        rows,
        columns,
        |tones, b| {
            let answer = library::finish(rows, columns, LEAST, tones, &mut b.amounts, &mut b.codes);
            assert_eq!((answer.count, answer.refusal), (rows * columns, 0));
        },
        |b| plain::finish(rows, columns, LEAST, &mut b.amounts, &mut b.codes),
    )
}

// Single fixes of all squares in rank order at a size.
fn fixes(rows: usize, columns: usize) -> (f64, f64) {
    let order = plain::in_rank_order(rows, columns);
    let lists = plain::Lists::new(rows, columns);
    best(
        rows,
        columns,
        |tones, b| {
            for (row, column) in &order {
                let answer = library::fix(rows, columns, LEAST, tones, &mut b.amounts, &mut b.codes, *row, *column);
                assert_eq!(answer.refusal, 0);
            }
        },
        |b| {
            for (row, column) in &order {
                assert_eq!(lists.fix(LEAST, &mut b.amounts, &mut b.codes, *row, *column), 0);
            }
        },
    )
}

// The nanoseconds of two tasks, the best of some repetitions each, in turn.
fn both(mut proved: impl FnMut(), mut plain: impl FnMut()) -> (f64, f64) {
    let (mut one, mut two) = (f64::MAX, f64::MAX);
    for _ in 0..REPETITIONS {
        let start = processor_time();
        proved();
        one = one.min(processor_time() - start);
        let start = processor_time();
        plain();
        two = two.min(processor_time() - start);
    }
    (one, two)
}

// A finished draft at a size.
fn finished(rows: usize, columns: usize) -> (Vec<i32>, Bands) {
    let tones = drawing(rows, columns);
    let mut bands = Bands::new(rows * columns);
    assert_eq!(library::open(rows, columns, &tones, &mut bands.amounts, &mut bands.codes), 0);
    assert_eq!(library::finish(rows, columns, LEAST, &tones, &mut bands.amounts, &mut bands.codes).refusal, 0);
    (tones, bands)
}

// Halt of a finished job beside a plain writer of the record; and Resume of it beside a plain Finish, since both work all squares.
fn records(rows: usize, columns: usize) {
    let (tones, bands) = finished(rows, columns);
    let mut record = vec![0; 4 + rows * columns * 2];
    let mut again = record.clone();
    let mut length = 0;
    let times = both(
        || length = library::halt(rows, columns, LEAST, &tones, &bands.amounts, &bands.codes, &mut record).count,
        || assert!(plain::halt(rows, columns, &bands.codes, &mut again) > 0),
    );
    assert!(record == again, "the records differ");
    line("Halt", rows, columns, times);
    let mut other = Bands::new(rows * columns);
    let mut plain = Bands::new(rows * columns);
    let times = both(
        || assert_eq!(library::resume(rows, columns, LEAST, &tones, &mut other.amounts, &mut other.codes, &record[..length]).refusal, 0),
        || {
            plain.amounts.copy_from_slice(&tones);
            plain::finish(rows, columns, LEAST, &mut plain.amounts, &mut plain.codes);
        },
    );
    assert!(other.codes == bands.codes && other.amounts == bands.amounts, "the bands differ");
    line("Resume", rows, columns, times);
}

// Pack beside a plain packer, byte by byte.
fn packs(rows: usize, columns: usize) {
    let (_, bands) = finished(rows, columns);
    let mut one = vec![0; 32 + rows * columns];
    let mut two = one.clone();
    let times = both(
        || assert_eq!(library::pack(rows, columns, &bands.codes, &mut one).refusal, 0),
        || assert!(plain::pack(rows, columns, &bands.codes, &mut two) > 0),
    );
    assert!(one == two, "the files differ");
    line("Pack", rows, columns, times);
}

// A drawing as a plain PGM.
fn pgm(rows: usize, columns: usize) -> Vec<u8> {
    let mut file = format!("P2\n{columns} {rows}\n255\n");
    for row in drawing(rows, columns).chunks(16) {
        let words: Vec<String> = row.iter().map(|tone| tone.to_string()).collect();
        file += &words.join(" ");
        file += "\n";
    }
    file.into_bytes()
}

// Read beside a plain reader.
fn reads(rows: usize, columns: usize) {
    let file = pgm(rows, columns);
    let mut one = vec![0; rows * columns];
    let mut two = one.clone();
    let times = both(|| assert_eq!(library::read(&file, &mut one).refusal, 0), || assert!(plain::read(&file, &mut two) > 0));
    assert!(one == two, "the samples differ");
    line("Read", rows, columns, times);
    println!("        (a file of {} bytes)", file.len());
}

// Another halftoning, of another program, on the same drawing: a whole run by the wall clock, files and start included.
fn netpbm(rows: usize, columns: usize) {
    let path = std::env::temp_dir().join("sumbelgo-bench.pgm");
    std::fs::write(&path, pgm(rows, columns)).expect("a file in the temporary folder");
    let mut least = f64::MAX;
    for _ in 0..5 {
        let start = std::time::Instant::now();
        let run = std::process::Command::new("pamditherbw").arg("-floyd").arg(&path).output();
        match run {
            Ok(done) if done.status.success() => least = least.min(start.elapsed().as_nanos() as f64),
            _ => {
                println!("pamditherbw is not installed");
                return;
            }
        }
    }
    let squares = (rows * columns) as f64;
    println!("pamditherbw -floyd {rows} x {columns}: {:.2} ns a square, a whole run of the program by the wall clock", least / squares);
}

// One line: the ratio first, then nanoseconds a square.
fn line(what: &str, rows: usize, columns: usize, (proved, plain): (f64, f64)) {
    let squares = (rows * columns) as f64;
    println!(
        "{what:<8}{:<14}{:>6.2} times    {:>7.2} ns a square proved    {:>7.2} ns a square plain",
        format!("{rows} x {columns}"),
        proved / plain,
        proved / squares,
        plain / squares
    );
}

fn main() {
    println!("Grey, Knuth's plan, threshold {LEAST}; processor time, the best of {REPETITIONS} repetitions; before each, all squares are opened and the drawing is laid into the amounts.");
    println!("Codes and amounts of both were the same after each repetition.");
    println!();
    for (rows, columns) in [(1024, 1024), (256, 4096), (4096, 256)] {
        line("Finish", rows, columns, finish(rows, columns));
    }
    for (rows, columns) in [(1024, 1024), (256, 4096), (4096, 256)] {
        line("Fix", rows, columns, fixes(rows, columns));
    }
    println!();
    records(1024, 1024);
    packs(256, 4096);
    reads(1024, 1024);
    netpbm(1024, 1024);
    println!();
    println!("Growth");
    for side in [64, 128, 256, 512, 1024] {
        line("Finish", side, side, finish(side, side));
    }
}
