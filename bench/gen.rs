// gen bytes N SEED: writes an input of about N bytes, a JSON array with one sentence a line. A
// sentence has 8 to 16 words, more where the lines would be over 90,000 else.
// gen lines N SEED: writes N lines, each with a sentence of ten words.
// Word number r of the vocabulary comes about 1/r as often as the first. The same numbers give the
// same bytes.
use std::io::{BufWriter, Write};

const WORDS: f64 = 20_000.0;
const MOST_LINES: usize = 90_000;
const BYTES_A_WORD: usize = 6;
const SYLLABLES: [&str; 16] = [
    "ba", "ce", "di", "fo", "gu", "ha", "ke", "li", "mo", "nu", "pa", "re", "si", "to", "vu", "za",
];

struct Draws(u64);

impl Draws {
    // xorshift64*, by S. Vigna
    fn next(&mut self) -> u64 {
        self.0 ^= self.0 >> 12;
        self.0 ^= self.0 << 25;
        self.0 ^= self.0 >> 27;
        self.0.wrapping_mul(0x2545_F491_4F6C_DD1D)
    }

    // from 0 up to 1
    fn unit(&mut self) -> f64 {
        (self.next() >> 11) as f64 / (1u64 << 53) as f64
    }
}

fn word(mut rank: usize, line: &mut String) {
    loop {
        line.push_str(SYLLABLES[rank % 16]);
        rank /= 16;
        if rank == 0 {
            return;
        }
    }
}

fn push_line(draws: &mut Draws, words: u64, line: &mut String) {
    line.clear();
    line.push_str("[\"");
    for number in 0..words {
        if number > 0 {
            line.push(' ');
        }
        word(WORDS.powf(draws.unit()) as usize, line);
    }
    line.push_str("\"]\n");
}

fn main() {
    let args: Vec<String> = std::env::args().skip(1).collect();
    let [kind, size, seed] = &args[..] else {
        panic!("usage: gen bytes|lines N SEED");
    };
    let size: usize = size.parse().expect("a number");
    let mut draws = Draws(seed.parse::<u64>().expect("a number") * 2 + 1);
    let mut out = BufWriter::new(std::io::stdout().lock());
    let mut line = String::new();
    if kind == "lines" {
        for _ in 0..size {
            push_line(&mut draws, 10, &mut line);
            out.write_all(line.as_bytes()).expect("writes");
        }
        return;
    }
    let least = 8.max(size / MOST_LINES / BYTES_A_WORD) as u64;
    let mut written = 0;
    while written < size {
        let words = least + draws.next() % 9;
        push_line(&mut draws, words, &mut line);
        out.write_all(line.as_bytes()).expect("writes");
        written += line.len();
    }
}
