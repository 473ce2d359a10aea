//! Damage to texts: to the words of their lines, and to their bytes.

use crate::rng::Rng;
use crate::text_deal::Line;

/// Words for any place: known ones, near ones and numbers at the limits.
const WORDS: [&[u8]; 40] = [
    b"pool",
    b"get",
    b"poll",
    b"release",
    b"cancel",
    b"tick",
    b"limit",
    b"limit",
    b"priority",
    b"priority",
    b"ge",
    b"gett",
    b"limi",
    b"limits",
    b"pools",
    b"Tick",
    b"PRIORITY",
    b"end",
    b"x",
    b"-1",
    b"+5",
    b"5,",
    b"1e3",
    b"0x7",
    b"\x00",
    b"\x0B",
    b"5\xFF",
    b"get\x80",
    b"0",
    b"7",
    b"007",
    b"2147483647",
    b"2147483648",
    b"4294967295",
    b"4294967296",
    b"4294967303",
    b"18446744073709551623",
    b"99999999999999999999",
    b"00000000000000000000004294967295",
    b"00000000000000000000004294967296",
];

const LARGE_NUMBERS: [&[u8]; 7] = [
    b"2147483648",
    b"4294967296",
    b"4294967300",
    b"9999999999",
    b"18446744073709551617",
    b"100000000000000000000",
    b"00000004294967296",
];

const BYTES: [u8; 15] = [
    b'#', b'#', b'\n', b'\n', b' ', b'\t', b'\r', 0, 11, 12, 127, 128, 255, b'/', b':',
];

/// Changes words and lines: most often once.
pub fn damage_lines(rng: &mut Rng, lines: &mut Vec<Line>) {
    for _ in 0..rng.pick(&[1, 1, 1, 2, 3]) {
        match rng.below(10) {
            0 => move_pool_line(rng, lines),
            1 => join_lines(rng, lines),
            2 => cut_line(rng, lines),
            _ => damage_line(rng, lines),
        }
    }
}

/// The place of a line, often the first or the last.
fn any_line(rng: &mut Rng, lines: &[Line]) -> usize {
    let any = rng.index(lines.len());
    rng.pick(&[0, lines.len() - 1, any, any, any])
}

/// Drops the pool line or puts it behind another line, or puts it there again.
fn move_pool_line(rng: &mut Rng, lines: &mut Vec<Line>) {
    let pool = lines[0].clone();
    let place = rng.between(1, lines.len() as u32) as usize;
    match rng.below(3) {
        0 if lines.len() > 1 => drop(lines.remove(0)),
        1 => lines.insert(place, pool),
        _ => {
            lines.insert(place, pool);
            lines.remove(0);
        }
    }
}

/// Joins a line with the next.
fn join_lines(rng: &mut Rng, lines: &mut Vec<Line>) {
    let place = any_line(rng, lines);
    if place + 1 < lines.len() {
        let next = lines.remove(place + 1);
        lines[place].extend(next);
    }
}

/// Cuts a line in two in front of some word but the first.
fn cut_line(rng: &mut Rng, lines: &mut Vec<Line>) {
    let place = any_line(rng, lines);
    let words = rng.between(1, lines[place].len().max(2) as u32 - 1) as usize;
    if words < lines[place].len() {
        let next = lines[place].split_off(words);
        lines.insert(place + 1, next);
    }
}

fn damage_line(rng: &mut Rng, lines: &mut Vec<Line>) {
    let place = any_line(rng, lines);
    damage_word(rng, &mut lines[place]);
    if lines[place].is_empty() && lines.len() > 1 {
        lines.remove(place);
    } else if lines[place].is_empty() {
        lines[place].push(b"pool".to_vec());
    }
}

/// Changes, drops, doubles, swaps or adds a word.
fn damage_word(rng: &mut Rng, line: &mut Line) {
    let (place, other) = (rng.index(line.len()), rng.index(line.len()));
    let number = any_number_place(rng, line);
    match rng.below(12) {
        0 => line[place] = rng.pick(&WORDS).to_vec(),
        1 => drop(line.remove(place)),
        2 => line.insert(place, line[place].clone()),
        3 => line.swap(place, other),
        4 => line.insert(place, rng.pick(&WORDS).to_vec()),
        5 => line.push(rng.pick(&WORDS).to_vec()),
        6 => line.push(rng.pick(&LARGE_NUMBERS).to_vec()),
        7 => line.push(line[number].clone()),
        8..=10 => line[number] = rng.pick(&LARGE_NUMBERS).to_vec(),
        _ => change_letter(rng, &mut line[place]),
    }
}

/// The place of some number, or of the last word if there is none.
fn any_number_place(rng: &mut Rng, line: &Line) -> usize {
    let is_number = |place: &usize| line[*place][0].is_ascii_digit();
    let numbers: Vec<usize> = (0..line.len()).filter(is_number).collect();
    match numbers.len() {
        0 => line.len() - 1,
        count => numbers[rng.index(count)],
    }
}

/// Changes, doubles or drops a letter or digit; the word does not get empty.
fn change_letter(rng: &mut Rng, word: &mut Vec<u8>) {
    let place = rng.index(word.len());
    match rng.below(5) {
        0 => word[place] = rng.between(b'0'.into(), b'9'.into()) as u8,
        1 => word[place] = rng.between(b'a'.into(), b'z'.into()) as u8,
        2 => word[place] ^= 0x20,
        3 => word.insert(place, word[place]),
        _ if word.len() > 1 => drop(word.remove(place)),
        _ => {}
    }
}

/// Changes, flips, adds or drops some bytes, or cuts the text off.
pub fn damage_bytes(rng: &mut Rng, text: &mut Vec<u8>) {
    for _ in 0..rng.pick(&[1, 1, 2, 4]) {
        if text.is_empty() {
            return;
        }
        let place = rng.index(text.len());
        match rng.below(6) {
            0 => text[place] ^= 1 << rng.below(8),
            1 => text[place] = rng.pick(&BYTES),
            2 => text[place] = rng.byte(),
            3 => text.insert(place, rng.pick(&BYTES)),
            4 => drop(text.remove(place)),
            _ => text.truncate(place),
        }
    }
}
