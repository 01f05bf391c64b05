//! Damaged sheets.

use crate::limits::Limits;
use crate::plan::Plan;
use crate::random::Random;

const ALPHABET: &[u8] = b"0123456789abcdefADEIJLST,-\n";

/// Damages the sheet in one to three ways; sometimes the header's counts are made true again.
pub fn damage(random: &mut Random, sheet: &[u8], limits: Limits) -> Vec<u8> {
    let mut damaged = sheet.to_vec();
    for _ in 0..random.pick(&[1, 1, 1, 2, 3]) {
        damaged = damage_once(random, damaged, limits);
    }
    if random.once_in(2) {
        recount(&mut damaged);
    }
    damaged
}

fn damage_once(random: &mut Random, sheet: Vec<u8>, limits: Limits) -> Vec<u8> {
    match random.below(4) {
        0 => damage_bytes(random, sheet),
        1 => damage_lines(random, sheet, limits),
        2 => damage_header(random, sheet),
        _ => damage_steps(random, sheet),
    }
}

/// Flips, replaces, inserts, deletes, cuts off or appends bytes.
fn damage_bytes(random: &mut Random, mut sheet: Vec<u8>) -> Vec<u8> {
    let at = random.below(sheet.len() + 1);
    let byte = if random.once_in(4) { random.byte() } else { random.pick(ALPHABET) };
    match random.below(6) {
        0 if at < sheet.len() => sheet[at] ^= 1 << random.below(8),
        1 if at < sheet.len() => sheet[at] = byte,
        2 if at < sheet.len() => drop(sheet.remove(at)),
        3 => sheet.truncate(at),
        4 => sheet.insert(at, byte),
        _ => sheet.extend_from_slice(
            random.pick(&["\n", "E\n", "E", "D\n", "A,1,0\n", "\0", "S"]).as_bytes(),
        ),
    }
    sheet
}

/// Drops, doubles, swaps or inserts lines, or gives the sheet another plan's table.
fn damage_lines(random: &mut Random, sheet: Vec<u8>, limits: Limits) -> Vec<u8> {
    let mut lines = part(&sheet);
    if lines.is_empty() {
        return sheet;
    }
    let (at, other) = (random.below(lines.len()), random.below(lines.len()));
    let next = (at + 1) % lines.len();
    match random.below(7) {
        0 => drop(lines.remove(at)),
        1 => lines.insert(at, lines[at].clone()),
        2 => lines.swap(at, next),
        3 => lines.swap(at, other),
        4 => lines.insert(at, random_line(random)),
        5 => replace_table(&mut lines, random_plan(random)),
        _ => {
            let many = random.between(1, limits.doubles() + 72);
            lines.splice(at..at, vec![b"D\n".to_vec(); many]);
        }
    }
    lines.concat()
}

fn random_plan(random: &mut Random) -> Plan {
    let plans: Vec<Plan> = Plan::all().collect();
    random.pick(&plans)
}

/// Puts the plan's table in the place of the T lines.
fn replace_table(lines: &mut Vec<Vec<u8>>, plan: Plan) {
    lines.retain(|line| line[0] != b'T');
    let table = plan.table().into_iter().map(|(a, b)| format!("T,{a},{b}\n").into_bytes());
    let at = lines.len().min(1);
    lines.splice(at..at, table);
}

fn random_line(random: &mut Random) -> Vec<u8> {
    let kind = random.pick(&["T", "L", "A", "D", "E"]);
    let line = match kind {
        "D" | "E" => format!("{kind}\n"),
        _ => format!("{kind},{},{}\n", random_digit(random), random_digit(random)),
    };
    line.into_bytes()
}

/// A digit that is mostly well spelled and often 0.
fn random_digit(random: &mut Random) -> String {
    let small = random.below(4) as i32 - 1;
    let large = random.below(201) as i32 - 100;
    match random.below(8) {
        0..=2 => "0".to_string(),
        3..=4 => small.to_string(),
        5..=6 => large.to_string(),
        _ => {
            random.pick(&["-0", "00", "01", "+1", "", "-", "100", "-100", "1 ", "0x1"]).to_string()
        }
    }
}

/// Changes a field of the header, or gives it another plan.
fn damage_header(random: &mut Random, sheet: Vec<u8>) -> Vec<u8> {
    let mut lines = part(&sheet);
    let Some(mut fields) = lines.first().and_then(|line| header_fields(line)) else {
        return sheet;
    };
    match random.below(4) {
        0 => name_plan(&mut fields, random_plan(random)),
        1 => change_number(random, &mut fields[2..7]),
        2 => change_scalar(random, &mut fields[7..9]),
        _ => fields[1] = random.pick(&["I", "J", "K", "", "i"]).to_string(),
    }
    lines[0] = (fields.join(",") + "\n").into_bytes();
    lines.concat()
}

fn name_plan(fields: &mut [String], plan: Plan) {
    let (m1, m2) = plan.windows();
    fields[1] = plan.kind().to_string();
    fields[2] = m1.to_string();
    fields[3] = m2.to_string();
    fields[4] = plan.slots().to_string();
}

/// Changes one of the five decimals.
fn change_number(random: &mut Random, fields: &mut [String]) {
    let field = &mut fields[random.below(5)];
    let number: u32 = field.parse().unwrap_or(0);
    *field = match random.below(8) {
        0 => format!("0{field}"),
        1 => random.below(20_000).to_string(),
        2 => number.wrapping_sub(1).to_string(),
        3 => (number + 1).to_string(),
        4 => (number + 2).to_string(),
        5 => (number + 256).to_string(),
        6 => random.below(34).to_string(),
        _ => random.pick(&["", "-1", "+1", "9999", "10000", "1 ", "0"]).to_string(),
    };
}

/// Changes one of the scalars or its sign, or exchanges them.
fn change_scalar(random: &mut Random, fields: &mut [String]) {
    let which = random.below(2);
    let figure = char::from(random.pick(b"0123456789abcdef"));
    let field = &mut fields[which];
    match random.below(9) {
        0 => fields.swap(0, 1),
        1 => field.insert(0, figure),
        2 => field.push(figure),
        3 => drop(field.pop()),
        4 => *field = field.to_uppercase(),
        5 | 6 => turn_sign(field),
        7 => *field = random.pick(&["-0", "-00", "-", "--1", "-01", "+1", "1-"]).to_string(),
        _ => {
            let at = random.below(field.len().max(1));
            let end = (at + 1).min(field.len());
            field.replace_range(at..end, &figure.to_string());
        }
    }
}

/// Takes the minus away, or puts one before the figures, also before `0`.
fn turn_sign(field: &mut String) {
    if field.starts_with('-') {
        field.remove(0);
    } else {
        field.insert(0, '-');
    }
}

/// Changes the digits of a T, L or A line, or the kind of a line.
fn damage_steps(random: &mut Random, sheet: Vec<u8>) -> Vec<u8> {
    let mut lines = part(&sheet);
    let carries_digits = |line: &&mut Vec<u8>| matches!(line[0], b'T' | b'L' | b'A');
    let mut with_digits: Vec<&mut Vec<u8>> = lines.iter_mut().filter(carries_digits).collect();
    if with_digits.is_empty() {
        return sheet;
    }
    let at = random.below(with_digits.len());
    let line = &mut with_digits[at];
    match random.below(4) {
        0 => line[0] = random.pick(b"TLADE"),
        1 => exchange_digits(line),
        _ => {
            **line = format!(
                "{},{},{}\n",
                char::from(line[0]),
                random_digit(random),
                random_digit(random)
            )
            .into_bytes()
        }
    }
    lines.concat()
}

/// `A,a,b` becomes `A,b,a`.
fn exchange_digits(line: &mut Vec<u8>) {
    let text = String::from_utf8_lossy(line).trim_end().to_string();
    if let [kind, a, b] = text.split(',').collect::<Vec<_>>()[..] {
        *line = format!("{kind},{b},{a}\n").into_bytes();
    }
}

/// Makes the header's counts true, where there is a header of nine fields.
pub fn recount(sheet: &mut Vec<u8>) {
    let mut lines = part(sheet);
    let Some(mut fields) = lines.first().and_then(|line| header_fields(line)) else {
        return;
    };
    let is_table_doubling = |line: &[u8]| line == b"T,2,0\n" || line == b"T,0,2\n";
    let is_doubling = |line: &[u8]| line == b"D\n" || is_table_doubling(line);
    let is_addition = |line: &[u8]| matches!(line[0], b'A' | b'T') && !is_table_doubling(line);
    fields[5] = lines.iter().filter(|line| is_addition(line)).count().to_string();
    fields[6] = lines.iter().filter(|line| is_doubling(line)).count().to_string();
    lines[0] = (fields.join(",") + "\n").into_bytes();
    *sheet = lines.concat();
}

/// The lines, each with its line feed.
fn part(sheet: &[u8]) -> Vec<Vec<u8>> {
    sheet.split_inclusive(|&byte| byte == b'\n').map(<[u8]>::to_vec).collect()
}

/// The nine fields of a header.
fn header_fields(line: &[u8]) -> Option<Vec<String>> {
    let text = std::str::from_utf8(line).ok()?.strip_suffix('\n')?;
    let fields: Vec<String> = text.split(',').map(str::to_string).collect();
    (fields.len() == 9 && fields.iter().all(|field| field.is_ascii())).then_some(fields)
}

#[cfg(test)]
mod tests {
    use super::*;
    use crate::reader;
    use std::collections::BTreeSet;

    const GOOD: &[u8] = b"S,I,3,1,2,3,4,7,2\nT,2,0\nT,3,0\nL,1,0\nD\nD\nA,0,1\nD\nA,-1,0\nE\n";

    #[test]
    fn recounting_mends_the_counts() {
        let mut sheet = String::from_utf8_lossy(GOOD).replace("3,4,7", "0,99,7").into_bytes();
        recount(&mut sheet);
        assert_eq!(sheet, GOOD);
    }

    #[test]
    fn turning_a_sign_twice_gives_the_scalar_back() {
        for scalar in ["7", "-7", "0"] {
            let mut field = scalar.to_string();
            turn_sign(&mut field);
            assert_ne!(field, scalar);
            turn_sign(&mut field);
            assert_eq!(field, scalar);
        }
    }

    #[test]
    fn damage_meets_every_question() {
        let mut random = Random::new(11);
        for limits in Limits::BOTH {
            let mut numbers = BTreeSet::new();
            for _ in 0..5000 {
                if let Err(refusal) = reader::read(&damage(&mut random, GOOD, limits), limits) {
                    numbers.insert(refusal.number);
                }
            }
            assert_eq!(numbers.into_iter().collect::<Vec<_>>(), [6, 7, 8, 9, 10, 11]);
        }
    }
}
