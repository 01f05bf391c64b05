//! The sheet reader: the sheet is parted into lines, then each question is put to the whole of it
//! before the next one.

use crate::big::Big;
use crate::joint::Pair;
use crate::limits::Limits;
use crate::plan::{is_doubling, Plan};

/// The number of the question missed, and the line.
#[derive(Clone, Copy, PartialEq, Eq, Debug)]
pub struct Refusal {
    pub number: u32,
    pub line: usize,
}

/// Is the sheet accepted within these limits?
pub fn read(sheet: &[u8], limits: Limits) -> Result<(), Refusal> {
    if sheet.len() > limits.sheet() {
        return Err(Refusal { number: 5, line: 0 });
    }
    let sheet = parse(sheet, limits).map_err(|line| Refusal { number: 6, line })?;
    let plan = sheet.plan().map_err(|line| Refusal { number: 7, line })?;
    refuse(8, sheet.first_forbidden_step(plan))?;
    refuse(9, sheet.first_double_too_many(limits))?;
    refuse(10, (!sheet.counts_are_true()).then_some(1))?;
    refuse(11, (sheet.result() != (sheet.header.k, sheet.header.l)).then_some(1))
}

fn refuse(number: u32, line: Option<usize>) -> Result<(), Refusal> {
    line.map_or(Ok(()), |line| Err(Refusal { number, line }))
}

struct Header {
    kind: u8,
    m1: usize,
    m2: usize,
    slots: usize,
    additions: usize,
    doublings: usize,
    k: Big,
    l: Big,
}

enum Line {
    Header(Box<Header>),
    Table(Pair),
    Load(Pair),
    Double,
    Add(Pair),
    End,
}

/// A sheet that is spelled and placed as it should be. Line 1 is the header, the table follows it,
/// and the body follows the table: the steps and the last line E.
struct Parsed {
    header: Header,
    table: Vec<Pair>,
    body: Vec<Line>,
}

/// The lines of the sheet, or the first that is misspelled, misplaced or missing.
fn parse(sheet: &[u8], limits: Limits) -> Result<Parsed, usize> {
    let mut lines = Vec::new();
    for (before, text) in sheet.split_inclusive(|&byte| byte == b'\n').enumerate() {
        let line = text.strip_suffix(b"\n").and_then(|text| parse_line(text, limits));
        match line.filter(|line| may_follow(lines.last(), line)) {
            Some(line) => lines.push(line),
            None => return Err(before + 1),
        }
    }
    match lines.last() {
        Some(Line::End) => Ok(part(lines)),
        _ => Err(lines.len() + 1),
    }
}

fn may_follow(before: Option<&Line>, line: &Line) -> bool {
    match before {
        None => matches!(line, Line::Header(_)),
        Some(Line::Header(_) | Line::Table(_)) => {
            matches!(line, Line::Table(_) | Line::Load(_) | Line::End)
        }
        Some(Line::Load(_) | Line::Double | Line::Add(_)) => {
            matches!(line, Line::Double | Line::Add(_) | Line::End)
        }
        Some(Line::End) => false,
    }
}

/// Parts well placed lines into header, table and body.
fn part(lines: Vec<Line>) -> Parsed {
    let mut lines = lines.into_iter().peekable();
    let Some(Line::Header(header)) = lines.next() else {
        unreachable!("a well placed first line is a header");
    };
    let mut table = Vec::new();
    while let Some(&Line::Table(pair)) = lines.peek() {
        table.push(pair);
        lines.next();
    }
    Parsed { header: *header, table, body: lines.collect() }
}

fn parse_line(text: &[u8], limits: Limits) -> Option<Line> {
    let fields: Vec<&[u8]> = text.split(|&byte| byte == b',').collect();
    match fields[..] {
        [b"S", ref rest @ ..] => Some(Line::Header(Box::new(parse_header(rest, limits)?))),
        [b"T", a, b] => Some(Line::Table(parse_pair(a, b)?)),
        [b"L", a, b] => Some(Line::Load(parse_pair(a, b)?)),
        [b"D"] => Some(Line::Double),
        [b"A", a, b] => Some(Line::Add(parse_pair(a, b)?)),
        [b"E"] => Some(Line::End),
        _ => None,
    }
}

fn parse_header(fields: &[&[u8]], limits: Limits) -> Option<Header> {
    let &[kind, m1, m2, slots, additions, doublings, k, l] = fields else {
        return None;
    };
    Some(Header {
        kind: match kind {
            b"J" => b'J',
            b"I" => b'I',
            _ => return None,
        },
        m1: parse_decimal(m1, 4)?,
        m2: parse_decimal(m2, 4)?,
        slots: parse_decimal(slots, 4)?,
        additions: parse_decimal(additions, 4)?,
        doublings: parse_decimal(doublings, 4)?,
        k: parse_scalar(k, limits)?,
        l: parse_scalar(l, limits)?,
    })
}

fn parse_pair(a: &[u8], b: &[u8]) -> Option<Pair> {
    Some((parse_signed(a)?, parse_signed(b)?))
}

/// A decimal of one or two figures, with a minus if negative, never `-0`.
fn parse_signed(field: &[u8]) -> Option<i8> {
    match field.strip_prefix(b"-") {
        Some(figures) => {
            let size = parse_decimal(figures, 2)?;
            (size != 0).then_some(-(size as i8))
        }
        None => Some(parse_decimal(field, 2)? as i8),
    }
}

/// A decimal of 1 to `most` figures with no leading zero.
fn parse_decimal(field: &[u8], most: usize) -> Option<usize> {
    let spelled = has_figures(field, most) && field.iter().all(u8::is_ascii_digit);
    let append = |value, figure: &u8| 10 * value + usize::from(figure - b'0');
    spelled.then(|| field.iter().fold(0, append))
}

/// A hexadecimal scalar, with a minus before its figures if negative, never `-0`.
fn parse_scalar(field: &[u8], limits: Limits) -> Option<Big> {
    let most = limits.figures();
    match field.strip_prefix(b"-") {
        Some(figures) => {
            parse_figures(figures, most).filter(|size| !size.is_zero()).map(Big::negated)
        }
        None => parse_figures(field, most),
    }
}

/// A hexadecimal number of 1 to `most` figures with no leading zero.
fn parse_figures(field: &[u8], most: usize) -> Option<Big> {
    let is_figure = |byte: &u8| matches!(byte, b'0'..=b'9' | b'a'..=b'f');
    let spelled = has_figures(field, most) && field.iter().all(is_figure);
    spelled.then(|| Big::from_hex(field))
}

/// 1 to `most` figures, the first of which is 0 only if it is alone.
fn has_figures(field: &[u8], most: usize) -> bool {
    (1..=most).contains(&field.len()) && (field[0] != b'0' || field.len() == 1)
}

impl Parsed {
    /// The number of the line that follows the table; the body begins with it.
    fn line_after_table(&self) -> usize {
        self.table.len() + 2
    }

    /// The plan, or the line where windows, slots or table are not a plan's.
    fn plan(&self) -> Result<Plan, usize> {
        let plan = self.header.plan().ok_or(1usize)?;
        let due = plan.table();
        let agreeing = self.table.iter().zip(&due).take_while(|(given, due)| given == due).count();
        if self.header.slots != plan.slots() {
            Err(1)
        } else if self.table != due {
            Err(agreeing + 2)
        } else {
            Ok(plan)
        }
    }

    /// The first L or A line that the plan does not allow.
    fn first_forbidden_step(&self, plan: Plan) -> Option<usize> {
        let mut earlier_at_place = Vec::new();
        for (line, number) in self.body.iter().zip(self.line_after_table()..) {
            match *line {
                Line::Double => earlier_at_place.clear(),
                Line::Load(pair) | Line::Add(pair) => {
                    if !is_allowed(plan, &earlier_at_place, pair) {
                        return Some(number);
                    }
                    earlier_at_place.push(pair);
                }
                _ => {}
            }
        }
        None
    }

    fn doubles(&self) -> impl Iterator<Item = usize> + '_ {
        let numbered = self.body.iter().zip(self.line_after_table()..);
        numbered.filter(|(line, _)| matches!(line, Line::Double)).map(|(_, number)| number)
    }

    fn first_double_too_many(&self, limits: Limits) -> Option<usize> {
        self.doubles().nth(limits.doubles())
    }

    fn counts_are_true(&self) -> bool {
        let table_doublings = self.table.iter().filter(|&&line| is_doubling(line)).count();
        let table_additions = self.table.len() - table_doublings;
        let adds = self.body.iter().filter(|line| matches!(line, Line::Add(_))).count();
        self.header.additions == table_additions + adds
            && self.header.doublings == table_doublings + self.doubles().count()
    }

    /// What the accumulator holds at E.
    fn result(&self) -> (Big, Big) {
        let (mut p, mut q) = (Big::ZERO, Big::ZERO);
        for line in &self.body {
            match *line {
                Line::Load((a, b)) => (p, q) = (Big::ZERO.plus(a.into()), Big::ZERO.plus(b.into())),
                Line::Double => (p, q) = (p.doubled(), q.doubled()),
                Line::Add((a, b)) => (p, q) = (p.plus(a.into()), q.plus(b.into())),
                _ => {}
            }
        }
        (p, q)
    }
}

impl Header {
    /// The plan of this kind with these windows, if there is one.
    fn plan(&self) -> Option<Plan> {
        let window = |m: usize| (m % 2 == 1 && m <= 31).then_some(m as u8);
        let (m1, m2) = (window(self.m1)?, window(self.m2)?);
        match self.kind {
            b'J' => (m1 == 1 && m2 == 1).then_some(Plan::Joint),
            _ => Some(Plan::Interleaved { m1, m2 }),
        }
    }
}

/// May this step follow the earlier ones of its place?
fn is_allowed(plan: Plan, earlier: &[Pair], (a, b): Pair) -> bool {
    let fits = |digit: i8, m: u8| digit % 2 != 0 && digit.unsigned_abs() <= m;
    match plan {
        Plan::Joint => a.abs() <= 1 && b.abs() <= 1 && (a, b) != (0, 0) && earlier.is_empty(),
        Plan::Interleaved { m1, m2 } => {
            let for_p = fits(a, m1) && b == 0 && earlier.is_empty();
            let for_q = fits(b, m2) && a == 0 && earlier.iter().all(|step| step.1 == 0);
            for_p || for_q
        }
    }
}

#[cfg(test)]
mod tests {
    use super::*;

    const GOOD: &str = "S,I,1,1,0,2,3,7,2\nL,1,0\nD\nD\nA,0,1\nD\nA,-1,0\nE\n";

    fn check_by(limits: Limits, sheet: &str, number: u32, line: usize) {
        let expected = if number == 0 { Ok(()) } else { Err(Refusal { number, line }) };
        assert_eq!(read(sheet.as_bytes(), limits), expected, "{limits}: {sheet}");
    }

    /// The same answer at the card and at the gateway.
    fn check(sheet: &str, number: u32, line: usize) {
        Limits::BOTH.into_iter().for_each(|limits| check_by(limits, sheet, number, line));
    }

    #[test]
    fn the_sample_is_accepted() {
        check(GOOD, 0, 0);
    }

    #[test]
    fn length_comes_first() {
        for limits in Limits::BOTH {
            check_by(limits, &"x".repeat(limits.sheet()), 6, 1);
            check_by(limits, &"x".repeat(limits.sheet() + 1), 5, 0);
        }
    }

    #[test]
    fn spelling_and_placing() {
        check("", 6, 1);
        check("\n", 6, 1);
        check(GOOD.trim_end(), 6, 8);
        check(GOOD.trim_end_matches("E\n"), 6, 8);
        check(&format!("{GOOD}\n"), 6, 9);
        check(&format!("{GOOD}E\n"), 6, 9);
        check(&format!("{GOOD}x"), 6, 9);
        check(&GOOD.replace("L,1,0\n", ""), 6, 2);
        check(&GOOD.replace("L,1,0\n", "L,1,0\nT,1,1\n"), 6, 3);
        check(&GOOD.replace("A,0,1\n", "L,0,1\n"), 6, 5);
        check(&format!("{GOOD}{GOOD}"), 6, 9);
        check("S,I,1,1,0,2,3,7,2\n", 6, 2);
        check("S,J,1,1,2,2,0,0,0\nE", 6, 2);
    }

    #[test]
    fn fields() {
        for bad in ["-0", "00", "01", "+1", "100", "-01", "-100", "", "-", " 1", "1 ", "--1"] {
            check(&GOOD.replace("A,0,1\n", &format!("A,{bad},1\n")), 6, 5);
            check(&GOOD.replace("A,0,1\n", &format!("A,0,{bad}\n")), 6, 5);
        }
        for bad in
            ["S,K,1,1,0", "S,I,01,1,0", "S,I,1,1,00", "S,I,1,10000,0", "S,i,1,1,0", "S,I,1,1,0,0"]
        {
            check(&GOOD.replace("S,I,1,1,0", bad), 6, 1);
        }
        for bad in ["07,2", "7,02", "7,", ",2", "7,G", "7,A", "7,2,", "7,00"] {
            check(&GOOD.replace("7,2\n", &format!("{bad}\n")), 6, 1);
        }
        for limits in Limits::BOTH {
            let longest = "1".repeat(limits.figures());
            check_by(limits, &GOOD.replace("7,2\n", &format!("7,{longest}\n")), 11, 1);
            check_by(limits, &GOOD.replace("7,2\n", &format!("7,{longest}1\n")), 6, 1);
        }
        check(&GOOD.replace("D\nA,0,1\n", "D\r\nA,0,1\n"), 6, 4);
    }

    #[test]
    fn a_minus_before_a_scalar() {
        let bad =
            ["-0", "-00", "-07", "--7", "-", "+7", "7-", "- 7", " -7", "-A", "-0x7", "-g", "0-7"];
        for bad in bad {
            check(&GOOD.replace("7,2\n", &format!("{bad},2\n")), 6, 1);
            check(&GOOD.replace("7,2\n", &format!("7,{bad}\n")), 6, 1);
        }
        for field in ["S,I,-1,1,0", "S,I,1,-1,0", "S,I,1,1,-0", "S,-I,1,1,0", "S,I,1,1,0,-2"] {
            check(&GOOD.replace("S,I,1,1,0", field), 6, 1);
        }
        // The minus is not one of the figures.
        for limits in Limits::BOTH {
            let longest = "f".repeat(limits.figures());
            let with = |pair: String| GOOD.replace("7,2\n", &pair);
            check_by(limits, &with(format!("-{longest},-{longest}\n")), 11, 1);
            check_by(limits, &with(format!("-{longest}f,2\n")), 6, 1);
            check_by(limits, &with(format!("7,-{longest}f\n")), 6, 1);
        }
    }

    #[test]
    fn the_result_is_compared_with_the_signed_pair() {
        let signs = [(1, 1), (1, -1), (-1, 1), (-1, -1)];
        for (a, b) in signs {
            let body = format!("L,{a},0\nD\nD\nA,0,{b}\nD\nA,{},0\nE\n", -a);
            for (ks, ls) in signs {
                let (number, line) = if (a, b) == (ks, ls) { (0, 0) } else { (11, 1) };
                check(&format!("S,I,1,1,0,2,3,{},{}\n{body}", 7 * ks, 2 * ls), number, line);
            }
        }
        check("S,I,1,1,0,0,0,-1,0\nL,-1,0\nE\n", 0, 0);
        check("S,I,1,1,0,0,0,1,0\nL,-1,0\nE\n", 11, 1);
        check("S,I,1,1,0,0,0,-1,0\nE\n", 11, 1);
    }

    #[test]
    fn plans() {
        check(&GOOD.replace("S,I,1,1,0", "S,I,2,1,0"), 7, 1);
        check(&GOOD.replace("S,I,1,1,0", "S,I,1,33,17"), 7, 1);
        check(&GOOD.replace("S,I,1,1,0", "S,I,9999,1,0"), 7, 1);
        check(&GOOD.replace("S,I,1,1,0", "S,I,1,1,1"), 7, 1);
        check(&GOOD.replace("S,I,1,1,0", "S,J,1,3,2"), 7, 1);
        check(&GOOD.replace("S,I,1,1,0", "S,J,1,1,2"), 7, 2);
        check(&GOOD.replace("S,I,1,1,0", "S,I,3,1,1"), 7, 1);
        check(&GOOD.replace("S,I,1,1,0", "S,I,3,1,2"), 7, 2);
        check(&GOOD.replace("S,I,1,1,0", "S,I,3,3,4"), 7, 1);
        check(&GOOD.replace("L,1", "T,2,0\nL,1"), 7, 2);
        check("S,I,3,3,3,2,2,0,0\nT,2,0\nT,3,0\nT,0,2\nE\n", 7, 5);
        check("S,I,3,3,3,2,2,0,0\nT,2,0\nT,3,0\nT,0,2\nT,0,3\nE\n", 0, 0);
        check("S,I,3,3,3,2,2,0,0\nT,2,0\nT,3,0\nT,0,2\nT,0,3\nT,0,5\nE\n", 7, 6);
        check("S,I,3,3,3,2,2,0,0\nT,2,0\nT,0,2\nT,0,3\nE\n", 7, 3);
        check("S,J,1,1,2,2,0,0,0\nT,1,1\nE\n", 7, 3);
    }

    #[test]
    fn steps() {
        check(&GOOD.replace("L,1,0", "L,0,0"), 8, 2);
        check(&GOOD.replace("L,1,0", "L,1,1"), 8, 2);
        check(&GOOD.replace("L,1,0", "L,2,0"), 8, 2);
        check(&GOOD.replace("L,1,0", "L,3,0"), 8, 2);
        check(&GOOD.replace("A,0,1\n", "A,0,1\nA,1,0\n"), 8, 6);
        check(&GOOD.replace("A,0,1\n", "A,0,1\nA,0,1\n"), 8, 6);
        check(&GOOD.replace("L,1,0\n", "L,0,1\nA,1,0\n"), 8, 3);
        check(&GOOD.replace("L,1,0\n", "L,1,0\nA,1,0\n"), 8, 3);
        check("S,J,1,1,2,3,0,1,1\nT,1,1\nT,1,-1\nL,1,0\nA,0,1\nE\n", 8, 5);
        check("S,J,1,1,2,2,0,2,1\nT,1,1\nT,1,-1\nL,2,1\nE\n", 8, 4);
        check("S,J,1,1,2,2,0,1,-1\nT,1,1\nT,1,-1\nL,1,-1\nE\n", 0, 0);
        check("S,J,1,1,2,3,1,3,1\nT,1,1\nT,1,-1\nL,1,1\nD\nA,1,-1\nE\n", 0, 0);
    }

    #[test]
    fn doubles() {
        let long = |figures: usize, doubles: usize| {
            let k = format!("8{}", "0".repeat(figures - 1));
            let body = "D\n".repeat(doubles);
            format!("S,I,1,1,0,0,{doubles},{k},0\nL,1,0\n{body}E\n")
        };
        for limits in Limits::BOTH {
            let (figures, most) = (limits.figures(), limits.doubles());
            check_by(limits, &long(figures, most - 1), 0, 0);
            check_by(limits, &long(figures, most), 11, 1);
            check_by(limits, &long(figures, most + 1), 9, most + 3);
            check_by(limits, &long(figures, most + 171), 9, most + 3);
        }
        check_by(Limits::Card, &long(133, 531), 6, 1);
        check_by(Limits::Gateway, &long(133, 531), 0, 0);
    }

    #[test]
    fn counts_and_result() {
        check(&GOOD.replace("0,2,3,7", "0,3,3,7"), 10, 1);
        check(&GOOD.replace("0,2,3,7", "0,2,2,7"), 10, 1);
        check(&GOOD.replace("7,2\n", "7,3\n"), 11, 1);
        check(&GOOD.replace("7,2\n", "2,7\n"), 11, 1);
        check("S,I,1,1,0,0,0,0,0\nE\n", 0, 0);
        check("S,I,1,1,0,0,0,1,0\nE\n", 11, 1);
    }
}
