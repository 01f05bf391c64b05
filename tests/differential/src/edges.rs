//! Calls at the edges, each with the answer that the scope document asks for: leading zeros and the
//! longest scalars, the heaviest forms, runs of ones, and the questions, each missed by itself and
//! then with others that come after it.

use crate::answer::Answer;
use crate::big::Big;
use crate::calls::Call;
use crate::direction::Direction::{self, Down, Up};
use crate::limits::Limits;
use crate::plan::Plan;
use crate::samples::SEVEN_AND_TWO;
use crate::scalars::{self, Scalar, SIGNS};
use crate::sheet::{columns, Sheet};

/// The calls at the edges of these limits.
pub fn all(limits: Limits) -> Vec<(Call, Answer)> {
    let mut edges = rows(limits);
    edges.extend(joint_forms(limits));
    edges.extend(dense(limits));
    edges.extend(runs_of_ones(limits));
    edges.extend(joint_refusals(limits));
    edges.extend(codes(limits));
    edges.extend(code_refusals(limits));
    edges.extend(plan_refusals(limits));
    edges.extend(cheapest_sheets(limits));
    edges.extend(negative_rows(limits));
    edges.extend(negative_joint_forms(limits));
    edges.extend(negative_sheets(limits));
    edges.extend(zeros_with_a_minus(limits));
    edges.extend(negative_refusals(limits));
    edges.extend(reads(limits));
    edges.extend(reads_of_negative_scalars(limits));
    edges.extend(reads_at_either_limit(limits));
    for direction in Direction::BOTH {
        edges.extend(row_refusals(direction, limits));
        edges.extend(plan_i_refusals(direction, limits));
    }
    edges
}

/// The row of all ones in the most bytes.
fn carried(limits: Limits) -> Vec<i8> {
    sparse(limits.places(), &[(0, -1), (limits.places() - 1, 1)])
}

/// All ones in the most bytes.
fn all_ones(limits: Limits) -> Vec<u8> {
    vec![255; limits.bytes()]
}

/// All ones in a byte more.
fn too_long(limits: Limits) -> Vec<u8> {
    vec![255; limits.bytes() + 1]
}

fn rows(limits: Limits) -> Vec<(Call, Answer)> {
    let (ones, places) = (all_ones(limits), limits.places());
    vec![
        (row(Up, &[9], 31, 9), Answer::Row(vec![9])),
        (row(Down, &[9], 31, 9), Answer::Row(vec![9])),
        (row(Up, &[0, 0, 9], 7, 25), Answer::Row(vec![-7, 0, 0, 0, 1])),
        (row(Down, &[0, 0, 9], 7, 25), Answer::Row(vec![-1, 5])),
        (row(Up, &[11], 1, 9), Answer::Row(vec![-1, 0, -1, 0, 1])),
        (row(Down, &[11], 1, 9), Answer::Row(vec![-1, 0, 1, 1])),
        (row(Up, &ones, 1, places), Answer::Row(carried(limits))),
        (row(Down, &ones, 1, places), Answer::Row(carried(limits))),
        (row(Up, &ones, 31, places + 71), Answer::Row(carried(limits))),
        (row(Down, &ones, 31, places + 71), Answer::Row(carried(limits))),
    ]
}

fn joint_forms(limits: Limits) -> Vec<(Call, Answer)> {
    let (ones, carried, places) = (all_ones(limits), carried(limits), limits.places());
    let thirteen_and_ten = Answer::Columns(vec![-1, -1, 0, 0, 1], vec![0, 1, 0, 1, 0]);
    vec![
        (joint(&[0], &[0], 9, 9), Answer::Columns(vec![], vec![])),
        (joint(&[13], &[0, 0, 10], 25, 25), thirteen_and_ten),
        (
            joint(&[2], &ones, places, places),
            Answer::Columns(sparse(places, &[(1, 1)]), carried.clone()),
        ),
        (joint(&ones, &ones, places, places + 71), Answer::Columns(carried.clone(), carried)),
    ]
}

/// As many digits, and as many columns, that are not zero as the rules allow.
fn dense(limits: Limits) -> Vec<(Call, Answer)> {
    let (places, top) = (limits.places(), limits.places() - 1);
    let upwards = |place| match place {
        _ if place == top => 1,
        _ if place % 2 == 0 => -1,
        _ => 0,
    };
    let downwards = |place| match place {
        0 => -1,
        1 => 0,
        2 => 1,
        _ => (place % 2) as i8,
    };
    // The column at the highest place below the top is not zero unless it is the third of three.
    let columns = if top % 3 == 0 { top - 1 } else { top };
    let every_third = |first| (0..columns).map(|place| i8::from(place % 3 == first)).collect();
    let (k, l) = scalars::dense_pair(limits);
    vec![
        (
            row(Up, &scalars::dense(limits), 1, places),
            Answer::Row((0..places).map(upwards).collect()),
        ),
        (
            row(Down, &scalars::dense(limits), 1, places),
            Answer::Row((0..top).map(downwards).collect()),
        ),
        (joint(&k, &l, places, places), Answer::Columns(every_third(0), every_third(1))),
    ]
}

/// Runs of ones, some over the borders of 32-bit and 64-bit words: as a row for the smallest and
/// the largest window, and jointly with 1.
fn runs_of_ones(limits: Limits) -> Vec<(Call, Answer)> {
    let (places, bits) = (limits.places(), 8 * limits.bytes());
    let runs = [
        (0, 32),
        (0, 64),
        (0, 65),
        (28, 36),
        (60, 68),
        (5, 101),
        (0, 255),
        (0, 256),
        (31, 528),
        (0, bits),
        (bits - 65, bits - 1),
        (33, bits),
    ];
    let mut edges = Vec::new();
    for (from, to) in runs {
        let scalar = scalars::ones(from, to);
        let digits = sparse(to + 1, &[(from, -1), (to, 1)]);
        let one = sparse(to + 1, &[(0, 1)]);
        for direction in Direction::BOTH {
            edges.extend([
                (row(direction, &scalar, 1, places), Answer::Row(digits.clone())),
                (row(direction, &scalar, 31, places), Answer::Row(digits.clone())),
            ]);
        }
        edges.push((joint(&scalar, &[1], places, places), Answer::Columns(digits, one)));
    }
    edges
}

fn row_refusals(direction: Direction, limits: Limits) -> Vec<(Call, Answer)> {
    let (longer, places) = (too_long(limits), limits.places());
    let row = |scalar: &[u8], m, places| row(direction, scalar, m, places);
    vec![
        (row(&longer, 1, places + 8), refused(1)),
        (row(&longer, 4, 0), refused(1)),
        (row(&[], 1, 9), refused(1)),
        (row(&[9], 0, 9), refused(2)),
        (row(&[9], 4, 9), refused(2)),
        (row(&[9], 33, 9), refused(2)),
        (row(&[9], 257, 9), refused(2)),
        (row(&[9], 7, 8), refused(3)),
        (row(&all_ones(limits), 1, places - 1), refused(3)),
        (row(&[], 4, 0), refused(1)),
        (row(&[9], 4, 8), refused(2)),
    ]
}

fn joint_refusals(limits: Limits) -> Vec<(Call, Answer)> {
    let (longer, places) = (too_long(limits), limits.places());
    vec![
        (joint(&longer, &[10], places + 8, places + 8), refused(1)),
        (joint(&[13], &longer, places + 8, places + 8), refused(1)),
        (joint(&[], &[10], 9, 9), refused(1)),
        (joint(&[13], &[], 9, 9), refused(1)),
        (joint(&[13], &[], 8, 8), refused(1)),
        (joint(&[13], &[10], 8, 9), refused(3)),
        (joint(&[13], &[10], 9, 8), refused(3)),
        (joint(&[13], &[0, 10], 16, 17), refused(3)),
        (joint(&[0, 13], &[10], 17, 16), refused(3)),
        (joint(&all_ones(limits), &[10], places, places - 1), refused(3)),
    ]
}

/// A sign that turns at 3 beside 2, in either row, and at 5 beside 2; none that turns at 1 beside 6,
/// and none in a run of ones.
fn codes(limits: Limits) -> Vec<(Call, Answer)> {
    let (ones, carried, places) = (all_ones(limits), carried(limits), limits.places());
    let carried_codes = sparse(places, &[(0, 1), (places - 1, 1)]);
    vec![
        (coded(&[0], &[0], [9; 4]), codes_are(&[], &[], &[], &[])),
        (coded(&[3], &[2], [9, 10, 11, 600]), codes_are(&[1, 1], &[2, 1], &[0, 1], &[0, 1])),
        (coded(&[2], &[3], [9; 4]), codes_are(&[0, 1], &[0, 1], &[1, 1], &[2, 1])),
        (
            coded(&[0, 5], &[2], [17; 4]),
            codes_are(&[-1, -1, 0, 1], &[2, 1, 0, 1], &[0, 1, 0, 0], &[0, 1, 0, 0]),
        ),
        (
            coded(&[1], &[6], [9; 4]),
            codes_are(&[1, 0, 0, 0], &[1, 0, 0, 0], &[0, -1, 0, 1], &[0, 1, 0, 1]),
        ),
        (
            coded(&ones, &ones, [places, places + 71, places, places]),
            codes_are(&carried, &carried_codes, &carried, &carried_codes),
        ),
    ]
}

fn code_refusals(limits: Limits) -> Vec<(Call, Answer)> {
    let places = limits.places();
    vec![
        (coded(&too_long(limits), &[10], [places + 8; 4]), refused(1)),
        (coded(&[13], &[], [9; 4]), refused(1)),
        (coded(&[13], &[], [0; 4]), refused(1)),
        (coded(&[13], &[10], [8, 9, 9, 9]), refused(3)),
        (coded(&[13], &[10], [9, 8, 9, 9]), refused(3)),
        (coded(&[13], &[10], [9, 9, 8, 9]), refused(3)),
        (coded(&[13], &[10], [9, 9, 9, 8]), refused(3)),
        (coded(&[13], &[0, 10], [17, 17, 16, 17]), refused(3)),
        (coded(&[0, 13], &[10], [17, 17, 17, 16]), refused(3)),
        (coded(&all_ones(limits), &[10], [places, places, places, places - 1]), refused(3)),
    ]
}

fn plan_refusals(limits: Limits) -> Vec<(Call, Answer)> {
    let (most, room) = (limits.bytes(), limits.sheet());
    vec![
        (plan_j(0, most, room), refused(1)),
        (plan_j(most + 1, most, room), refused(1)),
        (plan_j(most, most, room - 1), refused(3)),
    ]
}

fn plan_i_refusals(direction: Direction, limits: Limits) -> Vec<(Call, Answer)> {
    let (most, room) = (limits.bytes(), limits.sheet());
    let plan_i = |k_bytes, l_bytes, m1, m2, room| {
        let (k, l) = (sevens(k_bytes), sevens(l_bytes));
        Call::PlanI { direction, k, l, m1, m2, room }
    };
    vec![
        (plan_i(most, 0, 1, 1, room), refused(1)),
        (plan_i(most, most + 1, 2, 1, room - 1), refused(1)),
        (plan_i(most, most, 2, 1, room), refused(2)),
        (plan_i(most, most, 1, 0, room), refused(2)),
        (plan_i(most, most, 1, 33, room - 1), refused(2)),
        (plan_i(most, most, 257, 1, room), refused(2)),
        (plan_i(most, most, 31, 31, room - 1), refused(3)),
    ]
}

fn cheapest_sheets(limits: Limits) -> Vec<(Call, Answer)> {
    let enough = limits.sheet();
    let cheapest = |limit, room| order(&Scalar::plus([7]), &Scalar::plus([2]), limit, room);
    let order = |k, l, limit| order(&Scalar::plus([k]), &Scalar::plus([l]), limit, enough);
    vec![
        (cheapest(30, enough), sheet(SEVEN_AND_TWO, 2)),
        (cheapest(31, enough), sheet(SEVEN_AND_TWO, 2)),
        (cheapest(32, enough), refused(4)),
        (cheapest(31, enough - 1), refused(3)),
        (cheapest(32, enough - 1), refused(4)),
        // Windows 3, 1 need two slots: one for 3P, one for 2P.
        (order(45, 0, 1), sheet(FORTY_FIVE_BY_WINDOW_1, 3)),
        (order(45, 0, 2), sheet(FORTY_FIVE_BY_WINDOW_3, 2)),
        // Of equal additions fewer doublings decide, whatever slots they take.
        (order(3, 0, 2), sheet("S,I,3,1,2,1,1,3,0\nT,2,0\nT,3,0\nL,3,0\nE\n", 1)),
        (order(6, 11, 2), sheet(SIX_AND_ELEVEN, 4)),
        // Of equal doublings too fewer slots do.
        (order(3, 2, 2), sheet("S,I,1,1,0,2,2,3,2\nL,1,0\nD\nA,0,1\nD\nA,-1,0\nE\n", 2)),
    ]
}

const SIX_AND_ELEVEN: &str = "S,J,1,1,2,4,3,6,b\nT,1,1\nT,1,-1\nL,1,1\nD\nD\nA,-1,1\nD\nA,0,1\nE\n";

const FORTY_FIVE_BY_WINDOW_1: &str =
    "S,I,1,1,0,3,6,2d,0\nL,1,0\nD\nD\nA,-1,0\nD\nD\nA,-1,0\nD\nD\nA,1,0\nE\n";

const FORTY_FIVE_BY_WINDOW_3: &str =
    "S,I,3,1,2,2,5,2d,0\nT,2,0\nT,3,0\nL,3,0\nD\nD\nD\nD\nA,-3,0\nE\n";

/// The samples with a minus, and the longest rows, under every sign that is one.
fn negative_rows(limits: Limits) -> Vec<(Call, Answer)> {
    let (ones, places) = (all_ones(limits), limits.places());
    let carried = sparse(places, &[(0, 1), (places - 1, -1)]);
    let rows: [(Direction, &[u8], u32, &[i8]); 15] = [
        (Up, &[7], 5, &[1, 0, 0, -1]),
        (Down, &[7], 5, &[1, 0, 0, -1]),
        (Up, &[9], 5, &[-1, 0, 0, -1]),
        (Down, &[9], 5, &[1, -5]),
        (Up, &[0, 9], 7, &[7, 0, 0, 0, -1]),
        (Down, &[0, 11], 1, &[1, 0, -1, -1]),
        (Up, &[33], 31, &[31, 0, 0, 0, 0, 0, -1]),
        (Down, &[33], 31, &[1, -17]),
        (Up, &[53], 3, &[3, 0, 0, 1, 0, 0, -1]),
        (Down, &[53], 3, &[1, -3, 0, 0, -3]),
        (Down, &[0x57, 0x61], 5, &[-1, 0, 0, 0, 0, 5, 0, 0, 0, 0, 0, -1, -5]),
        (Up, &ones, 1, &carried),
        (Down, &ones, 1, &carried),
        (Up, &ones, 31, &carried),
        (Down, &ones, 31, &carried),
    ];
    let mut edges = Vec::new();
    for sign in minuses() {
        for (direction, scalar, m, digits) in rows {
            let call = signed_row(direction, &Scalar::new(scalar, sign), m, places);
            edges.push((call, Answer::Row(digits.to_vec())));
        }
    }
    edges
}

/// 13 and 10, where a sign turns, and the longest pair, with every two signs: each row is negated
/// with its own scalar, and no code changes.
fn negative_joint_forms(limits: Limits) -> Vec<(Call, Answer)> {
    let (thirteen, ten) = ([-1, -1, 0, 0, 1], [0, 1, 0, 1, 0]);
    let (ones, carried, places) = (all_ones(limits), carried(limits), limits.places());
    let with = |sign: u32, row: &[i8]| -> Vec<i8> {
        row.iter().map(|&digit| if sign == 0 { digit } else { -digit }).collect()
    };
    let mut edges = Vec::new();
    for ks in SIGNS {
        for ls in SIGNS {
            let (k, l) = (Scalar::new([13], ks), Scalar::new([0, 10], ls));
            let (k_row, l_row) = (with(ks, &thirteen), with(ls, &ten));
            let coded = codes_are(&k_row, &[2, 1, 0, 0, 1], &l_row, &[0, 1, 0, 1, 0]);
            edges.push((signed_joint(&k, &l, 17, 17), Answer::Columns(k_row, l_row)));
            edges.push((signed_coded(&k, &l, [17, 18, 19, 20]), coded));
            let (k, l) = (Scalar::new(ones.clone(), ks), Scalar::new(ones.clone(), ls));
            let columns = Answer::Columns(with(ks, &carried), with(ls, &carried));
            edges.push((signed_joint(&k, &l, places, places), columns));
        }
    }
    edges
}

/// The printed sheet with each sign turned, and one of plan J.
fn negative_sheets(limits: Limits) -> Vec<(Call, Answer)> {
    let room = limits.sheet();
    let (seven, two) = (Scalar::plus([7]), Scalar::plus([2]));
    let mut edges = Vec::new();
    for sign in minuses() {
        let (less_seven, less_two) = (seven.with_sign(sign), two.with_sign(sign));
        edges.extend([
            (order(&less_seven, &two, 0, room), sheet(LESS_SEVEN_AND_TWO, 2)),
            (order(&seven, &less_two, 0, room), sheet(SEVEN_LESS_TWO, 2)),
            (order(&less_seven, &less_two, 31, room), sheet(LESS_SEVEN_LESS_TWO, 2)),
        ]);
    }
    let (k, l) = (Scalar::minus([6]), Scalar::plus([11]));
    edges.push((Call::PlanJ { k, l, room }, sheet(LESS_SIX_AND_ELEVEN, 4)));
    let (k, l) = (Scalar::minus([45]), Scalar::plus([0]));
    let call = Call::PlanI { direction: Up, k, l, m1: 3, m2: 1, room };
    edges.push((call, sheet(LESS_FORTY_FIVE, 2)));
    let (k, l) = (Scalar::minus([11]), Scalar::plus([0]));
    let call = Call::PlanI { direction: Down, k, l, m1: 1, m2: 1, room };
    edges.push((call, sheet(LESS_ELEVEN, 2)));
    edges
}

const LESS_SEVEN_AND_TWO: &str = "S,I,1,1,0,2,3,-7,2\nL,-1,0\nD\nD\nA,0,1\nD\nA,1,0\nE\n";

const SEVEN_LESS_TWO: &str = "S,I,1,1,0,2,3,7,-2\nL,1,0\nD\nD\nA,0,-1\nD\nA,-1,0\nE\n";

const LESS_SEVEN_LESS_TWO: &str = "S,I,1,1,0,2,3,-7,-2\nL,-1,0\nD\nD\nA,0,-1\nD\nA,1,0\nE\n";

const LESS_SIX_AND_ELEVEN: &str =
    "S,J,1,1,2,4,3,-6,b\nT,1,1\nT,1,-1\nL,-1,1\nD\nD\nA,1,1\nD\nA,0,1\nE\n";

const LESS_FORTY_FIVE: &str = "S,I,3,1,2,2,5,-2d,0\nT,2,0\nT,3,0\nL,-3,0\nD\nD\nD\nD\nA,3,0\nE\n";

const LESS_ELEVEN: &str = "S,I,1,1,0,2,3,-b,0\nL,-1,0\nD\nA,-1,0\nD\nD\nA,1,0\nE\n";

/// Zero bytes are zero with any sign.
fn zeros_with_a_minus(limits: Limits) -> Vec<(Call, Answer)> {
    let room = limits.sheet();
    let mut edges = Vec::new();
    for sign in minuses() {
        for bytes in [1, 2, limits.bytes()] {
            let zero = Scalar::new(vec![0; bytes], sign);
            let one = Scalar::plus([1]);
            let places = 8 * bytes + 1;
            let (k, l) = (zero.clone(), zero.clone());
            edges.extend([
                (signed_row(Up, &zero, 31, places), Answer::Row(vec![])),
                (signed_row(Down, &zero, 31, places), Answer::Row(vec![])),
                (signed_joint(&zero, &zero, places, places), Answer::Columns(vec![], vec![])),
                (signed_joint(&zero, &one, places, places), Answer::Columns(vec![0], vec![1])),
                (signed_coded(&one, &zero, [places; 4]), codes_are(&[1], &[1], &[0], &[0])),
                (order(&zero, &zero, 31, room), sheet("S,I,1,1,0,0,0,0,0\nE\n", 0)),
                (order(&zero, &one, 0, room), sheet("S,I,1,1,0,0,0,0,1\nL,0,1\nE\n", 0)),
                (order(&one, &zero, 0, room), sheet("S,I,1,1,0,0,0,1,0\nL,1,0\nE\n", 0)),
                (Call::PlanJ { k, l, room }, sheet("S,J,1,1,2,2,0,0,0\nT,1,1\nT,1,-1\nE\n", 2)),
            ]);
        }
    }
    edges
}

/// A minus neither meets a question nor misses one.
fn negative_refusals(limits: Limits) -> Vec<(Call, Answer)> {
    let (most, places, room) = (limits.bytes(), limits.places(), limits.sheet());
    let mut edges = Vec::new();
    for sign in minuses() {
        let scalar = |bytes: usize| Scalar::new(vec![7; bytes], sign);
        for direction in Direction::BOTH {
            edges.extend([
                (signed_row(direction, &scalar(0), 4, 0), refused(1)),
                (signed_row(direction, &scalar(most + 1), 1, places + 8), refused(1)),
                (signed_row(direction, &scalar(most), 4, places), refused(2)),
                (signed_row(direction, &scalar(most), 1, places - 1), refused(3)),
            ]);
        }
        edges.extend([
            (signed_joint(&scalar(1), &scalar(0), 9, 9), refused(1)),
            (signed_joint(&scalar(most + 1), &scalar(1), places + 8, places + 8), refused(1)),
            (signed_joint(&scalar(1), &scalar(2), 16, 17), refused(3)),
            (signed_coded(&scalar(0), &scalar(1), [9; 4]), refused(1)),
            (signed_coded(&scalar(1), &scalar(1), [9, 9, 9, 8]), refused(3)),
            (order(&scalar(0), &scalar(1), 32, 0), refused(1)),
            (order(&scalar(1), &scalar(most + 1), 0, room), refused(1)),
            (order(&scalar(1), &scalar(1), 32, room), refused(4)),
            (order(&scalar(1), &scalar(1), 31, room - 1), refused(3)),
        ]);
    }
    edges
}

fn reads(limits: Limits) -> Vec<(Call, Answer)> {
    vec![
        (Call::Read { sheet: vec![b'E'; limits.sheet()] }, Answer::refused(6, 1)),
        (Call::Read { sheet: vec![b'E'; limits.sheet() + 1] }, Answer::refused(5, 0)),
        (read(FORTY_FIVE_BY_WINDOW_1), Answer::Accepted),
        (read(FORTY_FIVE_BY_WINDOW_3), Answer::Accepted),
        // An older header, without the place of the working double.
        (read(&FORTY_FIVE_BY_WINDOW_3.replace("S,I,3,1,2", "S,I,3,1,1")), Answer::refused(7, 1)),
    ]
}

/// Each sheet under its own header and under those with another sign; `-0` and its like; and the
/// longest scalars behind a minus.
fn reads_of_negative_scalars(limits: Limits) -> Vec<(Call, Answer)> {
    let sheets = [
        ("7,2", SEVEN_AND_TWO),
        ("-7,2", LESS_SEVEN_AND_TWO),
        ("7,-2", SEVEN_LESS_TWO),
        ("-7,-2", LESS_SEVEN_LESS_TWO),
    ];
    let mut edges = Vec::new();
    for (own, sheet) in sheets {
        for (other, _) in sheets {
            let answer = if own == other { Answer::Accepted } else { Answer::refused(11, 1) };
            edges.push((read(&sheet.replacen(own, other, 1)), answer));
        }
    }
    for bad in ["-0", "-00", "-07", "--7", "-", "+7", "7-", "-A"] {
        for pair in [format!("{bad},2\n"), format!("7,{bad}\n")] {
            edges.push((read(&SEVEN_AND_TWO.replace("7,2\n", &pair)), Answer::refused(6, 1)));
        }
    }
    let (ones, doubles) = ("f".repeat(limits.figures()), limits.doubles());
    let all_ones = |sign| format!("S,I,1,1,0,1,{doubles},{sign}{ones},0\n");
    let steps = format!("L,-1,0\n{}A,1,0\nE\n", "D\n".repeat(doubles));
    edges.push((read(&format!("{}{steps}", all_ones("-"))), Answer::Accepted));
    edges.push((read(&format!("{}{steps}", all_ones(""))), Answer::refused(11, 1)));
    edges.push((read(&format!("{}{steps}", all_ones("-f"))), Answer::refused(6, 1)));
    edges
}

/// Sheets at the limits of the card and of the gateway, each with the answer of both: of so many D
/// lines, of so many bytes, and with so many figures in the header. Within the limits of D lines and
/// figures no sheet has 16,384 bytes at the card or 32,768 at the gateway, so one that has them
/// misses a question after 5.
fn reads_at_either_limit(limits: Limits) -> Vec<(Call, Answer)> {
    let (refused, accepted) = (Answer::refused, Answer::Accepted);
    let edges = [
        (cancelling(528, false, 0), accepted.clone(), accepted.clone()),
        (cancelling(529, false, 0), refused(9, 1_062), accepted.clone()),
        (cancelling(1_024, false, 0), refused(9, 1_062), accepted.clone()),
        (cancelling(1_025, false, 0), refused(9, 1_062), refused(9, 2_054)),
        (of_length(16_384, 1_024), refused(9, 1_591), accepted.clone()),
        (of_length(16_385, 1_024), refused(5, 0), accepted.clone()),
        (of_length(32_768, 2_048), refused(5, 0), refused(9, 3_079)),
        (of_length(32_769, 2_048), refused(5, 0), refused(5, 0)),
        (of_ones(132), accepted.clone(), accepted.clone()),
        (of_ones(133), refused(6, 1), accepted.clone()),
        (of_ones(256), refused(6, 1), accepted),
        (of_ones(257), refused(6, 1), refused(6, 1)),
    ];
    let edge = |(sheet, card, gateway): (String, Answer, Answer)| match limits {
        Limits::Card => (read(&sheet), card),
        Limits::Gateway => (read(&sheet), gateway),
    };
    edges.into_iter().map(edge).collect()
}

/// A sheet for 1 and 1, or for 1 and 0, of so many D lines and a step at every place for each scalar
/// that is not 0: 1 at the top, and −1 below. At so many pairs of places below the top P has 1 and
/// −5 for −1 and −1, which is a byte less.
fn cancelling(doubles: usize, with_q: bool, shorter: usize) -> String {
    let row = [vec![-1; doubles], vec![1]].concat();
    let mut p_row = row.clone();
    for place in (0..shorter).map(|pair| doubles - 1 - 2 * pair) {
        (p_row[place], p_row[place - 1]) = (1, -5);
    }
    let q_row = if with_q { row } else { Vec::new() };
    let (k, l) = (Big::from(1), Big::from(i64::from(with_q)));
    let plan = Plan::Interleaved { m1: 5, m2: 1 };
    Sheet::from_columns(plan, k, l, &columns(&p_row, &q_row)).to_string()
}

/// Such a sheet in exactly so many bytes.
fn of_length(bytes: usize, doubles: usize) -> String {
    let shorter = cancelling(doubles, true, 0).len() - bytes;
    let sheet = cancelling(doubles, true, shorter);
    assert_eq!(sheet.len(), bytes);
    sheet
}

/// The sheet of plan I 1, 1 for a scalar of so many figures f.
fn of_ones(figures: usize) -> String {
    let k = Big::from_hex("f".repeat(figures).as_bytes());
    Sheet::of_plan(Plan::Interleaved { m1: 1, m2: 1 }, k, Big::ZERO).to_string()
}

/// The signs that are minus.
fn minuses() -> impl Iterator<Item = u32> {
    SIGNS.into_iter().filter(|&sign| sign != 0)
}

/// A row of so many places that holds these digits and else 0.
fn sparse(places: usize, digits: &[(usize, i8)]) -> Vec<i8> {
    let mut row = vec![0; places];
    digits.iter().for_each(|&(place, digit)| row[place] = digit);
    row
}

fn sheet(text: &str, additions: usize) -> Answer {
    Answer::Sheet { bytes: text.as_bytes().to_vec(), additions }
}

fn read(sheet: &str) -> Call {
    Call::Read { sheet: sheet.as_bytes().to_vec() }
}

fn refused(number: u32) -> Answer {
    Answer::refused(number, 0)
}

fn row(direction: Direction, scalar: &[u8], m: u32, places: usize) -> Call {
    signed_row(direction, &Scalar::plus(scalar), m, places)
}

fn signed_row(direction: Direction, scalar: &Scalar, m: u32, places: usize) -> Call {
    Call::Row { direction, scalar: scalar.clone(), m, places }
}

fn joint(k: &[u8], l: &[u8], k_places: usize, l_places: usize) -> Call {
    signed_joint(&Scalar::plus(k), &Scalar::plus(l), k_places, l_places)
}

fn signed_joint(k: &Scalar, l: &Scalar, k_places: usize, l_places: usize) -> Call {
    Call::Joint { k: k.clone(), l: l.clone(), k_places, l_places }
}

fn coded(k: &[u8], l: &[u8], rooms: [usize; 4]) -> Call {
    signed_coded(&Scalar::plus(k), &Scalar::plus(l), rooms)
}

fn signed_coded(k: &Scalar, l: &Scalar, rooms: [usize; 4]) -> Call {
    Call::JointCodes { k: k.clone(), l: l.clone(), rooms }
}

/// The cheapest sheet.
fn order(k: &Scalar, l: &Scalar, limit: u32, room: usize) -> Call {
    Call::Cheapest { k: k.clone(), l: l.clone(), limit, room }
}

fn codes_are(k_row: &[i8], k_codes: &[i8], l_row: &[i8], l_codes: &[i8]) -> Answer {
    let bytes = |codes: &[i8]| codes.iter().map(|&code| code as u8).collect();
    Answer::Coded {
        k_row: k_row.to_vec(),
        l_row: l_row.to_vec(),
        k_codes: bytes(k_codes),
        l_codes: bytes(l_codes),
    }
}

/// Plan J of two scalars in so many bytes.
fn plan_j(k_bytes: usize, l_bytes: usize, room: usize) -> Call {
    Call::PlanJ { k: sevens(k_bytes), l: sevens(l_bytes), room }
}

fn sevens(bytes: usize) -> Scalar {
    Scalar::plus(vec![7; bytes])
}

#[cfg(test)]
mod tests {
    use super::*;

    #[test]
    fn the_reference_agrees_at_every_edge() {
        for limits in Limits::BOTH {
            for (call, answer) in all(limits) {
                assert_eq!(call.answer(limits), answer, "{limits} {call}");
            }
        }
    }
}
