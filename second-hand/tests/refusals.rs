//! R101 to R122: each refusal once or more, and the order among them (R100).

use second_hand::engine::{Access, Batch, Report, MAYBE, PREDICTED, READ, WRITE};
use second_hand::{answer, answer_plan, kinds, ANSWER_PLACES};

fn on(cell: u32, mode: u32) -> Access {
    Access::to(cell, mode)
}

fn report(value: i32, mark: u32) -> Report {
    Report { values: [value, 0, 0, 0], mark }
}

/// Two cells; jobs 0 floor, 1 shift, 2 shift on cell 0, 3 set on cell 1.
fn batch(guess: u32) -> Batch {
    let mut batch = Batch::open(&[1500, 1480]).unwrap();
    batch.insert(4, 1400, &[on(0, MAYBE)]).unwrap();
    batch.insert(2, 20, &[on(0, WRITE)]).unwrap();
    batch.insert(2, 20, &[on(0, WRITE)]).unwrap();
    batch.insert(1, 7, &[on(1, WRITE)]).unwrap();
    batch.seal(guess).unwrap();
    batch
}

/// The call is refused with this number and leaves the batch as it was.
fn refused<T: std::fmt::Debug + PartialEq>(
    batch: &mut Batch,
    number: u32,
    call: impl FnOnce(&mut Batch) -> Result<T, u32>,
) {
    let before = batch.clone();
    assert_eq!(call(batch), Err(number));
    assert_eq!(*batch, before);
}

#[test]
fn refusal_1() {
    assert_eq!(Batch::open(&[]), Err(1));
    assert_eq!(Batch::open(&[0; 65]), Err(1));
}

#[test]
fn refusals_2_and_9_of_sealing_and_8_of_a_result() {
    let mut sealed = batch(1);
    refused(&mut sealed, 2, |b| b.seal(0));
    refused(&mut sealed, 2, |b| b.seal(5));

    let mut open = Batch::open(&[0, 0]).unwrap();
    refused(&mut open, 9, |b| b.seal(2));
    for kind in [0, 7, 255] {
        assert_eq!(kinds::result(kind, 0, [0; 4]), Err(8));
        // R18: the values come back as they were, and the mark is 0.
        let back = Report { values: [9, 8, 7, 6], mark: 0 };
        assert_eq!(kinds::ask_result(kind, -1, [9, 8, 7, 6]), (8, back));
    }
    // R18: those in places that the kind does not use too.
    let changed = Report { values: [8, 9, 7, 6], mark: 1 };
    assert_eq!(kinds::ask_result(6, -1, [9, 8, 7, 6]), (0, changed));
}

/// R6: before sealing and after it alike.
#[test]
fn refusals_3_to_8_of_inserting() {
    let open = Batch::open(&[0, 0]).unwrap();
    let mut empty = open.clone();
    empty.seal(0).unwrap();
    for mut batch in [open, empty, batch(1)] {
        refused(&mut batch, 4, |b| b.insert(9, 0, &[]));
        refused(&mut batch, 4, |b| b.insert(0, 0, &[on(9, 9); 5]));
        refused(&mut batch, 5, |b| b.insert(9, 0, &[on(1, 4), on(2, 0), on(2, 0)]));
        refused(&mut batch, 6, |b| b.insert(9, 0, &[on(1, 4), on(1, 0)]));
        refused(&mut batch, 7, |b| b.insert(9, 0, &[on(1, PREDICTED), on(1, 0)]));
        refused(&mut batch, 7, |b| b.insert(9, 0, &[on(1, 0), on(1, 0)]));
        refused(&mut batch, 8, |b| b.insert(7, 0, &[on(1, 0)]));
        refused(&mut batch, 8, |b| b.insert(1, 0, &[on(1, READ)]));
        refused(&mut batch, 8, |b| b.insert(1, 0, &[on(1, PREDICTED)]));
        refused(&mut batch, 8, |b| b.insert(1, 0, &[on(1, WRITE), on(0, READ)]));
        refused(&mut batch, 8, |b| b.insert(3, 0, &[on(1, MAYBE)]));
        while batch.job_count() < 128 {
            batch.insert(0, 0, &[on(0, READ)]).unwrap();
        }
        refused(&mut batch, 3, |b| b.insert(9, 0, &[]));
        refused(&mut batch, 3, |b| b.insert(0, 0, &[on(0, READ)]));
    }
}

#[test]
fn refusals_10_to_12() {
    let mut open = Batch::open(&[0]).unwrap();
    refused(&mut open, 10, |b| b.start_own(5));
    refused(&mut open, 10, |b| b.start_guess(5));
    refused(&mut open, 10, |b| b.report_own(5, report(0, 9)));
    refused(&mut open, 10, |b| b.report_guess(5, report(0, 9)));
    refused(&mut open, 10, |b| b.settle(5));
    refused(&mut open, 10, |b| b.choose());

    let mut off = batch(0);
    refused(&mut off, 11, |b| b.start_own(4));
    refused(&mut off, 11, |b| b.start_guess(4));
    refused(&mut off, 11, |b| b.report_own(4, report(0, 9)));
    refused(&mut off, 11, |b| b.report_guess(u32::MAX, report(0, 9)));
    refused(&mut off, 11, |b| b.settle(4));
    refused(&mut off, 12, |b| b.start_guess(0));
    refused(&mut off, 12, |b| b.start_guess(1));
}

#[test]
fn refusals_13_to_15() {
    let mut on = batch(1);
    refused(&mut on, 13, |b| b.report_own(0, report(0, 9)));
    refused(&mut on, 13, |b| b.report_guess(1, report(0, 9)));
    refused(&mut on, 13, |b| b.settle(1));
    refused(&mut on, 14, |b| b.start_guess(0));
    refused(&mut on, 15, |b| b.start_own(1));
    // The writer before job 2 has no stored report: no guess, then one out.
    refused(&mut on, 15, |b| b.start_guess(2));
    on.start_guess(1).unwrap();
    refused(&mut on, 15, |b| b.start_guess(2));
    refused(&mut on, 13, |b| b.start_guess(1));
    refused(&mut on, 13, |b| b.settle(1));
    on.report_guess(1, report(1520, 0)).unwrap();
    refused(&mut on, 13, |b| b.report_guess(1, report(1520, 0)));
    refused(&mut on, 15, |b| b.settle(1));
    on.start_own(0).unwrap();
    refused(&mut on, 13, |b| b.start_own(0));
    refused(&mut on, 13, |b| b.start_guess(0));
    on.report_own(0, report(1501, 1)).unwrap();
    refused(&mut on, 13, |b| b.start_own(0));
    refused(&mut on, 13, |b| b.start_guess(0));
    refused(&mut on, 13, |b| b.report_own(0, report(0, 0)));
    refused(&mut on, 13, |b| b.settle(0));
    // The writer before job 2 has a stored report, and though its guess has fallen that
    // is taken.
    assert_eq!(on.ask_guess(1), Ok(3));
    assert_eq!(on.clone().start_guess(2), Ok([1520, 0, 0, 0]));
    on.start_own(1).unwrap();
    // Thrown away, it is none.
    refused(&mut on, 15, |b| b.start_guess(2));
    refused(&mut on, 13, |b| b.settle(1));
    refused(&mut on, 13, |b| b.report_guess(1, report(0, 0)));
}

#[test]
fn a_thrown_away_guess_that_was_still_out_cannot_report() {
    let mut on = batch(1);
    on.start_guess(1).unwrap();
    on.start_own(0).unwrap();
    on.report_own(0, report(1501, 1)).unwrap();
    on.start_own(1).unwrap();
    refused(&mut on, 13, |b| b.report_guess(1, report(0, 0)));
}

#[test]
fn refusals_16_to_18() {
    let mut on = batch(1);
    on.start_own(0).unwrap();
    refused(&mut on, 16, |b| b.report_own(0, report(0, 2)));
    on.start_own(3).unwrap();
    refused(&mut on, 16, |b| b.report_own(3, report(0, 1)));
    on.start_guess(1).unwrap();
    refused(&mut on, 16, |b| b.report_guess(1, report(0, 1)));

    // The guess of job 1 stands, out as well as stored.
    // So it does with mark 1 and the height that was there.
    for found in [report(0, 0), report(1500, 1)] {
        let mut stands = on.clone();
        stands.report_own(0, found).unwrap();
        refused(&mut stands, 17, |b| b.start_own(1));
        stands.report_guess(1, report(1520, 0)).unwrap();
        refused(&mut stands, 17, |b| b.start_own(1));
        stands.settle(1).unwrap();
        assert_eq!(stands.ask_cell(0), Ok(1520));
    }

    // It falls, and its report is still taken, but not settled.
    on.report_own(0, report(1501, 1)).unwrap();
    on.report_guess(1, report(1520, 0)).unwrap();
    refused(&mut on, 18, |b| b.settle(1));
    assert_eq!(on.start_own(1), Ok([1501, 0, 0, 0]));
}

#[test]
fn refusals_19_20_and_those_of_asking() {
    let mut none = Batch::open(&[3, 4]).unwrap();
    assert_eq!(none.ask_cell(1), Ok(4));
    refused(&mut none, 5, |b| b.ask_cell(2));
    refused(&mut none, 11, |b| b.ask_job(0));
    refused(&mut none, 11, |b| b.ask_guess(0));
    none.seal(1).unwrap();
    refused(&mut none, 19, |b| b.choose());

    let mut buffer = [9; 5];
    assert_eq!(none.copy_cells(&mut buffer, 4), Err(20));
    assert_eq!(none.copy_cells(&mut buffer, 6), Err(20));
    assert_eq!(none.copy_cells(&mut buffer, usize::MAX), Err(20));
    assert_eq!(buffer, [9; 5]);
    assert_eq!(none.copy_cells(&mut buffer, 3), Ok(()));
    assert_eq!(buffer, [9, 9, 9, 3, 4]);
}

// ---------------------------------------------------------------------------
// Plans

const SOUND: &str = "cell value\n0 1500\n1 1480\nkind p a b c\n4 1400 0 - -\n2 20 0 - -\n\
                     guess\n1\nstep job\n0 0\n1 1\n3 1\n2 0\n4 1\n";

fn told(plan: &str) -> String {
    String::from_utf8(answer(plan.as_bytes())).unwrap()
}

/// The sound plan with one piece changed is at fault with this number and line.
fn fault(from: &str, to: &str, number: u32, line: usize) {
    assert!(SOUND.contains(from), "{from:?} is no piece of the plan");
    let plan = SOUND.replacen(from, to, 1);
    assert_eq!(told(&plan), format!("fault line\n{number} {line}\n"), "{plan}");
}

fn fault_of(plan: &str, number: u32, line: usize) {
    assert_eq!(told(plan), format!("fault line\n{number} {line}\n"), "{plan}");
}

#[test]
fn faults_with_numbers_of_the_engine() {
    fault("0 1500\n1 1480\n", "", 1, 2);
    let many: String = (0..65).map(|cell| format!("{cell} 0\n")).collect();
    fault("0 1500\n1 1480\n", &many, 1, 67);
    let most: String = (0..64).map(|cell| format!("{cell} 0\n")).collect();
    assert!(told(&SOUND.replacen("0 1500\n1 1480\n", &most, 1)).starts_with("step answer\n"));
    // Line 67 is the names line of the jobs, and not in form.
    fault("0 1500\n1 1480\nkind", &format!("{many}Kind"), 21, 67);

    let jobs = "4 1400 0 - -\n".repeat(127);
    fault("4 1400 0 - -\n", &format!("{jobs}7 0 - - -\n"), 4, 132);
    let jobs = "4 1400 0 - -\n".repeat(128);
    fault("4 1400 0 - -\n2 20 0 - -\n", &format!("{jobs}7 0 - - -\n"), 3, 133);
    fault("4 1400 0 - -\n2 20 0 - -\n", &format!("{jobs}0 0 0 - -\n"), 21, 133);

    fault("4 1400 0 - -", "4 1400 - - -", 4, 5);
    fault("4 1400 0 - -", "9 1400 - - -", 4, 5);
    fault("4 1400 0 - -", "4 1400 2 - -", 5, 5);
    fault("4 1400 0 - -", "9 1400 1 1 2", 5, 5);
    fault("4 1400 0 - -", "9 1400 1 1 -", 7, 5);
    fault("4 1400 0 - -", "7 1400 1 - -", 8, 5);
    fault("4 1400 0 - -", "4 1400 1 0 -", 8, 5);
    fault("4 1400 0 - -", "3 1400 1 - -", 8, 5);
    fault("guess\n1\n", "guess\n2\n", 9, 8);
    // Cut to a byte these would be right.
    fault("guess\n1\n", "guess\n256\n", 9, 8);
    fault("guess\n1\n", "guess\n257\n", 9, 8);
    fault("4 1400 0 - -", "4 1400 256 - -", 5, 5);
    fault("4 1400 0 - -", "260 1400 0 - -", 8, 5);
}

#[test]
fn lines_not_in_form() {
    fault("cell value\n", "cell  value\n", 21, 1);
    fault("cell value\n", "cell value\r\n", 21, 1);
    fault("0 1500\n", "1 1500\n", 21, 2);
    fault("1 1480\n", "2 1480\n", 21, 3);
    fault("0 1500\n", "0 01500\n", 21, 2);
    fault("0 1500\n", "0 -0\n", 21, 2);
    fault("0 1500\n", "-0 1500\n", 21, 2);
    fault("0 1500\n", "0 +1500\n", 21, 2);
    fault("0 1500\n", "0 2147483648\n", 21, 2);
    fault("0 1500\n", "0 -2147483649\n", 21, 2);
    fault("0 1500\n", "0 99999999999999999999999999\n", 21, 2);
    fault("0 1500\n", "0 1500 \n", 21, 2);
    fault("0 1500\n", " 0 1500\n", 21, 2);
    fault("0 1500\n", "0 -\n", 21, 2);
    fault("0 1500\n", "0\n", 21, 2);
    fault("0 1500\n", "\n", 21, 2);
    fault("4 1400 0 - -", "0 1400 0 - -", 21, 5);
    fault("4 1400 0 - -", "-4 1400 0 - -", 21, 5);
    fault("4 1400 0 - -", "4 1400 - 0 -", 21, 5);
    fault("4 1400 0 - -", "4 1400 -1 - -", 21, 5);
    fault("4 1400 0 - -", "4 1400 0 -", 21, 5);
    fault("4 1400 0 - -", "4 1400 0 - - -", 21, 5);
    fault("4 1400 0 - -", "4 1400 0 0 -2", 21, 5);
    fault("guess\n1\n", "guess\n", 21, 8);
    fault("guess\n1\n", "guess\n-1\n", 21, 8);
    fault("guess\n1\n", "guess\n1\n1\n", 21, 9);
    fault("guess\n1\n", "1\n", 21, 7);
    fault("4 1\n", "5 1\n", 21, 14);
    fault("4 1\n", "4 -1\n", 21, 14);
    fault("4 1\n", "4 2147483648\n", 21, 14);
    fault("4 1\n", "4 1\n\n", 21, 15);
    fault("step job", "step answer", 21, 9);
}

#[test]
fn the_first_faulty_line_decides() {
    fault("1 1480\nkind p a b c\n4 1400 0", "1 1480\nkind p a b c\n4 1400 7", 5, 5);
    let plan = SOUND.replacen("4 1400 0", "4 1400 7", 1).replacen("\n1\nstep", "\nx\nstep", 1);
    fault_of(&plan, 5, 5);
}

#[test]
fn input_that_ends_too_soon() {
    fault_of("", 21, 1);
    fault_of("\n", 21, 1);
    fault_of("cell value\n", 21, 2);
    fault_of("cell value\n0 1500\n", 21, 3);
    fault_of("cell value\nkind p a b c\n", 1, 2);
    fault_of("cell value\n0 1500\nkind p a b c\n", 21, 4);
    fault_of("cell value\n0 1500\nkind p a b c\nguess\n", 21, 5);
    fault_of("cell value\n0 1500\nkind p a b c\nguess\n1\n", 21, 6);
    // A last line without its line feed.
    fault_of("cell value", 21, 1);
    fault_of("cell value\n0 1500\nkind p a b c\nguess\n2", 21, 5);
    fault_of("cell value\n0 1500\nkind p a b c\nguess\n1\nstep job", 21, 6);
    fault("4 1\n", "4 1", 21, 14);
}

#[test]
fn the_shortest_plan() {
    let plan = "cell value\n0 -2147483648\nkind p a b c\nguess\n0\nstep job\n";
    let output = "step answer\njob how mark\ncell value\n0 -2147483648\n";
    assert_eq!(told(plan), output);
}

#[test]
fn steps_are_tried_after_a_refusal() {
    let plan = SOUND.replacen("0 0\n1 1", "0 2\n3 2147483647\n0 0\n1 1", 1);
    let output = "step answer\n0 11\n3 11\n0 0\n1 0\n3 0\n2 0\n4 0\njob how mark\n0 1 0\n1 2 0\n\
                  cell value\n0 1520\n1 1480\n";
    assert_eq!(told(&plan), output);
}

#[test]
fn refusal_22() {
    let mut plan = SOUND.to_string();
    while plan.len() + 8 <= 65_536 {
        plan += "4 1\n";
    }
    let digits: String = "1234".chars().take(65_536 - plan.len() - 3).collect();
    plan += &format!("4 {digits}\n");
    assert_eq!(plan.len(), 65_536);
    assert!(told(&plan).starts_with("step answer\n"));
    plan += "4 1\n";
    fault_of(&plan, 22, 0);
    fault_of(&"x".repeat(65_537), 22, 0);
    fault_of(&"x".repeat(65_536), 21, 1);
}

/// R153, R120.
#[test]
fn refusal_20_of_a_lent_plan() {
    for size in [0, 1, ANSWER_PLACES - 1] {
        let mut buffer = vec![7; size];
        assert_eq!(answer_plan(SOUND.as_bytes(), &mut buffer), (20, 0));
        assert_eq!(answer_plan(&[b'x'; 65_537], &mut buffer), (20, 0));
        assert_eq!(buffer, vec![7; size]);
    }
    for size in [ANSWER_PLACES, ANSWER_PLACES + 5] {
        let mut buffer = vec![7; size];
        let due = told(SOUND);
        assert_eq!(answer_plan(SOUND.as_bytes(), &mut buffer), (0, due.len()));
        assert_eq!(buffer[..due.len()], *due.as_bytes());
        assert_eq!(buffer[due.len()..], vec![7; size - due.len()]);
    }
}

/// The shortest step lines with the longest answers: 5 bytes for 4. Other lines give
/// less for their length, but for the heights of at most 64 cells, which may grow by
/// 10 bytes each. So no answer fills R153's buffer by far.
#[test]
fn a_long_answer() {
    let mut plan = String::from("cell value\n0 1234\nkind p a b c\nguess\n0\nstep job\n");
    let steps = (65_536 - plan.len()) / 4;
    plan += &"0 0\n".repeat(steps);
    assert_eq!(plan.len(), 65_536);
    let longest = 12 + 5 * steps + 13 + 11 + 7;
    assert_eq!((told(&plan).len(), longest), (81_903, 81_903));
    assert!(4 * (longest + 64 * 10) < ANSWER_PLACES);
}
