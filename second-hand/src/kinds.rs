//! The kinds, R10 to R18.

use crate::engine::{Report, MAYBE, READ, WRITE};

/// The modes of a kind's accesses in order (R12 to R17). None for kind 0, which
/// may have any (R11), and for numbers that are no kind.
pub fn modes(kind: u32) -> Option<&'static [u32]> {
    match kind {
        1 => Some(&[WRITE]),             // set
        2 => Some(&[WRITE]),             // shift
        3 => Some(&[MAYBE, READ]),       // spike
        4 => Some(&[MAYBE]),             // floor
        5 => Some(&[WRITE, READ, READ]), // mean
        6 => Some(&[MAYBE, MAYBE]),      // pair
        _ => None,
    }
}

/// R10: what a job of this kind reports when it is handed these values: all four
/// of them, with those changed that the kind changes. R108: the kind is not 1 to 6.
pub fn result(kind: u32, p: i32, handed: [i32; 4]) -> Result<Report, u32> {
    // All sums and distances are taken in 64 bits and so are exact. A spike's
    // distance does not always fit 32 bits.
    let a = i64::from(handed[0]);
    let b = i64::from(handed[1]);
    let c = i64::from(handed[2]);
    let wide_p = i64::from(p);

    let mut values = handed;
    let mut mark = 0;
    match kind {
        // R12, set
        1 => values[0] = p,
        // R13, shift: held at the end of the range that it would pass
        2 => {
            let sum = a + wide_p;
            let held = sum.clamp(i64::from(i32::MIN), i64::from(i32::MAX));
            values[0] = held as i32;
        }
        // R14, spike: more than p apart; with p below 0 that is always so
        3 => {
            if (a - b).abs() > wide_p {
                values[0] = handed[1];
                mark = 1;
            }
        }
        // R15, floor
        4 => {
            if a < wide_p {
                values[0] = p;
                mark = 1;
            }
        }
        // R16, mean: a half goes away from zero. Division drops the half, and what
        // it leaves over, -1, 0 or 1, has the sum's sign. The mean of two heights
        // is never past an end of the range, and so fits.
        5 => {
            let sum = b + c;
            values[0] = (sum / 2 + sum % 2) as i32;
        }
        // R17, pair
        6 => {
            if a > b {
                values[0] = handed[1];
                values[1] = handed[0];
                mark = 1;
            }
        }
        _ => return Err(8),
    }
    Ok(Report { values, mark })
}

/// R18: a kind's result asked for by itself: 0 and the report, or the refusal, and
/// then the values as they were and mark 0.
pub fn ask_result(kind: u32, p: i32, values: [i32; 4]) -> (u32, Report) {
    match result(kind, p, values) {
        Ok(report) => (0, report),
        Err(refusal) => (refusal, Report { values, mark: 0 }),
    }
}
