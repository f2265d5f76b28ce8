//! What the signs of a picture mean; only those that it has.

use super::rows::{Fate, Rows};
use super::sheet::Sheet;
use super::svg::{self, n, text, SMALL};
use crate::dependence::{Arrow, Link};

#[derive(Clone, Copy, PartialEq, Eq)]
pub enum Sign {
    Own,
    Guess(Fate),
    Mark(bool),
    Fall,
    Refusal,
    Link(Link),
}

pub struct Item {
    sign: Sign,
    words: &'static str,
}

const SIGN: f64 = 52.0;

pub fn of(rows: &Rows, arrows: &[Arrow], is_narrow: bool) -> Vec<Item> {
    let refusal = if is_narrow {
        "refused step; a stroke where its number has no room"
    } else {
        "refused step, with the number of its refusal"
    };
    let all = [
        (Sign::Own, "own run, from start to report"),
        (Sign::Guess(Fate::Kept), "guess kept: out, then stored until settled"),
        (Sign::Guess(Fate::Lost), "guess lost: it fell, and was run in vain"),
        (Sign::Guess(Fate::Open), "guess neither kept nor lost at the end"),
        (Sign::Fall, "here the guess fell, by the job at the line's other end"),
        (Sign::Mark(false), "settled with mark 0"),
        (Sign::Mark(true), "settled with mark 1: it wrote what it maybe-writes"),
        (Sign::Refusal, refusal),
        (Sign::Link(Link::Writes), "waits for a job that writes one of its cells"),
        (Sign::Link(Link::MaybeWrites), "waits for a job that only maybe-writes one"),
        (Sign::Link(Link::Reads), "waits for a job that only reads what it writes"),
    ];
    all.into_iter().filter(|(sign, _)| occurs(*sign, rows, arrows)).map(|(sign, words)| Item { sign, words }).collect()
}

fn occurs(sign: Sign, rows: &Rows, arrows: &[Arrow]) -> bool {
    let mut jobs = rows.jobs.iter();
    match sign {
        Sign::Own => jobs.any(|row| row.own.is_some()),
        Sign::Guess(fate) => jobs.any(|row| row.guess.as_ref().is_some_and(|guess| guess.fate == fate)),
        Sign::Fall => jobs.any(|row| row.guess.as_ref().is_some_and(|guess| guess.fell.is_some())),
        Sign::Mark(mark) => jobs.any(|row| row.settled.is_some_and(|(_, one)| one == mark)),
        Sign::Refusal => jobs.any(|row| !row.refused.is_empty()) || !rows.strays.is_empty(),
        Sign::Link(link) => arrows.iter().any(|arrow| arrow.link == link),
    }
}

fn item_width(items: &[Item]) -> f64 {
    items.iter().map(|item| svg::width(item.words, SMALL)).fold(0.0, f64::max) + SIGN + 28.0
}

fn columns(items: &[Item], width: f64) -> usize {
    ((width / item_width(items)) as usize).clamp(1, items.len().max(1))
}

/// How many lines the legend takes on a sheet of this width.
pub fn rows(items: &[Item], width: f64) -> usize {
    items.len().div_ceil(columns(items, width))
}

pub fn drawn(items: &[Item], sheet: &Sheet) -> String {
    let rows = rows(items, sheet.page_width()).max(1);
    let mut body = String::new();
    for (place, item) in items.iter().enumerate() {
        let x = sheet.left + (place / rows) as f64 * item_width(items);
        let y = sheet.legend_y + (place % rows) as f64 * 20.0;
        body += &sign(item.sign, x, y);
        body += &text(x + SIGN + 8.0, y + 4.0, "small", item.words);
    }
    body
}

fn sign(sign: Sign, x: f64, y: f64) -> String {
    match sign {
        Sign::Own => svg::rect("own", x, y - 7.0, SIGN, 14.0),
        Sign::Guess(fate) => {
            let class = match fate {
                Fate::Kept => "kept",
                Fate::Lost => "lost",
                Fate::Open => "open",
            };
            svg::rect(class, x + 26.0, y - 3.5, 26.0, 7.0) + &svg::rect(class, x, y - 7.0, 26.0, 14.0)
        }
        Sign::Mark(mark) => svg::mark(x + SIGN / 2.0, y, 8.0, mark),
        Sign::Fall => {
            let line = format!("M{} {}H{}", n(x + 6.0), n(y), n(x + SIGN / 2.0));
            svg::path("fall", &line) + &svg::cross(x + SIGN / 2.0, y, 8.0)
        }
        Sign::Refusal => svg::refusal(x + SIGN / 2.0, y, 15),
        Sign::Link(link) => {
            let line = format!("M{} {}H{}", n(x + 4.0), n(y), n(x + SIGN - 6.0));
            svg::path(svg::link_class(link), &line) + &svg::path("head", &format!("M{} {}l-6 -3v6z", n(x + SIGN - 2.0), n(y)))
        }
    }
}
