//! Lanes for the lines of dependences, so that no two lines from different jobs run along each other.

use crate::dependence::{Arrow, Link};

pub struct Lanes {
    pub count: usize,
    /// The lane of each arrow, counted from the chart's side.
    pub of_arrow: Vec<usize>,
}

/// The arrows of one sort from one job share a lane, from that job to the last that it leads to.
struct Bundle {
    earlier: usize,
    link: Link,
    last: usize,
}

pub fn of(arrows: &[Arrow]) -> Lanes {
    let mut bundles: Vec<Bundle> = Vec::new();
    for arrow in arrows {
        match bundles.iter_mut().find(|bundle| bundle.earlier == arrow.earlier && bundle.link == arrow.link) {
            Some(bundle) => bundle.last = bundle.last.max(arrow.later),
            None => bundles.push(Bundle { earlier: arrow.earlier, link: arrow.link, last: arrow.later }),
        }
    }
    // Short ones first, so that they stay near the chart.
    bundles.sort_by_key(|bundle| (bundle.last - bundle.earlier, bundle.earlier));
    let mut lanes: Vec<Vec<(usize, usize)>> = Vec::new();
    let mut placed = Vec::new();
    for bundle in bundles {
        let free = |lane: &Vec<(usize, usize)>| lane.iter().all(|&(from, to)| to <= bundle.earlier || bundle.last <= from);
        let lane = lanes.iter().position(free).unwrap_or(lanes.len());
        if lane == lanes.len() {
            lanes.push(Vec::new());
        }
        if let Some(taken) = lanes.get_mut(lane) {
            taken.push((bundle.earlier, bundle.last));
        }
        placed.push((bundle.earlier, bundle.link, lane));
    }
    let lane_of = |arrow: &Arrow| placed.iter().find(|(earlier, link, _)| *earlier == arrow.earlier && *link == arrow.link);
    Lanes { count: lanes.len(), of_arrow: arrows.iter().map(|arrow| lane_of(arrow).map_or(0, |found| found.2)).collect() }
}

#[cfg(test)]
mod tests {
    use super::*;

    #[test]
    fn lines_from_different_jobs_never_share_a_stretch() {
        let arrow = |earlier, later| Arrow { earlier, later, link: Link::Writes };
        let arrows = [arrow(0, 1), arrow(0, 4), arrow(1, 2), arrow(1, 3), arrow(3, 5), arrow(4, 6)];
        let lanes = of(&arrows);
        assert_eq!(lanes.of_arrow[0], lanes.of_arrow[1]);
        for (a, lane) in arrows.iter().zip(&lanes.of_arrow) {
            for (b, other) in arrows.iter().zip(&lanes.of_arrow) {
                let apart = a.later <= b.earlier || b.later <= a.earlier;
                assert!(a.earlier == b.earlier || lane != other || apart, "{a:?} {b:?}");
            }
        }
    }
}
