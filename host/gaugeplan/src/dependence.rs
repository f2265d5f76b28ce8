//! Which jobs wait for which (R20), as the library tells it and not by a rule written once more: in a batch of the plan's
//! cells with just two of its jobs, the second one's own run is refused with 15 exactly where they conflict.

use crate::plan::{Contradiction, Plan};
use sorghemi::{Batch, Refusal};

/// What the earlier of two jobs that conflict does with what they share, as far as a guess of the later one minds.
#[derive(Clone, Copy, Debug, PartialEq, Eq)]
pub enum Link {
    /// It writes: a guess takes its value.
    Writes,
    /// It maybe-writes: a guess looks past it.
    MaybeWrites,
    /// It only reads: a guess passes it over, and is settled after it.
    Reads,
}

/// An arrow from an earlier to a later job.
#[derive(Clone, Copy, Debug, PartialEq, Eq)]
pub struct Arrow {
    pub earlier: usize,
    pub later: usize,
    pub link: Link,
}

/// All conflicts of a plan's jobs.
#[derive(Debug)]
pub struct Dependences {
    /// For each job its links to the earlier ones, by their numbers.
    links: Vec<Vec<Option<Link>>>,
}

/// Asks the library about each two jobs.
pub fn of(plan: &Plan) -> Result<Dependences, Contradiction> {
    let mut links: Vec<Vec<Option<Link>>> = plan.jobs.iter().map(|_| Vec::new()).collect();
    for (earlier, job) in plan.jobs.iter().enumerate() {
        let mut alone = Batch::open(&plan.heights)?;
        alone.insert(*job)?;
        for (later, other) in links.iter_mut().zip(&plan.jobs).skip(earlier + 1) {
            let mut two = alone.clone();
            two.insert(*other)?;
            later.push(link(two)?);
        }
    }
    Ok(Dependences { links })
}

/// How job 1 of the batch waits for job 0, if it does.
fn link(mut two: Batch) -> Result<Option<Link>, Refusal> {
    two.seal(true)?;
    match two.start_own(1) {
        Ok(_) => return Ok(None),
        Err(Refusal::MUST_WAIT) => {}
        Err(other) => return Err(other),
    }
    match two.start_speculation(1) {
        Err(Refusal::MUST_WAIT) => Ok(Some(Link::Writes)),
        Err(other) => Err(other),
        Ok(_) if two.record().runs[1].bypassed.low & 1 == 1 => Ok(Some(Link::MaybeWrites)),
        Ok(_) => Ok(Some(Link::Reads)),
    }
}

impl Dependences {
    /// The earlier jobs that the job conflicts with.
    pub fn before(&self, job: usize) -> impl Iterator<Item = (usize, Link)> + '_ {
        let links = self.links.get(job).into_iter().flatten().enumerate();
        links.filter_map(|(earlier, link)| Some((earlier, (*link)?)))
    }

    /// The arrows that no chain of others implies: from job a to c none where one leads from a to b and on from b to c.
    pub fn reduced(&self) -> Vec<Arrow> {
        let mut arrows = Vec::new();
        // For each job the set of those from which a chain leads to it.
        let mut reached: Vec<u128> = Vec::new();
        for later in 0..self.links.len() {
            let mut set = 0;
            let mut links: Vec<(usize, Link)> = self.before(later).collect();
            // The nearest first: a chain goes through jobs in between.
            links.reverse();
            for (earlier, link) in links {
                if set >> earlier & 1 == 0 {
                    set |= 1 << earlier | reached.get(earlier).copied().unwrap_or_default();
                    arrows.push(Arrow { earlier, later, link });
                }
            }
            reached.push(set);
        }
        arrows.sort_by_key(|arrow| (arrow.earlier, arrow.later));
        arrows
    }
}

#[cfg(test)]
mod tests {
    use super::*;
    use sorghemi::Job;

    fn plan(jobs: &[Job]) -> Plan {
        Plan { heights: vec![1500; 6], jobs: jobs.to_vec(), guessing: true, steps: Vec::new(), lines_before_steps: 0 }
    }

    #[test]
    fn links_are_those_of_the_modes() {
        let jobs = [Job::floor(0, 1), Job::shift(0, 1), Job::mean(1, 0, 2), Job::shift(2, 1), Job::shift(3, 1)];
        let links = of(&plan(&jobs)).unwrap();
        let before = |job| links.before(job).collect::<Vec<_>>();
        assert_eq!(before(0), []);
        assert_eq!(before(1), [(0, Link::MaybeWrites)]);
        assert_eq!(before(2), [(0, Link::MaybeWrites), (1, Link::Writes)]);
        assert_eq!(before(3), [(2, Link::Reads)]);
        assert_eq!(before(4), []);
    }

    #[test]
    fn implied_arrows_are_left_out() {
        let jobs = [Job::floor(0, 1), Job::shift(0, 1), Job::mean(1, 0, 2), Job::shift(2, 1)];
        let arrows = of(&plan(&jobs)).unwrap().reduced();
        let ends: Vec<_> = arrows.iter().map(|arrow| (arrow.earlier, arrow.later)).collect();
        assert_eq!(ends, [(0, 1), (1, 2), (2, 3)]);
    }
}
