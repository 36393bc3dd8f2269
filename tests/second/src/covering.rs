//! A cover's rule. The book and the accounts figure by it, each from its own
//! lots, shortages and open year.

use crate::figuring::{is_live, is_open, Mg, FIRST_YEAR, YEARS};
use crate::postings::{Application, Cover};

/// The applications that pay the oldest open shortage from the oldest live lot
/// until either kind is used up, in order.
pub fn oldest_first(
    cover: &Cover,
    open_year: u64,
    mut lots: [Mg; YEARS],
    mut shortages: [Mg; YEARS],
) -> Vec<Application> {
    let &Cover { maker, set } = cover;
    let mut applications = Vec::new();
    while let (Some(paying), Some(paid)) = (
        oldest(&lots, |vintage| is_live(open_year, vintage)),
        oldest(&shortages, |year| is_open(open_year, year)),
    ) {
        let (lot, shortage) = (&mut lots[paying].0, &mut shortages[paid].0);
        let mg = (*lot).min(*shortage);
        *lot -= mg;
        *shortage -= mg;
        applications.push(Application {
            maker,
            set,
            vintage: FIRST_YEAR + paying as u64,
            year: FIRST_YEAR + paid as u64,
            mg,
        });
    }
    applications
}

/// The place of the first year that is wanted and has something.
fn oldest(figures: &[Mg; YEARS], wanted: impl Fn(u64) -> bool) -> Option<usize> {
    let mut years = (FIRST_YEAR..).zip(figures);
    years.position(|(year, &mg)| wanted(year) && mg > Mg(0))
}
