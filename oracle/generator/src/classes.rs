//! Lists of random jobs with at most a few of each class, so that every kind of run is there.

use std::collections::BTreeMap;

use jobs::Job;

use super::random::Shape;
use super::rng::Rng;

/// What a list is made of.
pub struct Recipe<'a> {
    /// A job of a shape.
    pub make: fn(&mut Rng, &Shape) -> Job,
    /// One job in so many has the wide shape, the others the small one.
    pub wide_every: usize,
    pub wide: &'a Shape,
    pub small: &'a Shape,
    /// Programs that lend memory lend by the limit: it is kept small.
    pub largest_limit: usize,
}

/// A list, or why it cannot be had.
pub type List = Result<Vec<Job>, String>;

/// After so many jobs in a row that are not taken, every class that the recipe makes counts as full.
const MOST_PASSED_OVER: usize = 100_000;

/// `class` says what a job is, and how many of the kind are taken.
pub fn list(seed: u64, count: usize, recipe: &Recipe, class: fn(&Job) -> (String, usize)) -> List {
    let mut rng = Rng::new(seed);
    let mut taken: BTreeMap<String, usize> = BTreeMap::new();
    let mut list = Vec::new();
    let mut passed_over = 0;
    while list.len() < count {
        if passed_over == MOST_PASSED_OVER {
            let had = list.len();
            return Err(format!(
                "only {had} of {count} random jobs: the {passed_over} after them are of classes that are full"
            ));
        }
        let wide = list.len() % recipe.wide_every == recipe.wide_every - 1;
        let shape = if wide { recipe.wide } else { recipe.small };
        let mut job = (recipe.make)(&mut rng, shape);
        job.options.limit = job.options.limit.min(recipe.largest_limit);
        let (class, most) = class(&job);
        let of_class = taken.entry(class).or_default();
        if *of_class < most {
            *of_class += 1;
            list.push(job);
            passed_over = 0;
        } else {
            passed_over += 1;
        }
    }
    Ok(list)
}
