//! What a run has met: under a heading, of each sort, and by a number where there is one, such as a
//! modulus, a key length, an account or a seat.

use std::collections::BTreeMap;

#[derive(Default)]
pub struct Counts(BTreeMap<(&'static str, String, u32), u64>);

/// What must be met under a heading: each sort with each number.
pub struct Due {
    pub heading: &'static str,
    pub sorts: Vec<String>,
    pub numbers: Vec<u32>,
}

/// Up to so many counts of one kind are printed each by itself; of more their sum, and how many of
/// them there are.
const PRINTED: usize = 8;

impl Counts {
    pub fn add(&mut self, heading: &'static str, sort: impl Into<String>, number: u32) {
        *self.0.entry((heading, sort.into(), number)).or_default() += 1;
    }

    /// Counts those of the sorts that are met.
    pub fn add_met(&mut self, heading: &'static str, sorts: &[&str], is: &[bool], number: u32) {
        for (sort, _) in sorts.iter().zip(is).filter(|(_, is)| **is) {
            self.add(heading, *sort, number);
        }
    }

    fn times(&self, heading: &'static str, sort: &str, number: u32) -> u64 {
        let key = (heading, sort.into(), number);
        self.0.get(&key).copied().unwrap_or_default()
    }

    /// Prints how often what is due was met, and gives what never was.
    pub fn lines(&self, due: &Due) -> Vec<String> {
        if due.numbers == [0] {
            return self.line_of_sorts(due);
        }
        println!("{}", due.heading);
        let mut missed = Vec::new();
        for sort in &due.sorts {
            let times = |number: &u32| self.times(due.heading, sort, *number);
            let counts: Vec<u64> = due.numbers.iter().map(times).collect();
            println!("  {sort}: {}", summed(&counts, "at"));
            let never: Vec<&u32> = due.numbers.iter().filter(|at| times(at) == 0).collect();
            if !never.is_empty() {
                missed.push(format!("{}: {sort} at {never:?}", due.heading));
            }
        }
        missed
    }

    /// The same for what goes by no number.
    fn line_of_sorts(&self, due: &Due) -> Vec<String> {
        let times = |sort: &String| self.times(due.heading, sort, 0);
        let line = if due.sorts.len() > PRINTED {
            let counts: Vec<u64> = due.sorts.iter().map(times).collect();
            format!("{} sorts", summed(&counts, "in"))
        } else {
            let each = |sort: &String| format!("{sort}: {}", times(sort));
            let counts: Vec<String> = due.sorts.iter().map(each).collect();
            counts.join(", ")
        };
        println!("{} {line}", due.heading);
        let never = due.sorts.iter().filter(|sort| times(sort) == 0);
        never
            .map(|sort| format!("{}: {sort}", due.heading))
            .collect()
    }
}

fn summed(counts: &[u64], where_met: &str) -> String {
    if counts.len() <= PRINTED {
        let each: Vec<String> = counts.iter().map(u64::to_string).collect();
        return each.join(" ");
    }
    let all: u64 = counts.iter().sum();
    let met = counts.iter().filter(|times| **times > 0).count();
    format!("{all} {where_met} {met} of {}", counts.len())
}
