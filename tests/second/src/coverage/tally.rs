//! Counts by family and member, the members named beforehand so that what was never reached shows as 0.

use std::fmt;

#[derive(Default)]
pub struct Tally {
    families: Vec<Family>,
}

struct Family {
    title: &'static str,
    members: Vec<(String, u64)>,
}

/// A family with more members than this is printed as one line.
const MOST_PRINTED: usize = 12;

impl Tally {
    pub fn expect<M: ToString>(&mut self, title: &'static str, members: impl IntoIterator<Item = M>) {
        let members = members.into_iter().map(|member| (member.to_string(), 0)).collect();
        self.families.push(Family { title, members });
    }

    /// Panics where the family or member was not named beforehand: it should not have been reached.
    pub fn count(&mut self, title: &str, member: impl ToString) {
        let member = member.to_string();
        let family = self.families.iter_mut().find(|family| family.title == title);
        let members = family.map(|family| &mut family.members).unwrap_or_else(|| panic!("no family {title:?}"));
        let found = members.iter_mut().find(|(name, _)| *name == member);
        found.unwrap_or_else(|| panic!("{title}: {member:?} is not expected")).1 += 1;
    }

    pub fn count_if(&mut self, condition: bool, title: &str, member: impl ToString) {
        if condition {
            self.count(title, member);
        }
    }

    /// How many members were never reached.
    pub fn zeros(&self) -> usize {
        self.members().filter(|(_, count)| *count == 0).count()
    }

    pub fn summary(&self) -> String {
        let least = self.members().map(|(_, count)| *count).min().unwrap_or_default();
        format!("{} counts, {} of them 0, the least {least}", self.members().count(), self.zeros())
    }

    fn members(&self) -> impl Iterator<Item = &(String, u64)> {
        self.families.iter().flat_map(|family| &family.members)
    }
}

impl fmt::Display for Tally {
    fn fmt(&self, out: &mut fmt::Formatter) -> fmt::Result {
        for Family { title, members } in &self.families {
            writeln!(out, "{title}")?;
            if members.len() <= MOST_PRINTED {
                for (member, count) in members {
                    writeln!(out, "{count:>10}  {member}")?;
                }
                continue;
            }
            let reached = members.iter().filter(|(_, count)| *count > 0).count();
            let (least, count) = members.iter().min_by_key(|(_, count)| *count).expect("members");
            writeln!(out, "{count:>10}  least, of {least}; {reached} of {} reached", members.len())?;
            for (member, _) in members.iter().filter(|(_, count)| *count == 0) {
                writeln!(out, "{:>10}  {member}", 0)?;
            }
        }
        Ok(())
    }
}
