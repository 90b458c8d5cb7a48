//! Masters and overrides: an override is a VEVENT with a RECURRENCE-ID; it replaces an instance
//! of its master, the VEVENT without one that has its UID. The rules between them.

use crate::events::Meaning;
use crate::time::Time;
use crate::Breach;

/// The VEVENTs of a calendar that have UIDs, whether they break rules by themselves or not.
#[derive(Default)]
pub struct Series<'a> {
    masters: Vec<Uid<'a>>,
    overrides: Vec<Override<'a>>,
}

/// A UID of a master and the number of its component.
type Uid<'a> = (&'a [u8], usize);

/// An override, by its UID and what it replaces.
struct Override<'a> {
    uid: &'a [u8],
    instance: Time,
    component: usize,
}

impl<'a> Series<'a> {
    /// Adds a UID of a VEVENT, of which a RECURRENCE-ID makes an override.
    pub fn add(&mut self, uid: &'a [u8], recurrence: Option<Time>, component: usize) {
        match recurrence {
            None => self.masters.push((uid, component)),
            Some(instance) => self.overrides.push(Override { uid, instance, component }),
        }
    }

    /// Sorts by UIDs, so that what has one UID stands together, in file order where it clashes.
    pub fn sort(&mut self) {
        self.masters.sort_unstable();
        self.overrides.sort_unstable_by_key(|o| (o.uid, o.instance.second, o.component));
    }

    /// The first component that breaks a rule beside others, and which.
    pub fn first_breach(&self, meanings: &[Meaning]) -> Option<(usize, Breach)> {
        let shared = self.masters.windows(2).filter(|two| two[0].0 == two[1].0 && two[0].1 != two[1].1);
        let again = self.overrides.windows(2).filter(|two| two[0].names_same(&two[1]));
        let misfits = self.overrides.iter().filter_map(|o| Some((o.component, self.misfit(o, meanings)?)));
        let shared = shared.map(|two| (two[1].1, Breach::SharedUid));
        let again = again.map(|two| (two[1].component, Breach::SameSecond));
        shared.chain(again).chain(misfits).min_by_key(|&(component, _)| component)
    }

    /// What is wrong with an override beside its master. Nothing is asked of a master that
    /// breaks a rule by itself, whose meaning is `Other`.
    fn misfit(&self, o: &Override, meanings: &[Meaning]) -> Option<Breach> {
        let Some(master) = self.master(o.uid) else {
            return Some(Breach::NoMaster);
        };
        let Meaning::Event(master) = &meanings[master] else {
            return None;
        };
        if master.kind() != o.instance.kind {
            return Some(Breach::OverrideKind);
        }
        match master.number_at(o.instance.second) {
            None => Some(Breach::NoInstance),
            Some(number) if master.is_removed(number) => Some(Breach::Excluded),
            Some(_) => None,
        }
    }

    /// The first master that has the UID on any line.
    fn master(&self, uid: &[u8]) -> Option<usize> {
        let first = self.masters.partition_point(|&(other, _)| other < uid);
        self.masters.get(first).filter(|(other, _)| *other == uid).map(|&(_, component)| component)
    }

    /// Takes away from every master the instances that its overrides replace.
    pub fn replace(&self, meanings: &mut [Meaning]) {
        for of_one in self.overrides.chunk_by(|a, b| a.uid == b.uid) {
            let master = self.master(of_one[0].uid).map(|number| &mut meanings[number]);
            if let Some(Meaning::Event(master)) = master {
                master.remove(of_one.iter().map(|o| o.instance.second));
            }
        }
    }
}

impl Override<'_> {
    /// Whether both name one second of one UID, of whatever kinds.
    fn names_same(&self, other: &Self) -> bool {
        (self.uid, self.instance.second) == (other.uid, other.instance.second)
    }
}
