//! How often the compared inputs meet what document 02's A.10 brings: moments in the middle of runs
//! at which the table is judged, and those of them that tell its rule from others that are near it.

use crate::command::Kind;
use crate::host::Host;
use crate::image::{self, RECORD};
use crate::run::Run;
use crate::script::List;
use crate::serial;
use crate::store::Store;

named! {
    /// A moment at which the lists are held against the serial run.
    Moment:
    Middle "moments with some commands written and others not",
    Passed "moments with an earlier command not written, and not the table up to the last written",
    Loaded "moments without the table of all loaded commands",
    FromEntries "moments of runs opened from entries, with some commands written and others not",
    BehindCheckpoint "moments behind a checkpoint and before the end, without the image's table",
    BehindChange "moments with a worker change written and a command behind it not",
}

/// Counts of all that is named above.
#[derive(Clone, Debug, PartialEq, Eq)]
pub struct Moments {
    counts: [u64; Moment::ALL.len()],
}

impl Default for Moments {
    fn default() -> Moments {
        Moments {
            counts: [0; Moment::ALL.len()],
        }
    }
}

impl Moments {
    /// All met so often, for tests.
    #[cfg(test)]
    pub fn met(times: u64) -> Moments {
        Moments {
            counts: [times; Moment::ALL.len()],
        }
    }

    pub fn add(&mut self, other: &Moments) {
        let counts = self.counts.iter_mut().zip(other.counts);
        counts.for_each(|(count, more)| *count += more);
    }

    /// A line for each, with how often it was met.
    pub fn lines(&self) -> impl Iterator<Item = String> {
        let moments = Moment::ALL.iter().zip(self.counts);
        moments.map(|(moment, count)| format!("{}: {count}", moment.name()))
    }

    pub fn lacks_any(&self) -> bool {
        self.counts.contains(&0)
    }

    pub fn count(&self, moment: Moment) -> u64 {
        self.counts[moment as usize]
    }

    fn note(&mut self, moment: Moment, met: bool) {
        self.counts[moment as usize] += u64::from(met);
    }

    /// Notes how a caller's lists stand when they are judged.
    pub fn note_judged(&mut self, host: &Host) {
        let Some(run) = host.run() else { return };
        let places = 1..=run.commands.len();
        let written = serial::written(&run.answers);
        let last = places.clone().rfind(|place| written(*place));
        let open = places.clone().find(|place| !written(*place));
        let middle = last.is_some() && open.is_some();
        self.note(Moment::Middle, middle);
        self.note(Moment::FromEntries, middle && !host.entries().is_empty());
        let up_to = |most: usize| {
            let (room, commands) = (run.settings.room, &run.commands);
            serial::table_of(host.entries(), room, commands, |place| place <= most)
        };
        // Where all up to a place are written, their table is that of the written commands.
        let other = |most: usize| open.is_some_and(|it| it <= most) && up_to(most) != run.store;
        self.note(Moment::Passed, last.is_some_and(other));
        self.note(Moment::Loaded, other(run.loaded.into()));
        self.note(Moment::BehindCheckpoint, differs_from_image(host, &run));
        let change = |place: &usize| run.commands[place - 1].kind == Kind::Workers;
        let change = places.clone().find(|it| change(it) && written(*it));
        let unwritten = places.clone().rfind(|place| !written(*place));
        self.note(Moment::BehindChange, change.is_some() && change < unwritten);
    }
}

/// Whether a checkpoint is written and the run, which is not at its end, has another table by now.
fn differs_from_image(host: &Host, run: &Run) -> bool {
    let image = host.list(List::Image);
    let written = image.len() >= RECORD && image::place(image) > 0;
    let other = |image: Store| image != run.store;
    written && !run.is_finished() && image::read(image).is_ok_and(other)
}

#[cfg(test)]
mod tests {
    use super::*;
    use crate::bytes::{KEY, NUMBER, STATE};
    use crate::command::encode;
    use crate::depot::Second;
    use crate::identifier::{self, NONE};
    use crate::script::{Open, Step};
    use crate::serial::Entries;

    /// What is met behind these turns of a list, in a graph of size 4 with two workers and room 2,
    /// that is opened from these entries.
    fn met(commands: &[Vec<u8>], entries: &Entries, turns: &[u8]) -> Vec<Moment> {
        let mut source = Vec::new();
        image::write(&serial::table(2, entries), 0, &mut source);
        let count = commands.len();
        let lengths = [STATE, 2 * KEY, 2 * NUMBER, count * NUMBER, 3 * RECORD];
        let open = Open {
            settings: [4, 2, 2],
            commands: commands.concat(),
            source: Some(source),
        };
        let mut host = Host::default();
        for step in [
            Step::Lend(lengths),
            Step::Open(open),
            Step::Advance(turns.to_vec()),
        ] {
            assert_eq!(host.take(&Second, &step), 0);
        }
        let mut moments = Moments::default();
        moments.note_judged(&host);
        let met = |moment: &Moment| moments.count(*moment) == 1;
        Moment::ALL.iter().copied().filter(met).collect()
    }

    fn item(kind: Kind, key: u64, chute: u16) -> Vec<u8> {
        let text = identifier::text(key).expect("a right key");
        encode(kind.number(), &text, chute)
    }

    /// An update that passes a held insert: nothing is written, the update is, and all is removed.
    #[test]
    fn moments_of_a_command_that_passes_another() {
        let list = [item(Kind::Insert, 5, 7), item(Kind::Update, 9, 8)];
        let entries = Entries::from([(9, 4)]);
        let loaded = [0; 5];
        let passed = [loaded.as_slice(), &[1, 1], &[2; 5]].concat();
        let ended = [passed.as_slice(), &[1, 2].repeat(20)].concat();
        assert_eq!(met(&list, &entries, &[]), []);
        assert_eq!(met(&list, &entries, &loaded), [Moment::Loaded]);
        let all = [Moment::Middle, Moment::Passed, Moment::Loaded];
        assert_eq!(
            met(&list, &entries, &passed),
            [&all[..], &[Moment::FromEntries]].concat()
        );
        assert_eq!(met(&list, &entries, &ended), []);
    }

    /// A checkpoint, a worker change and an insert, each served by nine turns: the table is another
    /// than the image's from the insert's writing on, up to the end.
    #[test]
    fn moments_behind_a_checkpoint_and_a_worker_change() {
        let list = [
            encode(Kind::Checkpoint.number(), &NONE, 0),
            encode(Kind::Workers.number(), &NONE, 1),
            item(Kind::Insert, 5, 7),
        ];
        let turns = [0, 0, 1, 1, 1, 1, 1, 1, 1].repeat(3);
        let met = |count: usize| met(&list, &Entries::new(), &turns[..count]);
        let behind = [Moment::Middle, Moment::BehindChange];
        assert_eq!(met(9), [Moment::Middle]);
        assert_eq!(met(18), behind);
        let taken = [Moment::Middle, Moment::Loaded, Moment::BehindChange];
        assert_eq!(met(19), taken);
        assert_eq!(met(23), taken);
        assert_eq!(met(24), [Moment::BehindCheckpoint]);
        assert_eq!(met(26), [Moment::BehindCheckpoint]);
        assert_eq!(met(27), []);
    }

    /// Nothing is met at first; one missing count of many is seen.
    #[test]
    fn what_is_never_met_is_told() {
        assert!(Moments::default().lacks_any());
        let moments = Moments::met(2);
        assert!(!moments.lacks_any());
        for index in 0..Moment::ALL.len() {
            assert_eq!(Moment::ALL[index] as usize, index);
            let mut other = moments.clone();
            other.counts[index] = 0;
            assert!(other.lacks_any());
        }
        let mut sum = moments.clone();
        sum.add(&moments);
        assert_eq!(sum.count(Moment::BehindChange), 4);
        let lines: Vec<String> = sum.lines().collect();
        assert_eq!(lines.len(), Moment::ALL.len());
        let loaded = "moments without the table of all loaded commands: 4";
        assert_eq!(lines[2], loaded);
    }
}
