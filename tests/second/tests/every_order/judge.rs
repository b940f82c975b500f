//! What is held against each state and each turn of a search.

use std::cell::OnceCell;

use second::command::Kind;
use second::run::{HEAD, Party, Run};
use second::serial::{self, Entries, Outcome};
use second::store::Store;

use crate::met::Pass;

/// What serial runs give.
#[derive(Debug)]
pub struct Judge {
    pub outcome: Outcome,
    /// What the store had at the opening.
    entries: Entries,
    /// The table of each set of commands, once it is asked for. In the number of a set, the command
    /// of place 1 is the lowest bit.
    tables: Vec<OnceCell<Store>>,
    /// The image once the checkpoint of a place is the last that is written; the first is that of
    /// none, and those of other commands are of no use.
    images: Vec<Vec<u8>>,
}

impl Judge {
    /// The judge of a run whose store had these entries at its opening.
    pub fn of(run: &Run, entries: &Entries) -> Judge {
        let room = run.settings.room;
        let places = 0..=run.commands.len();
        let image = |place| serial::image(entries, room, &run.commands, place);
        Judge {
            outcome: serial::run_from(entries.clone(), room.into(), &run.commands),
            entries: entries.clone(),
            tables: vec![OnceCell::new(); 1 << run.commands.len()],
            images: places.map(image).collect(),
        }
    }

    pub fn hold(&self, run: &Run) {
        let written = written(run);
        for (index, answer) in run.answers.iter().enumerate() {
            let place = index + 1;
            let right = if has(written, place) {
                self.outcome.answers[index]
            } else {
                0
            };
            assert_eq!(*answer, right, "answer {place} of {:?}", run.commands);
        }
        let table = self.table(run, written);
        assert_eq!(run.store, *table, "{written:b} of {:?}", run.commands);
        run.chain().for_each(|record| hold_set(run, record));
        assert_eq!(run.in_force, in_force(run), "{:?}", run.commands);
        self.hold_image(run, written);
    }

    /// Document 02, A.6: the turns of a dispatch from a state, within the bound, which by hand lead to
    /// the same state, at the end of the run.
    pub fn hold_dispatch(&self, run: &Run, turns: &[u8], after: &Run) {
        let (used, bound) = (turns.len() as u64, bound(run));
        assert!(used <= bound, "{used} of {bound}, {:?}", run.commands);
        let mut by_hand = run.clone();
        by_hand.advance(turns);
        assert_eq!(by_hand, *after, "{turns:?}");
        let mut places = 1..=run.commands.len() as u16;
        assert!(places.all(|place| is_removed(after, place)), "{turns:?}");
        let idle = |party: &Party| *party == Party::Idle;
        assert!(after.parties.iter().all(idle), "{turns:?}");
        self.hold(after);
    }

    /// Document 02, A.10: the table of the commands of a set, run alone.
    fn table(&self, run: &Run, set: usize) -> &Store {
        self.tables[set].get_or_init(|| {
            let chosen = |place| has(set, place);
            serial::table_of(&self.entries, run.settings.room, &run.commands, chosen)
        })
    }

    /// Whether the table is another than that of all commands up to the last that is written, and
    /// than that of all that are loaded.
    pub fn others(&self, run: &Run) -> [bool; 2] {
        let up_to_the_last = (written(run) + 1).next_power_of_two() - 1;
        let loaded = (1 << run.loaded) - 1;
        [up_to_the_last, loaded].map(|set| *self.table(run, set) != run.store)
    }

    /// Document 02, A.3 and A.10: the image is that of the last checkpoint that is written, with
    /// what the commands delivered before it leave, and zeros before any.
    fn hold_image(&self, run: &Run, written: usize) {
        let last = (1..=run.commands.len()).rfind(|place| {
            let kind = run.commands[place - 1].kind;
            kind == Kind::Checkpoint && has(written, *place)
        });
        let right = &self.images[last.unwrap_or(0)];
        assert_eq!(run.image.as_ref(), Some(right), "{:?}", run.commands);
    }
}

/// The number of the set of commands whose writing turn is over.
fn written(run: &Run) -> usize {
    let places = 1..=run.commands.len();
    let written = places.filter(|place| is_written(run, *place as u16));
    written.map(|place| 1 << (place - 1)).sum()
}

/// Whether the set of a number has the command of a place.
fn has(set: usize, place: usize) -> bool {
    set >> (place - 1) & 1 == 1
}

/// Document 02, A.2: the count of the last worker change that is written, else the opening's. These
/// are written in their order, as each depends on those before it.
pub fn in_force(run: &Run) -> u16 {
    let written = |place: &u16| is_written(run, *place);
    let count = run.commands.len() as u16;
    last_count(run, (1..=count).filter(written))
}

/// The count of the last worker change among these places, else the opening's.
fn last_count(run: &Run, places: impl Iterator<Item = u16>) -> u16 {
    let counts = places.filter_map(|place| run.commands[usize::from(place) - 1].count());
    counts.last().unwrap_or(run.settings.workers.into())
}

/// Document 02, A.2, for a worker that was given a turn: idle and above the count it waits, idle and
/// not above it waits for nothing but the head's lock; and it takes a command only if it is neither
/// above the count in force nor above that of the last worker change delivered before it.
pub fn hold_count(run: &Run, worker: u8, after: &Run) {
    let [before, now] = [run, after].map(|run| run.parties[usize::from(worker)]);
    let above = u16::from(worker) > in_force(run);
    match (before, now) {
        (Party::Idle, _) => {
            let waits = above || run.records.locked[usize::from(HEAD)];
            assert_eq!(now == Party::Idle, waits, "{worker} of {:?}", run.commands);
        }
        (Party::Searching { .. }, Party::Holding { own }) => {
            let place = run.records.place[usize::from(own)];
            let most = last_count(run, 1..place);
            assert!(
                !above && u16::from(worker) <= most,
                "{worker} takes {place}, {most}"
            );
        }
        _ => {}
    }
}

/// When two commands must keep their order.
enum Order {
    Always,
    OneItem,
    Never,
}

/// Documents 01 and 02, A.2, A.3 and A.5, by hand: a row for each kind of the one, a column for the
/// other.
#[rustfmt::skip]
const ORDER: [[Order; 6]; 6] = {
    use Order::{Always, Never, OneItem};
    [
        // insert   delete   read     update   workers  checkpoint
        [Always,  Always,  OneItem, OneItem, Always,  Always], // insert
        [Always,  Always,  OneItem, OneItem, Always,  Always], // delete
        [OneItem, OneItem, Never,   OneItem, Always,  Always], // read
        [OneItem, OneItem, OneItem, OneItem, Always,  Always], // update
        [Always,  Always,  Always,  Always,  Always,  Always], // workers
        [Always,  Always,  Always,  Always,  Always,  Always], // checkpoint
    ]
};

/// Whether commands of these kinds, of one item or of two, depend on one another.
pub fn depends(first: Kind, second: Kind, same_item: bool) -> bool {
    let [row, column] = [first, second].map(|kind| usize::from(kind.number()) - 1);
    match ORDER[row][column] {
        Order::Always => true,
        Order::OneItem => same_item,
        Order::Never => false,
    }
}

/// Holds that a command passes no other that it depends on.
pub fn hold_pass(pass: &Pass) {
    assert!(
        !depends(pass.earlier, pass.later, pass.same_item),
        "{pass:?}"
    );
}

/// Holds the set of a record in the chain: it has none but records of commands that were delivered
/// earlier and that this one depends on, and all of these that are loaded and not yet written.
fn hold_set(run: &Run, record: u8) {
    let own = run.records.place[usize::from(record)];
    let set = run.records.set[usize::from(record)];
    for other in 1..=run.settings.size {
        let place = run.records.place[usize::from(other)];
        let earlier = (1..own).contains(&place) && {
            let [one, two] = [place, own].map(|place| run.commands[usize::from(place) - 1]);
            depends(one.kind, two.kind, one.key == two.key)
        };
        let waits = set[0] >> other & 1 == 1;
        let right = if waits {
            earlier
        } else {
            !earlier || is_written(run, place)
        };
        assert!(
            right,
            "{own} waits for {place}: {waits}, {:?}",
            run.commands
        );
    }
    assert_eq!([set[0] & 1, set[1], set[2]], [0; 3]);
}

/// Holds a turn that is no wait: the worker's state after it is one that the steps name, the store
/// changes at no turn but the writing turn of a kind that writes in it, and the image at no turn but
/// that of a checkpoint.
pub fn hold_turn(run: &Run, party: u8, after: &Run) {
    let [before, now] = [run, after].map(|run| run.parties[usize::from(party)]);
    let kind = before
        .own()
        .and_then(|own| run.command(own))
        .map(|it| it.kind);
    assert!(
        party == 0 || follows(before, now, kind),
        "from {before:?} to {now:?}, {kind:?} of {:?}",
        run.commands
    );
    let writes = matches!(before, Party::LookedUp { .. });
    assert!(writes || after.store == run.store, "{before:?}, {kind:?}");
    let images = writes && kind == Some(Kind::Checkpoint);
    assert!(images || after.image == run.image, "{before:?}, {kind:?}");
    assert!(!images || after.store == run.store, "{before:?}");
}

/// Whether a worker's turn leads from one state to the other (document 01, "Records and turns").
/// Document 02, A.8: with a read, holding leads to written; looked-up is for other kinds.
fn follows(before: Party, now: Party, kind: Option<Kind>) -> bool {
    match (before, now) {
        (Party::Holding { .. }, Party::Written { .. }) => kind == Some(Kind::Read),
        (Party::Holding { .. }, Party::LookedUp { .. })
        | (Party::LookedUp { .. }, Party::Written { .. }) => {
            matches!(
                kind,
                Some(Kind::Insert | Kind::Delete | Kind::Update | Kind::Workers | Kind::Checkpoint)
            )
        }
        (Party::Idle, Party::Searching { .. })
        | (
            Party::Searching { .. },
            Party::Searching { .. } | Party::Idle | Party::Holding { .. },
        )
        | (Party::Written { .. }, Party::Walking { .. })
        | (Party::Walking { .. }, Party::Walking { .. } | Party::Clearing { .. })
        | (Party::Clearing { .. }, Party::Clearing { .. } | Party::Idle) => true,
        _ => false,
    }
}

/// Whether the command's writing turn is over.
pub fn is_written(run: &Run, place: u16) -> bool {
    let wrote = |party: &Party| match *party {
        Party::Written { own } | Party::Walking { own, .. } | Party::Clearing { own, .. } => {
            run.records.place[usize::from(own)] == place
        }
        _ => false,
    };
    let parties = &run.parties[..=usize::from(run.largest)];
    is_removed(run, place) || parties.iter().any(wrote)
}

/// Document 02, A.6: (n + w) × (3 × s + 6), "with n commands that are not yet loaded or whose records
/// are not yet returned, w the largest worker count and s the graph size".
pub fn bound(run: &Run) -> u64 {
    let places = 1..=run.commands.len() as u16;
    let left = places.filter(|place| !is_removed(run, *place)).count() as u64;
    let [workers, size] = [run.largest, run.settings.size].map(u64::from);
    (left + workers) * (3 * size + 6)
}

/// Whether the command was loaded and its record returned.
fn is_removed(run: &Run, place: u16) -> bool {
    let places = &run.records.place[..=usize::from(run.settings.size)];
    place <= run.loaded && !places.contains(&place)
}
