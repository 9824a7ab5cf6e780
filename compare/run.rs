//! Compares all calls on one sheet, and shares many sheets out to threads.

use crate::call::{Call, Slices};
use crate::guarded::{Guard, Guarded};
use crate::inputs::edges;
use crate::inputs::edges::edge::Edge;
use crate::inputs::longest::case::Case;
use crate::inputs::rng::Rng;
use crate::lengths::{asked, check_short, checked, question, question_with_room, Sizes};
use crate::rules::asked::Asked;
use crate::rules::sheet::Sheet;
use crate::sheets;
use crate::table::Table;
use crate::which::{Part, Which};
use std::sync::atomic::{AtomicUsize, Ordering};
use std::thread;

const SMALL_QUESTIONS: usize = 6;
const FULL_QUESTIONS: usize = 5;

/// The stack of a C program's first thread.
const STACK: usize = 8 << 20;

struct Worker<'a> {
    edges: &'a [Edge],
    slices: Slices,
    table: Table,
}

/// All these sheets, each by the next thread that is free.
pub fn all(work: &[Which]) -> Table {
    let edges = edges::all();
    let next = AtomicUsize::new(0);
    let run = |_| {
        let mut worker = Worker { edges: &edges, slices: Slices::new(), table: Table::default() };
        while let Some(which) = work.get(next.fetch_add(1, Ordering::Relaxed)) {
            worker.one(*which);
        }
        worker.table
    };
    by_threads(thread::available_parallelism().map_or(1, usize::from), run)
}

/// What so many threads count together, each of which is given its number.
pub fn by_threads(count: usize, run: impl Fn(usize) -> Table + Sync) -> Table {
    let (run, mut table) = (&run, Table::default());
    thread::scope(|scope| {
        let thread = || thread::Builder::new().stack_size(STACK);
        let start = |number| thread().spawn_scoped(scope, move || run(number)).expect("a thread");
        let threads: Vec<_> = (0..count).map(start).collect();
        for thread in threads {
            table.add(thread.join().expect("a thread that ends"));
        }
    });
    table
}

impl Worker<'_> {
    fn one(&mut self, which: Which) {
        // Apart from the streams of the makers.
        let mut rng = Rng::new(!which.seed, which.index);
        match which.part {
            Part::Small => {
                let bytes = sheets::small(&mut rng, which.seed, which.index, self.edges);
                self.small(&mut rng, which, &bytes);
            }
            Part::Longest => self.longest(&mut rng, which, &sheets::longest(which.seed, which.index)),
            Part::Threads => unreachable!("threads are compared on their own"),
            Part::Full => {
                for (form, bytes) in sheets::full(&mut rng, which.seed, which.index).iter().enumerate() {
                    self.full(&mut rng, which, bytes, form);
                }
            }
        }
    }

    fn small(&mut self, rng: &mut Rng, which: Which, bytes: &[u8]) {
        let sheet = Sheet::from_bytes(bytes).ok();
        let sizes = Sizes::of(sheet.as_ref());
        let mut calls = vec![check_short(rng, &sizes), checked(rng, &sizes), checked(rng, &sizes)];
        for _ in 0..SMALL_QUESTIONS {
            let asked = asked(rng, sheet.as_ref(), &sizes);
            calls.push(question(rng, &sizes, asked));
        }
        self.table.small += 1;
        self.calls(rng, which, bytes, &calls);
    }

    /// The second program is slow to check a full-size sheet, so not every form is checked each time.
    fn full(&mut self, rng: &mut Rng, which: Which, bytes: &[u8], form: usize) {
        let sheet = Sheet::from_bytes(bytes).ok();
        let sizes = Sizes::of(sheet.as_ref());
        let mut calls = vec![check_short(rng, &sizes)];
        if form == 0 || which.index as usize % 3 == form % 3 {
            calls.push(checked(rng, &sizes));
        }
        for turn in 0..FULL_QUESTIONS {
            let asked = asked(rng, sheet.as_ref(), &sizes);
            let few = rng.pick(&[1, 10, 100]);
            let k = if turn == 0 { asked.k } else { asked.k.min(few) };
            calls.push(question(rng, &sizes, Asked { k, ..asked }));
        }
        self.table.full += 1;
        self.calls(rng, which, bytes, &calls);
    }

    /// Each question with room for its answer, then with any slices, then another; one check will do for the map.
    fn longest(&mut self, rng: &mut Rng, which: Which, case: &Case) {
        for (turn, due) in case.questions.iter().enumerate() {
            let sheet = case.sheet(due);
            let sizes = Sizes::of(Some(&sheet));
            let mut calls = vec![if turn == 0 { checked(rng, &sizes) } else { check_short(rng, &sizes) }];
            let other = asked(rng, Some(&sheet), &sizes);
            calls.push(question_with_room(rng, &sizes, due.asked));
            calls.extend([due.asked, other].map(|asked| question(rng, &sizes, asked)));
            self.table.longest += 1;
            self.calls(rng, which, &sheet.to_bytes(), &calls);
        }
    }

    fn calls(&mut self, rng: &mut Rng, which: Which, bytes: &[u8], calls: &[Call]) {
        let sheet = Guarded::holding(bytes, rng.pick(&Guard::ALL));
        for call in calls {
            let due = call.due(bytes);
            let found = call.found(which, &sheet, bytes, &mut self.slices);
            self.table.met(which.part, call, &sheet, &due);
            if let Some(difference) = call.difference(&found, &due) {
                self.table.differ(format!("{which}: {}: {difference}", call.ask));
            }
        }
    }
}
