//! The wakers of sections that wait.

use crate::connection::NoMemory;
use std::cmp::Reverse;
use std::collections::{BinaryHeap, HashMap};
use std::mem;
use std::task::Waker;

/// The number of outdated places at which the row is left as it is.
const MOST_OUTDATED: usize = 64;

/// The task whose section waits, and for how many insertions.
struct Task {
    required: usize,
    waker: Waker,
}

/// At most one task a stream, in the order of the insertions that they wait for.
#[derive(Default)]
pub(super) struct Waiting {
    tasks: HashMap<u64, Task>,
    /// The insertions and the stream of each task, the fewest first; and places that are outdated, a few.
    row: BinaryHeap<Reverse<(usize, u64)>>,
}

impl Waiting {
    /// Returns the number of tasks.
    pub(super) fn len(&self) -> usize {
        self.tasks.len()
    }

    /// Keeps the waker of the task that waits for the section of a stream, of which none is kept.
    pub(super) fn keep(&mut self, stream_id: u64, required: usize, waker: &Waker) -> Result<(), NoMemory> {
        self.tasks.try_reserve(1).map_err(|_| NoMemory)?;
        self.row.try_reserve(1).map_err(|_| NoMemory)?;
        self.tasks.insert(stream_id, Task { required, waker: waker.clone() });
        self.row.push(Reverse((required, stream_id)));
        self.tidy();
        Ok(())
    }

    /// Takes the waker of the task of a stream, if there is one.
    pub(super) fn forget(&mut self, stream_id: u64) -> Option<Waker> {
        let task = self.tasks.remove(&stream_id);
        self.tidy();
        task.map(|task| task.waker)
    }

    /// Takes the waker of a task that waits for at most `insert_count` insertions.
    pub(super) fn take_ready(&mut self, insert_count: usize) -> Option<Waker> {
        while let Some(&Reverse((required, stream_id))) = self.row.peek() {
            if required > insert_count {
                return None;
            }
            self.row.pop();
            if is_current(&self.tasks, required, stream_id) {
                return self.tasks.remove(&stream_id).map(|task| task.waker);
            }
        }
        None
    }

    /// Drops outdated places once they are more than the tasks. So a place costs the same time, however many there are.
    fn tidy(&mut self) {
        if self.row.len() <= 2 * self.tasks.len() + MOST_OUTDATED {
            return;
        }
        let mut places = mem::take(&mut self.row).into_vec();
        places.retain(|&Reverse((required, stream_id))| is_current(&self.tasks, required, stream_id));
        self.row = BinaryHeap::from(places);
    }
}

/// Whether the task of a stream waits for `required` insertions.
fn is_current(tasks: &HashMap<u64, Task>, required: usize, stream_id: u64) -> bool {
    tasks.get(&stream_id).map_or(false, |task| task.required == required)
}

#[cfg(test)]
mod tests {
    use super::{Waiting, MOST_OUTDATED};
    use std::sync::atomic::{AtomicUsize, Ordering};
    use std::sync::Arc;
    use std::task::{Wake, Waker};

    #[derive(Default)]
    struct Count(AtomicUsize);

    impl Wake for Count {
        fn wake(self: Arc<Self>) {
            self.0.fetch_add(1, Ordering::Relaxed);
        }
    }

    fn waker() -> (Arc<Count>, Waker) {
        let count = Arc::new(Count::default());
        (Arc::clone(&count), Waker::from(count))
    }

    #[test]
    fn the_fewest_insertions_come_first() {
        let (mut waiting, tasks) = (Waiting::default(), [waker(), waker(), waker()]);
        for ((stream_id, required), (_, waker)) in [(0, 3), (4, 1), (8, 2)].into_iter().zip(&tasks) {
            waiting.keep(stream_id, required, waker).unwrap();
        }
        assert!(waiting.take_ready(0).is_none());
        for expected in [1, 2] {
            assert!(waiting.take_ready(2).unwrap().will_wake(&tasks[expected].1));
        }
        assert!(waiting.take_ready(2).is_none());
        assert_eq!(waiting.len(), 1);
    }

    #[test]
    fn a_task_that_waits_anew_is_found_where_it_waits() {
        let (mut waiting, (task, waker)) = (Waiting::default(), waker());
        for required in [1, 2, 2] {
            waiting.forget(0);
            waiting.keep(0, required, &waker).unwrap();
        }
        drop(waker);
        assert!(waiting.take_ready(1).is_none(), "the section waits for two insertions now");
        assert_eq!(Arc::strong_count(&task), 2);
        waiting.take_ready(2).unwrap().wake();
        assert_eq!((task.0.load(Ordering::Relaxed), Arc::strong_count(&task)), (1, 1));
        assert!(waiting.take_ready(2).is_none());
    }

    #[test]
    fn outdated_places_do_not_add_up() {
        let (mut waiting, (_, waker)) = (Waiting::default(), waker());
        for number in 0..100_000 {
            waiting.keep(number, 7, &waker).unwrap();
            assert!(waiting.forget(number).is_some() && waiting.forget(number).is_none());
            assert!(waiting.row.len() <= MOST_OUTDATED + 2, "{} places", waiting.row.len());
        }
        assert_eq!(waiting.len(), 0);
    }
}
