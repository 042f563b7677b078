//! Numbered work that threads share, and how far it is.

use std::sync::atomic::{AtomicU64, Ordering};
use std::thread;

/// The differences that are printed; the others are only counted.
const SHOWN: u64 = 20;

/// What all threads share: the next number, and the differences found so far.
pub struct Progress {
    /// What is numbered.
    name: &'static str,
    count: u64,
    next: AtomicU64,
    differences: AtomicU64,
}

impl Progress {
    /// Work of so many numbers, counted from 0.
    pub fn of(name: &'static str, count: u64) -> Self {
        Self {
            name,
            count,
            next: AtomicU64::new(0),
            differences: AtomicU64::new(0),
        }
    }

    /// Does the work of every number on so many threads, each thread the next
    /// number that none has taken; what each has gathered.
    pub fn share<T: Default + Send>(
        &self,
        threads: u64,
        work: impl Fn(u64, &mut T) + Sync,
    ) -> Vec<T> {
        let some = || {
            let mut gathered = T::default();
            while let Some(number) = self.take() {
                work(number, &mut gathered);
            }
            gathered
        };
        thread::scope(|scope| {
            let threads: Vec<_> = (0..threads).map(|_| scope.spawn(some)).collect();
            let gathered = threads.into_iter().map(|thread| thread.join());
            gathered
                .map(|gathered| gathered.expect("the second program answers every call"))
                .collect()
        })
    }

    /// The next number, if not all are taken; ten times on the way it says how
    /// far the work is.
    fn take(&self) -> Option<u64> {
        let number = self.next.fetch_add(1, Ordering::Relaxed);
        let is_mark = number > 0 && number.is_multiple_of(self.count.div_ceil(10).max(1));
        if is_mark && number < self.count {
            let differences = self.differences.load(Ordering::Relaxed);
            let Self { name, count, .. } = self;
            eprintln!("{number} of {count} {name}, {differences} differences");
        }
        (number < self.count).then_some(number)
    }

    /// Counts a difference, and prints it if it is one of the first.
    pub fn differs(&self, about: &str) {
        if self.differences.fetch_add(1, Ordering::Relaxed) < SHOWN {
            println!("difference: {about}");
        }
    }
}
