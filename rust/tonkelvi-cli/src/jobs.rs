//! Work on many files at a time whose results come out in the files' order.
use std::collections::BTreeMap;
use std::io;
use std::sync::atomic::{AtomicBool, AtomicUsize, Ordering};
use std::sync::{Condvar, Mutex};

/// Results that wait for an earlier one, and the number of the next to hand on.
struct Waiting<R, F> {
    next: usize,
    results: BTreeMap<usize, R>,
    take: F,
    error: Option<io::Error>,
}

/// Calls `work` on each item in `jobs` threads, and `take` on the results in the items' order, until `take` fails.
pub fn run<T, R, F>(items: &[T], jobs: usize, work: impl Fn(&T) -> R + Sync, take: F) -> io::Result<()>
where
    T: Sync,
    R: Send,
    F: FnMut(R) -> io::Result<()> + Send,
{
    let counter = AtomicUsize::new(0);
    let stop = AtomicBool::new(false);
    let waiting = Mutex::new(Waiting { next: 0, results: BTreeMap::new(), take, error: None });
    let moved = Condvar::new();
    std::thread::scope(|scope| {
        for _ in 0..jobs.min(items.len()) {
            scope.spawn(|| loop {
                let number = counter.fetch_add(1, Ordering::Relaxed);
                let Some(item) = items.get(number) else { return };
                if stop.load(Ordering::Relaxed) {
                    return;
                }
                let result = work(item);
                let mut waiting = waiting.lock().expect("no thread panics with it");
                // Nobody runs far ahead of the slowest file, so that few results wait.
                while number > waiting.next + 4 * jobs && !stop.load(Ordering::Relaxed) {
                    waiting = moved.wait(waiting).expect("no thread panics with it");
                }
                waiting.results.insert(number, result);
                if hand_on(&mut waiting).is_err() {
                    stop.store(true, Ordering::Relaxed);
                }
                moved.notify_all();
            });
        }
    });
    waiting.into_inner().expect("all threads ended").error.map_or(Ok(()), Err)
}

/// Hands on the results whose turn it is.
fn hand_on<R, F: FnMut(R) -> io::Result<()>>(waiting: &mut Waiting<R, F>) -> Result<(), ()> {
    while let Some(result) = waiting.results.remove(&waiting.next) {
        waiting.next += 1;
        if waiting.error.is_none() {
            waiting.error = (waiting.take)(result).err();
        }
    }
    waiting.error.is_none().then_some(()).ok_or(())
}

#[cfg(test)]
mod tests {
    use super::*;

    #[test]
    fn results_come_in_order() {
        let items: Vec<u32> = (0..500).collect();
        for jobs in [1, 2, 7] {
            let mut seen = Vec::new();
            let slow = |n: &u32| if n % 50 == 7 { (0..20_000).fold(*n, |a, b| a ^ b ^ b) } else { *n };
            run(&items, jobs, slow, |n| {
                seen.push(n);
                Ok(())
            })
            .unwrap();
            assert_eq!(seen, items);
        }
    }

    #[test]
    fn ends_when_taking_fails() {
        let items: Vec<u32> = (0..500).collect();
        let mut taken = 0;
        let result = run(
            &items,
            3,
            |n| *n,
            |_| {
                taken += 1;
                Err(io::ErrorKind::BrokenPipe.into())
            },
        );
        assert_eq!((result.unwrap_err().kind(), taken), (io::ErrorKind::BrokenPipe, 1));
    }
}
