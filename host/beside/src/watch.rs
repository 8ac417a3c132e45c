//! Ends the program where one comparison does not end.

use std::process;
use std::sync::{Arc, Mutex};
use std::thread;
use std::time::{Duration, Instant};

/// The comparison that was begun last, and when.
type Begun = (&'static str, u64, Instant);

pub struct Watch(Arc<Mutex<Begun>>);

impl Watch {
    pub fn start(too_long: Duration) -> Self {
        let begun = Arc::new(Mutex::new(("before the first", 0, Instant::now())));
        let seen = Arc::clone(&begun);
        thread::spawn(move || loop {
            thread::sleep(Duration::from_secs(1));
            let (family, index, since) = *seen.lock().expect("no panic");
            if since.elapsed() > too_long {
                let seconds = too_long.as_secs();
                println!("NO END of {family} {index} after {seconds} seconds");
                process::exit(1);
            }
        });
        Self(begun)
    }

    pub fn begin(&self, family: &'static str, index: u64) {
        *self.0.lock().expect("no panic") = (family, index, Instant::now());
    }
}
