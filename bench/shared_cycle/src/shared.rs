//! Two copies of a book: readers enter the published one and wait for nobody, and one writer at a time changes the other.
use crate::book::{Book, BookFault, Call, Entry};
use std::cell::UnsafeCell;
use std::sync::atomic::{fence, AtomicUsize, Ordering};
use std::sync::Mutex;

/// What the writer keeps: the call that the copy behind still lacks, and where each reader was at the last publication.
struct Writer {
    lacking: Option<(u32, u32, Call)>,
    epochs: Vec<usize>,
}

/// How often a reader has entered and left: odd while it reads.
#[repr(align(128))]
struct Epoch(AtomicUsize);

pub struct Shared {
    copies: [UnsafeCell<Book>; 2],
    published: AtomicUsize,
    epochs: Vec<Epoch>,
    writer: Mutex<Writer>,
}

// SAFETY: a copy is changed only by the holder of the lock, and only once no reader is left in it.
unsafe impl Sync for Shared {}

impl Shared {
    pub fn start(clients: usize, limit: u32) -> Shared {
        Shared {
            copies: [UnsafeCell::new(Book::open(limit)), UnsafeCell::new(Book::open(limit))],
            published: AtomicUsize::new(0),
            epochs: (0..clients).map(|_| Epoch(AtomicUsize::new(0))).collect(),
            writer: Mutex::new(Writer { lacking: None, epochs: vec![0; clients] }),
        }
    }

    /// What a reader sees of the published copy. Each reader is one thread's.
    pub fn look<T>(&self, reader: usize, see: impl FnOnce(&Book) -> T) -> T {
        let epoch = &self.epochs[reader].0;
        epoch.fetch_add(1, Ordering::AcqRel);
        fence(Ordering::SeqCst);
        let at = self.published.load(Ordering::Acquire);
        // SAFETY: the writer waits for this reader before it changes the copy.
        let seen = see(unsafe { &*self.copies[at].get() });
        epoch.fetch_add(1, Ordering::AcqRel);
        seen
    }

    /// Waits until no reader is left that entered before the last publication.
    fn wait(&self, before: &[usize]) {
        for (epoch, before) in self.epochs.iter().zip(before) {
            while before % 2 == 1 && epoch.0.load(Ordering::Acquire) == *before {
                std::thread::yield_now();
            }
        }
    }

    /// Makes a call of a client, and answers its entry as the client's reader finds it.
    pub fn call(&self, client: u32, number: u32, call: Call) -> Result<Entry, BookFault> {
        let mut writer = self.writer.lock().expect("no client panics");
        let published = self.published.load(Ordering::Relaxed);
        self.wait(&writer.epochs);
        // SAFETY: the lock is held, and no reader is left in the copy that is not published.
        let behind = unsafe { &mut *self.copies[1 - published].get() };
        if let Some((client, number, call)) = writer.lacking.take() {
            behind.take(client, number, call)?;
        }
        behind.take(client, number, call)?;
        let place = behind.length() - 1;
        writer.lacking = Some((client, number, call));
        self.published.store(1 - published, Ordering::Release);
        fence(Ordering::SeqCst);
        for (kept, epoch) in writer.epochs.iter_mut().zip(&self.epochs) {
            *kept = epoch.0.load(Ordering::Acquire);
        }
        drop(writer);
        Ok(self.look(client as usize, |book| book.entry(place)).expect("it is published"))
    }
}
