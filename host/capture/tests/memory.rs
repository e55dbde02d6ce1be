//! How much memory reading a stream takes.

use capture::{Capture, BLOCK, MOST_SAMPLES};
use std::alloc::{GlobalAlloc, Layout, System};
use std::sync::atomic::{AtomicUsize, Ordering};

/// The system's memory, with the largest piece that was asked for.
struct Watched;

static LARGEST: AtomicUsize = AtomicUsize::new(0);

// SAFETY: the system's, with a number kept beside it.
unsafe impl GlobalAlloc for Watched {
    unsafe fn alloc(&self, layout: Layout) -> *mut u8 {
        LARGEST.fetch_max(layout.size(), Ordering::Relaxed);
        System.alloc(layout)
    }

    unsafe fn dealloc(&self, at: *mut u8, layout: Layout) {
        System.dealloc(at, layout)
    }

    unsafe fn alloc_zeroed(&self, layout: Layout) -> *mut u8 {
        LARGEST.fetch_max(layout.size(), Ordering::Relaxed);
        System.alloc_zeroed(layout)
    }
}

#[global_allocator]
static MEMORY: Watched = Watched;

/// The largest piece of memory that reading a stream asks for.
fn largest(file: &[u8]) -> usize {
    LARGEST.store(0, Ordering::Relaxed);
    let _ = Capture::read_from(file, None);
    LARGEST.load(Ordering::Relaxed)
}

/// The only test here: another would ask for memory beside it.
#[test]
fn a_damaged_len_asks_for_no_memory() {
    let mut capture = Capture::start(8, 2000).unwrap();
    capture.append(&[1; 2000]).unwrap();
    let mut file = vec![0; capture.file_len()];
    capture.write(&mut file).unwrap();
    let (head, most) = (12 + 2, MOST_SAMPLES.to_le_bytes());
    assert!((2000..10_000).contains(&largest(&file)));

    // The check is no longer that of block 0.
    file[head..][..8].copy_from_slice(&most);
    assert!(largest(&file) < 4 * BLOCK, "{}", largest(&file));
    file[head..][..8].copy_from_slice(&[0xff; 8]);
    assert!(largest(&file) < 4 * BLOCK, "{}", largest(&file));
}
