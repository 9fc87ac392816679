// The memory of a channel that waits: a large buffer is given back where a read has to wait, and that of a half that
// writes by `flush`.
use std::alloc::{GlobalAlloc, Layout, System};
use std::io::{self, BufRead, ErrorKind, Read, Write};
use std::sync::atomic::{AtomicUsize, Ordering};
use toy::{open, Memory};
use yulimosar::Stream;

mod toy;

// The system's allocator, which counts the bytes that are held.
struct Counted;

static HELD: AtomicUsize = AtomicUsize::new(0);

// SAFETY: each call is the system's.
unsafe impl GlobalAlloc for Counted {
    unsafe fn alloc(&self, layout: Layout) -> *mut u8 {
        HELD.fetch_add(layout.size(), Ordering::Relaxed);
        System.alloc(layout)
    }

    unsafe fn dealloc(&self, place: *mut u8, layout: Layout) {
        HELD.fetch_sub(layout.size(), Ordering::Relaxed);
        System.dealloc(place, layout);
    }
}

#[global_allocator]
static COUNTED: Counted = Counted;

const KEPT: usize = 4096; // of each buffer
const LARGE: usize = 60_000;

type Wait = fn(&mut Stream<Memory>) -> io::Result<usize>;

// It is the only test here: another one would hold memory at the same time.
#[test]
fn large_buffers_are_given_back_where_a_read_waits() {
    let calls: [Wait; 2] = [|stream| stream.read(&mut [0]), |stream| stream.fill_buf().map(<[u8]>::len)];
    let (mut client, mut server) = open();
    let before = HELD.load(Ordering::Relaxed);
    let held = || HELD.load(Ordering::Relaxed).saturating_sub(before);
    for wait in calls {
        client.write_all(&vec![1; LARGE]).unwrap();
        client.flush().unwrap();
        server.read_exact(&mut vec![0; LARGE]).unwrap();
        client.get_ref().empty();
        assert!(held() > LARGE + LARGE / 2, "the next frame may be as large");
        for stream in [&mut client, &mut server] {
            assert_eq!(wait(stream).unwrap_err().kind(), ErrorKind::WouldBlock);
        }
        assert!(held() <= 4 * KEPT, "{} bytes", held());
    }
    let (_reads, mut writes) = client.split(|below| Ok(below.clone())).unwrap();
    writes.write_all(&vec![1; LARGE]).unwrap();
    server.get_ref().empty();
    assert!(held() > LARGE / 2);
    writes.flush().unwrap();
    assert!(held() <= 4 * KEPT, "{} bytes", held());
}
