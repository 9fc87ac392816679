// The structs of include/noise.h, and the calls of it, whose prototypes bindings/make-declarations writes: all `unsafe`
// of this crate is here.
//
// Each call is sound since the types ensure what the header asks of a caller. Pointers come from references and slices:
// none is NULL, each leads to as many bytes as its count says, and one that isn't const comes from `&mut`, so no other
// pointer leads there. The opaque structs are aligned to 8 by their declaration, and their sizes are compared with the
// library's before the first is written (`is_library`). A call that changes an opaque struct takes it as `&mut`: no
// other thread has it. A call that takes it as const takes `&`: the header allows such calls at once, on any number of
// threads, so the structs are `Sync`. The call checks a struct's content.
use crate::header::*;
use core::mem::{size_of, size_of_val, MaybeUninit};
use core::sync::atomic::{compiler_fence, AtomicBool, Ordering};

#[repr(C)]
#[derive(Clone, Copy, Default)]
pub(crate) struct Key {
    present: u8,
    bytes: [u8; KEY_LEN],
}

#[repr(C)]
pub(crate) struct Setup {
    pub(crate) responder: u8,
    pub(crate) e: Key,
    pub(crate) s: Key,
    pub(crate) remote_e: Key,
    pub(crate) remote_s: Key,
    pub(crate) psk_count: u8,
    pub(crate) psks: [[u8; KEY_LEN]; MAX_PSKS],
}

#[repr(C)]
#[derive(Clone, Copy, Default)]
pub(crate) struct Needed {
    pub(crate) e: u8,
    pub(crate) s: u8,
    pub(crate) remote_e: u8,
    pub(crate) remote_s: u8,
}

#[repr(C)]
#[derive(Clone, Default)]
pub(crate) struct PatternInfo {
    pub(crate) messages: u8,
    pub(crate) one_way: u8,
    pub(crate) psks: u8,
    pub(crate) needed: [Needed; 2],
    pre_messages: [[u8; 2]; 2],
    tokens: [[u8; 10]; 8],
}

#[repr(C)]
#[derive(Default)]
#[allow(dead_code)] // the library writes them
struct PatternResult {
    line: usize,
    rule: u8,
    message: u8,
    token: u8,
    messages: u8,
}

#[repr(C)]
#[derive(Default)]
pub(crate) struct CallResult {
    pub(crate) from: usize,
    pub(crate) len: usize,
    pub(crate) token: u8,
    pub(crate) of_static: u8,
    pub(crate) remote: [u8; KEY_LEN],
    pub(crate) remote_known: u8,
}

#[repr(C)]
#[derive(Default)]
pub(crate) struct StreamResult {
    pub(crate) from: usize,
    pub(crate) len: usize,
    pub(crate) used: usize,
    pub(crate) wanted: usize,
}

#[repr(C)]
#[derive(Default)]
pub(crate) struct Stage {
    pub(crate) messages: u8,
    pub(crate) passed: u8,
    pub(crate) ended: u8,
    pub(crate) writes_next: u8,
}

impl Stage {
    // That of a handshake which has begun.
    pub(crate) fn first(messages: usize, responder: u8) -> Stage {
        Stage { messages: messages as u8, passed: 0, ended: 0, writes_next: 1 - responder }
    }

    // That after one more message.
    pub(crate) fn next(&self) -> Stage {
        Stage { passed: self.passed + 1, writes_next: 1 - self.writes_next, ..*self }
    }

    // Whether both say the same: once all messages have passed, nobody writes the next.
    pub(crate) fn is(&self, other: &Stage) -> bool {
        let of_all = |stage: &Stage| (stage.messages, stage.passed, stage.ended);
        of_all(self) == of_all(other) && (self.passed == self.messages || self.writes_next == other.writes_next)
    }
}

// The sizes that C gives these structs.
const _: () = assert!(size_of::<Key>() == 33 && size_of::<Setup>() == 2 + 4 * 33 + 9 * 32 && size_of::<Stage>() == 4);
const _: () =
    assert!(size_of::<PatternInfo>() == 3 + 2 * 4 + 4 + 80 && size_of::<PatternResult>() == 2 * size_of::<usize>());
#[cfg(target_pointer_width = "64")]
const _: () = assert!(size_of::<CallResult>() == 56 && size_of::<StreamResult>() == 32);

// Declares functions of the library. Those of the text in this crate have the version in their names:
// build.rs writes them so.
macro_rules! calls {
    ($(fn $name:ident($($argument:ident: $type:ty),* $(,)?) -> $answer:ty;)*) => {
        extern "C" {
            $(
                #[cfg_attr(
                    not(feature = "system"),
                    link_name = concat!(
                        "noise_c_",
                        env!("CARGO_PKG_VERSION_MAJOR"),
                        "_",
                        env!("CARGO_PKG_VERSION_MINOR"),
                        "_",
                        env!("CARGO_PKG_VERSION_PATCH"),
                        "_",
                        stringify!($name)
                    )
                )]
                pub(super) fn $name($($argument: $type),*) -> $answer;
            )*
        }
    };
}

#[cfg(feature = "system")]
#[link(name = "noise_c")]
extern "C" {}

// An opaque struct where it stays while what has it is moved: a move would leave a copy.
#[cfg(feature = "alloc")]
pub(crate) type Held<T> = alloc::boxed::Box<T>;
#[cfg(not(feature = "alloc"))]
pub(crate) type Held<T> = T;

// A struct of bytes that are zeros. With alloc they are made where they stay.
//
// SAFETY: T has bytes alone.
unsafe fn zeros<T>() -> Held<T> {
    #[cfg(feature = "alloc")]
    {
        use alloc::alloc::{alloc_zeroed, handle_alloc_error, Layout};
        let layout = Layout::new::<T>();
        // SAFETY: it has bytes, and zeros are bytes.
        let place = unsafe { alloc_zeroed(layout) }.cast::<T>();
        if place.is_null() {
            handle_alloc_error(layout);
        }
        // SAFETY: the allocator has made it for this type.
        unsafe { Held::from_raw(place) }
    }
    #[cfg(not(feature = "alloc"))]
    // SAFETY: zeros are bytes.
    unsafe {
        core::mem::zeroed()
    }
}

macro_rules! structs {
    ($($name:ident $size:ident $size_in_c:ident;)*) => {
        $(
            #[repr(C, align(8))]
            pub(crate) struct $name([u8; $size]);

            const _: () = assert!(size_of::<$name>() == $size);

            impl $name {
                // Memory that holds nothing: each call on it returns STRUCT.
                pub(crate) fn new() -> Held<$name> {
                    // SAFETY: it has bytes alone.
                    unsafe { zeros() }
                }

                #[cfg(test)]
                #[allow(dead_code)]
                pub(crate) fn memory(&self) -> &[u8] {
                    &self.0
                }
            }

            impl Drop for $name {
                fn drop(&mut self) {
                    wipe(&mut self.0);
                }
            }
        )*

        fn has_sizes() -> bool {
            // SAFETY: these take nothing.
            unsafe { true $(&& $size_in_c() == size_of::<$name>())* }
        }
    };
}

structs! {
    Handshake SIZE_OF_HANDSHAKE noise_handshake_size;
    StreamSender SIZE_OF_STREAM_SENDER noise_stream_sender_size;
    StreamReceiver SIZE_OF_STREAM_RECEIVER noise_stream_receiver_size;
    Sender SIZE_OF_SENDER noise_sender_size;
    Receiver SIZE_OF_RECEIVER noise_receiver_size;
    DatagramSender SIZE_OF_DATAGRAM_SENDER noise_datagram_sender_size;
    DatagramReceiver SIZE_OF_DATAGRAM_RECEIVER noise_datagram_receiver_size;
    Cipher SIZE_OF_CIPHER noise_cipher_size;
}

mod prototypes;
use prototypes::*;

impl Key {
    pub(crate) fn of(bytes: Option<[u8; KEY_LEN]>) -> Key {
        bytes.map_or_else(Key::default, |bytes| Key { present: 1, bytes })
    }

    fn bytes(self) -> Option<[u8; KEY_LEN]> {
        Some(self.bytes).filter(|_| self.present != 0)
    }
}

impl Setup {
    pub(crate) fn new(responder: u8, e: Key) -> Setup {
        let none = Key::default();
        let psks = [[0; KEY_LEN]; MAX_PSKS];
        Setup { responder, e, s: none, remote_e: none, remote_s: none, psk_count: 0, psks }
    }
}

impl Drop for Setup {
    fn drop(&mut self) {
        let start = self.psks.as_mut_ptr().cast::<u8>();
        // SAFETY: these are the bytes of all psks.
        wipe(unsafe { core::slice::from_raw_parts_mut(start, size_of_val(&self.psks)) });
    }
}

// Overwrites bytes with zeros, in a way that the compiler keeps.
pub(crate) fn wipe(bytes: &mut [u8]) {
    // SAFETY: any eight bytes are a number.
    let (first, numbers, last) = unsafe { bytes.align_to_mut::<u64>() };
    for byte in first.iter_mut().chain(last) {
        // SAFETY: a reference leads to a byte that may be written.
        unsafe { core::ptr::write_volatile(byte, 0) };
    }
    for number in numbers {
        // SAFETY: a reference leads to a number that may be written.
        unsafe { core::ptr::write_volatile(number, 0) };
    }
    compiler_fence(Ordering::SeqCst);
}

// Overwrites the stack below the caller, as deep as calls of the library and of X25519 reach.
#[inline(never)]
pub(crate) fn wipe_stack() {
    let mut stack = MaybeUninit::<[u64; STACK / 8]>::uninit();
    let start = stack.as_mut_ptr().cast::<u64>();
    for place in 0..STACK / 8 {
        // SAFETY: the array has so many places, which may be written.
        unsafe { start.add(place).write_volatile(0) };
    }
    compiler_fence(Ordering::SeqCst);
}

const STACK: usize = 24 << 10;

// The same number, of which the compiler knows nothing.
#[cfg(feature = "x25519")]
pub(crate) fn hidden(number: u64) -> u64 {
    // SAFETY: a reference leads to a number that may be read.
    unsafe { core::ptr::read_volatile(&number) }
}

static IS_LIBRARY: AtomicBool = AtomicBool::new(false);

// Whether the linked library is one that this crate's constants are of: the same major version and no lower number, and
// the same sizes. It is asked until it is so.
pub(crate) fn is_library() -> bool {
    if IS_LIBRARY.load(Ordering::Relaxed) {
        return true;
    }
    let is = is_version(version()) && has_sizes();
    IS_LIBRARY.store(is, Ordering::Relaxed);
    is
}

fn version() -> u32 {
    // SAFETY: it takes nothing.
    unsafe { noise_version() }
}

fn is_version(version: u32) -> bool {
    let own = VERSION[0] << 16 | VERSION[1] << 8 | VERSION[2];
    version >> 16 == VERSION[0] && version >= own
}

// Puts the length in front of a message that was written to buffer[2..].
pub(crate) fn frame_message(buffer: &mut [u8], message_len: usize, result: &mut StreamResult) -> u32 {
    // SAFETY: see above.
    unsafe { noise_frame_message(buffer.as_mut_ptr(), buffer.len(), message_len, result) }
}

// Looks for the message at the start of a buffer.
pub(crate) fn frame_find(buffer: &[u8], result: &mut StreamResult) -> u32 {
    // SAFETY: see above.
    unsafe { noise_frame_find(buffer.as_ptr(), buffer.len(), result) }
}

// How often this thread asked of a pattern.
#[cfg(all(test, feature = "std"))]
std::thread_local! {
    pub(crate) static ASKED: core::cell::Cell<usize> = core::cell::Cell::new(0);
}

impl PatternInfo {
    // What the pattern has of this protocol name or text.
    pub(crate) fn read(&mut self, pattern: &[u8]) -> u32 {
        #[cfg(all(test, feature = "std"))]
        ASKED.with(|asked| asked.set(asked.get() + 1));
        // SAFETY: see above.
        unsafe { noise_pattern(pattern.as_ptr(), pattern.len(), self, &mut PatternResult::default()) }
    }
}

impl Handshake {
    pub(crate) fn start(&mut self, pattern: &[u8], prologue: &[u8], setup: &Setup) -> u32 {
        // SAFETY: see above.
        unsafe { noise_start(self, pattern.as_ptr(), pattern.len(), prologue.as_ptr(), prologue.len(), setup) }
    }

    pub(crate) fn answer(&mut self, of_static: u8, remote: &[u8; KEY_LEN], dh_result: &[u8; KEY_LEN]) -> u32 {
        // SAFETY: see above.
        unsafe { noise_answer(self, of_static, remote.as_ptr(), dh_result.as_ptr()) }
    }

    pub(crate) fn set_psk(&mut self, psk: &[u8; KEY_LEN]) -> u32 {
        // SAFETY: see above.
        unsafe { noise_set_psk(self, psk.as_ptr()) }
    }

    pub(crate) fn unset_psk(&mut self) {
        // SAFETY: see above.
        unsafe { noise_unset_psk(self) };
    }

    pub(crate) fn write(&mut self, payload: &[u8], out: &mut [u8], result: &mut CallResult) -> u32 {
        // SAFETY: see above.
        unsafe { noise_write(self, payload.as_ptr(), payload.len(), out.as_mut_ptr(), out.len(), result) }
    }

    pub(crate) fn read(&mut self, message: &mut [u8], result: &mut CallResult) -> u32 {
        // SAFETY: see above.
        unsafe { noise_read(self, message.as_mut_ptr(), message.len(), result) }
    }

    pub(crate) fn try_read(&mut self, message: &mut [u8], result: &mut CallResult) -> u32 {
        // SAFETY: see above.
        unsafe { noise_try_read(self, message.as_mut_ptr(), message.len(), result) }
    }

    pub(crate) fn message_len(&self, payload_len: usize) -> Option<usize> {
        let mut len = 0;
        // SAFETY: see above.
        Some(unsafe { noise_message_len(self, payload_len, &mut len) }).filter(|code| *code == OK).map(|_| len)
    }

    pub(crate) fn hash(&self) -> [u8; KEY_LEN] {
        let mut hash = [0; KEY_LEN];
        // SAFETY: see above.
        unsafe { noise_hash(self, hash.as_mut_ptr()) };
        hash
    }

    pub(crate) fn remote_static(&self) -> Option<[u8; KEY_LEN]> {
        let mut key = Key::default();
        // SAFETY: see above.
        unsafe { noise_remote_static(self, &mut key) };
        key.bytes()
    }

    pub(crate) fn stage(&self) -> Stage {
        let mut stage = Stage::default();
        // SAFETY: see above.
        unsafe { noise_stage(self, &mut stage) };
        stage
    }

    pub(crate) fn finish_stream(&mut self, interval: u64, s: &mut StreamSender, r: &mut StreamReceiver) -> u32 {
        // SAFETY: see above.
        unsafe { noise_finish_stream(self, interval, s, r) }
    }

    pub(crate) fn finish(&mut self, interval: u64, sender: &mut Sender, receiver: &mut Receiver) -> u32 {
        // SAFETY: see above.
        unsafe { noise_finish(self, interval, sender, receiver) }
    }

    pub(crate) fn finish_datagrams(&mut self, window: u32, s: &mut DatagramSender, r: &mut DatagramReceiver) -> u32 {
        // SAFETY: see above.
        unsafe { noise_finish_datagrams(self, window, s, r) }
    }

    pub(crate) fn finish_ciphers(&mut self, send: &mut Cipher, receive: &mut Cipher) -> u32 {
        // SAFETY: see above.
        unsafe { noise_finish_ciphers(self, send, receive) }
    }
}

impl StreamSender {
    pub(crate) fn write(&mut self, payload: &[u8], out: &mut [u8], result: &mut StreamResult) -> u32 {
        // SAFETY: see above.
        unsafe { noise_stream_write(self, payload.as_ptr(), payload.len(), out.as_mut_ptr(), out.len(), result) }
    }

    pub(crate) fn end(&mut self, out: &mut [u8], result: &mut StreamResult) -> u32 {
        // SAFETY: see above.
        unsafe { noise_stream_end(self, out.as_mut_ptr(), out.len(), result) }
    }
}

impl StreamReceiver {
    pub(crate) fn read(&mut self, buffer: &mut [u8], result: &mut StreamResult) -> u32 {
        // SAFETY: see above.
        unsafe { noise_stream_read(self, buffer.as_mut_ptr(), buffer.len(), result) }
    }

    pub(crate) fn is_cut(&self, left: usize) -> u32 {
        // SAFETY: see above.
        unsafe { noise_stream_is_cut(self, left) }
    }
}

impl Sender {
    #[inline]
    pub(crate) fn seal(&mut self, payload: &[u8], out: &mut [u8], result: &mut CallResult) -> u32 {
        // SAFETY: see above.
        unsafe { noise_seal(self, payload.as_ptr(), payload.len(), out.as_mut_ptr(), out.len(), result) }
    }

    #[inline]
    pub(crate) fn seal_in_place(&mut self, buffer: &mut [u8], payload_len: usize, result: &mut CallResult) -> u32 {
        // SAFETY: see above.
        unsafe { noise_seal_in_place(self, buffer.as_mut_ptr(), buffer.len(), payload_len, result) }
    }

    pub(crate) fn nonce(&self) -> u64 {
        let mut nonce = 0;
        // SAFETY: see above.
        unsafe { noise_sender_nonce(self, &mut nonce) };
        nonce
    }
}

impl Receiver {
    #[inline]
    pub(crate) fn open(&mut self, message: &mut [u8], result: &mut CallResult) -> u32 {
        // SAFETY: see above.
        unsafe { noise_open(self, message.as_mut_ptr(), message.len(), result) }
    }

    pub(crate) fn nonce(&self) -> u64 {
        let mut nonce = 0;
        // SAFETY: see above.
        unsafe { noise_receiver_nonce(self, &mut nonce) };
        nonce
    }
}

impl DatagramSender {
    #[inline]
    pub(crate) fn seal(&mut self, payload: &[u8], out: &mut [u8], result: &mut CallResult) -> u32 {
        // SAFETY: see above.
        unsafe { noise_datagram_seal(self, payload.as_ptr(), payload.len(), out.as_mut_ptr(), out.len(), result) }
    }

    #[inline]
    pub(crate) fn seal_in_place(&mut self, buffer: &mut [u8], payload_len: usize, result: &mut CallResult) -> u32 {
        // SAFETY: see above.
        unsafe { noise_datagram_seal_in_place(self, buffer.as_mut_ptr(), buffer.len(), payload_len, result) }
    }

    pub(crate) fn nonce(&self) -> u64 {
        let mut nonce = 0;
        // SAFETY: see above.
        unsafe { noise_datagram_sender_nonce(self, &mut nonce) };
        nonce
    }
}

impl DatagramReceiver {
    #[inline]
    pub(crate) fn open(&mut self, datagram: &mut [u8], result: &mut CallResult) -> u32 {
        // SAFETY: see above.
        unsafe { noise_datagram_open(self, datagram.as_mut_ptr(), datagram.len(), result) }
    }
}

impl Cipher {
    pub(crate) fn encrypt(&mut self, ad: &[u8], buffer: &mut [u8], text_len: usize, result: &mut CallResult) -> u32 {
        // SAFETY: see above.
        unsafe {
            noise_cipher_encrypt(self, ad.as_ptr(), ad.len(), buffer.as_mut_ptr(), buffer.len(), text_len, result)
        }
    }

    pub(crate) fn decrypt(&mut self, ad: &[u8], message: &mut [u8], result: &mut CallResult) -> u32 {
        // SAFETY: see above.
        unsafe { noise_cipher_decrypt(self, ad.as_ptr(), ad.len(), message.as_mut_ptr(), message.len(), result) }
    }

    pub(crate) fn rekey(&mut self) -> u32 {
        // SAFETY: see above.
        unsafe { noise_cipher_rekey(self) }
    }

    pub(crate) fn nonce(&self) -> u64 {
        let mut nonce = 0;
        // SAFETY: see above.
        unsafe { noise_cipher_nonce(self, &mut nonce) };
        nonce
    }

    pub(crate) fn set_nonce(&mut self, nonce: u64) -> u32 {
        // SAFETY: see above.
        unsafe { noise_cipher_set_nonce(self, nonce) }
    }
}

#[cfg(test)]
mod tests {
    use super::*;
    use core::mem::ManuallyDrop;

    #[test]
    fn another_version_is_refused() {
        assert!(is_library());
        assert!(is_version(0x10000) && is_version(0x10001) && is_version(0x10200));
        assert!(!is_version(0) && !is_version(0xffff) && !is_version(0x20000) && !is_version(0x1010000));
    }

    #[test]
    #[cfg(not(feature = "system"))]
    fn the_text_has_this_version() {
        assert_eq!(version(), VERSION[0] << 16 | VERSION[1] << 8 | VERSION[2]);
    }

    #[test]
    fn what_is_dropped_is_overwritten() {
        let mut handshake = ManuallyDrop::new(Handshake([7; SIZE_OF_HANDSHAKE]));
        let mut setup = ManuallyDrop::new(Setup::new(0, Key::default()));
        setup.psks = [[7; KEY_LEN]; MAX_PSKS];
        // SAFETY: neither is used as what it was any more; both are bytes, which stay.
        unsafe {
            ManuallyDrop::drop(&mut handshake);
            ManuallyDrop::drop(&mut setup);
        }
        assert!(handshake.0 == [0; SIZE_OF_HANDSHAKE] && setup.psks == [[0; KEY_LEN]; MAX_PSKS]);
    }
}
