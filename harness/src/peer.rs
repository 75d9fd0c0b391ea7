//! libfec's `decode_rs_int`, where the harness was built with it.

use crate::cases::Case;
use std::hint::black_box;
use std::time::Instant;

#[cfg(feature = "libfec")]
mod linked {
    use std::ffi::{c_int, c_uint, c_void};

    extern "C" {
        fn init_rs_int(
            symbol_size: c_int,
            field_polynomial: c_int,
            first_root: c_int,
            primitive: c_int,
            roots: c_int,
            pad: c_int,
        ) -> *mut c_void;
        fn decode_rs_int(
            state: *mut c_void,
            data: *mut c_uint,
            erased: *mut c_int,
            erased_count: c_int,
        ) -> c_int;
        fn free_rs_int(state: *mut c_void);
    }

    pub struct Peer(*mut c_void);

    impl Peer {
        /// The code of a word size with n words and K check words, as document 01 has it:
        /// roots 2^1 to 2^K, the words that 2^B - 1 has more left out.
        pub fn new(bits: u32, n: usize, k: usize) -> Option<Peer> {
            let polynomial = match bits {
                4 => 0x13,
                6 => 0x43,
                8 => 0x12D,
                10 => 0x409,
                12 => 0x1069,
                _ => return None,
            };
            let pad = (1 << bits) - 1 - n as c_int;
            let state = unsafe { init_rs_int(bits as c_int, polynomial, 1, 1, k as c_int, pad) };
            (!state.is_null()).then_some(Peer(state))
        }

        /// Corrects in place; whether libfec took the block for correctable. The first
        /// `marked` of the places are those of marked words, counted from the block's first
        /// word, as Debian's libfec does. It writes up to K places back, unless there is
        /// nowhere to.
        pub fn correct(&self, words: &mut [u32], places: &mut [i32], marked: usize) -> bool {
            let data = words.as_mut_ptr();
            let erased = match marked {
                0 => std::ptr::null_mut(),
                _ => places.as_mut_ptr(),
            };
            unsafe { decode_rs_int(self.0, data, erased, marked as c_int) >= 0 }
        }
    }

    impl Drop for Peer {
        fn drop(&mut self) {
            unsafe { free_rs_int(self.0) }
        }
    }
}

#[cfg(not(feature = "libfec"))]
mod absent {
    pub struct Peer;

    impl Peer {
        pub fn new(_bits: u32, _n: usize, _k: usize) -> Option<Peer> {
            None
        }

        pub fn correct(&self, _words: &mut [u32], _places: &mut [i32], _marked: usize) -> bool {
            false
        }
    }
}

#[cfg(not(feature = "libfec"))]
pub use absent::Peer;
#[cfg(feature = "libfec")]
pub use linked::Peer;

impl Peer {
    /// Seconds of so many rounds, and whether every block came out as made. libfec corrects in
    /// place, so each call needs a fresh copy. Copies for one round are made before the clock
    /// starts; only the calls are timed.
    pub fn run(&self, cases: &[Case], rounds: usize) -> (f64, bool) {
        let mut seconds = 0.0;
        let mut right = true;
        for _ in 0..rounds {
            let mut copies: Vec<PeerBlock> = cases.iter().map(PeerBlock::of).collect();
            let mut answered = vec![false; cases.len()];
            let start = Instant::now();
            for (copy, answered) in copies.iter_mut().zip(&mut answered) {
                let words = black_box(&mut copy.words);
                *answered = self.correct(words, &mut copy.places, copy.marked);
            }
            seconds += start.elapsed().as_secs_f64();
            for ((case, copy), answered) in cases.iter().zip(&copies).zip(answered) {
                right &= match &case.known {
                    Some(Ok(made)) => {
                        answered && copy.words.iter().zip(made).all(|(&a, &b)| a == b as u32)
                    }
                    _ => !answered,
                };
            }
        }
        (seconds, right)
    }
}

/// A block as libfec takes it: the places of marked words, with room for K, and words of
/// the field everywhere.
struct PeerBlock {
    words: Vec<u32>,
    places: Vec<i32>,
    marked: usize,
}

impl PeerBlock {
    fn of(case: &Case) -> PeerBlock {
        let call = &case.call;
        let words = call.received.iter().zip(&call.marks);
        let words = words.map(|(&word, &mark)| if mark == 1 { 0 } else { word as u32 });
        let marked = (0..call.marks.len()).filter(|&i| call.marks[i] == 1);
        let mut places: Vec<i32> = marked.map(|i| i as i32).collect();
        let marked = places.len();
        places.resize(call.check_words.max(marked), 0);
        PeerBlock {
            words: words.collect(),
            places,
            marked,
        }
    }
}
