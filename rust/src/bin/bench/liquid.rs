//! liquid-dsp, where it can be linked: SECDED(72,64) with its interleaver, over as many payload bytes as a field holds.

/// Is liquid-dsp part of this build?
pub const LINKED: bool = cfg!(liquid);

#[cfg(not(liquid))]
pub use absent::Liquid;
#[cfg(liquid)]
pub use present::Liquid;

#[cfg(not(liquid))]
mod absent {
    /// Nothing: no value of this type is made.
    pub enum Liquid {}

    impl Liquid {
        pub fn new(_payload: &[u8], _damage: usize) -> Option<Liquid> {
            None
        }

        pub fn write(&mut self, _payload: &[u8]) {
            match *self {}
        }

        pub fn read(&mut self, _payload: &mut [u8]) {
            match *self {}
        }
    }
}

#[cfg(liquid)]
mod present {
    use std::ffi::{c_char, c_int, c_uint, c_void};

    #[link(name = "liquid")]
    extern "C" {
        fn liquid_getopt_str2fec(name: *const c_char) -> c_uint;
        fn fec_get_enc_msg_length(scheme: c_uint, bytes: c_uint) -> c_uint;
        fn fec_create(scheme: c_uint, options: *mut c_void) -> *mut c_void;
        fn fec_encode(fec: *mut c_void, bytes: c_uint, message: *mut u8, coded: *mut u8) -> c_int;
        fn fec_decode(fec: *mut c_void, bytes: c_uint, coded: *mut u8, message: *mut u8) -> c_int;
        fn fec_destroy(fec: *mut c_void) -> c_int;
        fn interleaver_create(bytes: c_uint) -> *mut c_void;
        fn interleaver_encode(interleaver: *mut c_void, from: *mut u8, to: *mut u8) -> c_int;
        fn interleaver_decode(interleaver: *mut c_void, from: *mut u8, to: *mut u8) -> c_int;
        fn interleaver_destroy(interleaver: *mut c_void) -> c_int;
    }

    /// The code and the interleaver for payloads of one length, and their buffers.
    pub struct Liquid {
        fec: *mut c_void,
        interleaver: *mut c_void,
        bytes: usize,
        /// The coded message, and the interleaved one.
        coded: Vec<u8>,
        sent: Vec<u8>,
        /// An interleaved message with damage, which is read.
        damaged: Vec<u8>,
    }

    impl Liquid {
        /// Writes the payload and damages one bit in each of some blocks, as far as there are blocks.
        pub fn new(payload: &[u8], damage: usize) -> Option<Liquid> {
            let bytes = payload.len();
            // SAFETY: the name ends with a 0, no options are passed, and the lengths are those of the message.
            let (fec, interleaver, coded) = unsafe {
                let scheme = liquid_getopt_str2fec(b"secded7264\0".as_ptr().cast());
                let coded = fec_get_enc_msg_length(scheme, bytes as c_uint);
                (fec_create(scheme, std::ptr::null_mut()), interleaver_create(coded), coded as usize)
            };
            assert!(!fec.is_null() && !interleaver.is_null());
            let mut liquid =
                Liquid { fec, interleaver, bytes, coded: vec![0; coded], sent: vec![0; coded], damaged: vec![0; coded] };
            liquid.write(payload);
            let blocks = coded.div_ceil(9);
            let mut coded = liquid.coded.clone();
            for i in 0..damage.min(blocks) {
                coded[i * blocks / damage.min(blocks) * 9 + 1] ^= 1;
            }
            // SAFETY: the buffers have the interleaver's length.
            unsafe { interleaver_encode(interleaver, coded.as_mut_ptr(), liquid.damaged.as_mut_ptr()) };
            Some(liquid)
        }

        /// Codes a payload and interleaves it.
        pub fn write(&mut self, payload: &[u8]) {
            assert_eq!(payload.len(), self.bytes);
            // SAFETY: the buffers have the lengths that the code and the interleaver were made for; the payload is only read.
            unsafe {
                fec_encode(self.fec, self.bytes as c_uint, payload.as_ptr().cast_mut(), self.coded.as_mut_ptr());
                interleaver_encode(self.interleaver, self.coded.as_mut_ptr(), self.sent.as_mut_ptr());
            }
        }

        /// Puts the damaged message in order and decodes it.
        pub fn read(&mut self, payload: &mut [u8]) {
            assert_eq!(payload.len(), self.bytes);
            // SAFETY: the buffers have the lengths that the code and the interleaver were made for.
            unsafe {
                interleaver_decode(self.interleaver, self.damaged.as_mut_ptr(), self.coded.as_mut_ptr());
                fec_decode(self.fec, self.bytes as c_uint, self.coded.as_mut_ptr(), payload.as_mut_ptr());
            }
        }
    }

    impl Drop for Liquid {
        fn drop(&mut self) {
            // SAFETY: both were made in `new` and are not used again.
            unsafe {
                fec_destroy(self.fec);
                interleaver_destroy(self.interleaver);
            }
        }
    }
}
