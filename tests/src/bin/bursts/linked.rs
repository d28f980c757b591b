//! The archive's receiver.

use crate::sides::{Side, OWN, SIGNATURE, TYPE};
use reference::receive::Frame;

#[link(name = "tecelume", kind = "static")]
extern "C" {
    fn tecelume_receiver_size() -> u64;
    fn tecelume_setup(
        state: *mut u8,
        state_length: usize,
        own: u32,
        subscriptions: *const u8,
        subscriptions_length: usize,
    ) -> u32;
    fn tecelume_receive_word(
        state: *mut u8,
        state_length: usize,
        id: u32,
        frame: *const u8,
        frame_length: usize,
        interface: u32,
        time: u64,
        out: *mut u8,
        out_length: usize,
    ) -> u64;
}

pub struct Archive {
    state: Vec<u8>,
    out: [u8; 512],
}

impl Archive {
    pub fn new() -> Archive {
        let mut state = vec![0; unsafe { tecelume_receiver_size() } as usize];
        let mut list = vec![0];
        list.extend(u32::from(TYPE).to_le_bytes());
        list.extend(SIGNATURE.to_le_bytes());
        let answer = unsafe {
            tecelume_setup(
                state.as_mut_ptr(),
                state.len(),
                OWN,
                list.as_ptr(),
                list.len(),
            )
        };
        assert_eq!(answer, 0, "setup");
        Archive {
            state,
            out: [0; 512],
        }
    }
}

impl Side for Archive {
    fn receive(&mut self, frame: &Frame) -> u32 {
        let word = unsafe {
            tecelume_receive_word(
                self.state.as_mut_ptr(),
                self.state.len(),
                frame.id,
                frame.data.as_ptr(),
                frame.data.len(),
                frame.interface,
                frame.time,
                self.out.as_mut_ptr(),
                self.out.len(),
            )
        };
        (word & 255) as u32
    }
}
