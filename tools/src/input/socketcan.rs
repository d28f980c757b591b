//! Frames of Linux CAN interfaces. The calls are the system's own: the standard library has none for them.

use super::Sink;
use crate::failure::Failure;

#[cfg(not(target_os = "linux"))]
pub fn run(_: &[String], _: &mut dyn Sink) -> Result<(), Failure> {
    Err(Failure::Reading(
        "CAN interfaces are read on Linux only".to_string(),
    ))
}

#[cfg(target_os = "linux")]
pub use linux::run;

#[cfg(target_os = "linux")]
mod linux {
    use super::*;
    use crate::frame::Frame;
    use crate::input::candump::{ERROR_FRAME, REMOTE_FRAME, SHORT_ID};
    use crate::input::Fault;
    use crate::interrupt;
    use std::ffi::{c_char, c_int, c_uint, c_ulong, c_void, CString};
    use std::fs::File;
    use std::io::{self, ErrorKind, Read};
    use std::os::fd::{AsRawFd, FromRawFd};
    use std::time::Instant;

    const AF_CAN: c_int = 29;
    const SOCK_RAW: c_int = 3;
    const SOCK_CLOEXEC: c_int = 0o2000000;
    const CAN_RAW: c_int = 1;
    const POLLIN: i16 = 1;
    /// Flags in a frame's ID: of 29 bits, remote, error.
    const EXTENDED: u32 = 0x80000000;
    const REMOTE: u32 = 0x40000000;
    const ERROR: u32 = 0x20000000;
    const FLAGS: u32 = EXTENDED | REMOTE | ERROR;

    /// struct sockaddr_can: the family, and an address of which raw sockets have the interface alone.
    #[repr(C)]
    struct Address {
        family: u16,
        interface: c_int,
        rest: [u8; 16],
    }

    #[repr(C)]
    struct Poll {
        descriptor: c_int,
        events: i16,
        came: i16,
    }

    extern "C" {
        fn socket(domain: c_int, kind: c_int, protocol: c_int) -> c_int;
        fn bind(socket: c_int, address: *const c_void, length: c_uint) -> c_int;
        fn if_nametoindex(name: *const c_char) -> c_uint;
        fn poll(sockets: *mut Poll, count: c_ulong, timeout: c_int) -> c_int;
    }

    pub fn run(names: &[String], sink: &mut dyn Sink) -> Result<(), Failure> {
        let mut sockets = Vec::new();
        for name in names {
            let opened = open(name);
            sockets.push(
                opened
                    .map_err(|error| Failure::Reading(format!("cannot read {name:?}: {error}")))?,
            );
        }
        let start = Instant::now();
        let mut count = 0;
        while !interrupt::came() {
            for interface in ready(&sockets).map_err(|_| Failure::reading())? {
                // struct can_frame: ID and flags, length, three bytes, data
                let mut bytes = [0; 16];
                let read = sockets[interface].read(&mut bytes);
                match read {
                    Ok(16) => (),
                    Err(error) if error.kind() == ErrorKind::Interrupted => continue,
                    _ => return Err(Failure::reading()),
                }
                let id = u32::from_ne_bytes(bytes[..4].try_into().expect("4 bytes"));
                count += 1;
                match left_out(id) {
                    Some(reason) => sink.fault(count, &Fault::LeftOut(reason))?,
                    None => sink.frame(&Frame {
                        time: start.elapsed().as_micros() as u64,
                        id: id & !FLAGS,
                        interface: interface as u32,
                        length: bytes[4].min(8),
                        bytes: bytes[8..].try_into().expect("8 bytes"),
                    })?,
                }
            }
            sink.pause()?;
        }
        Ok(())
    }

    /// Why a frame is none for a receiver, by the flags in its ID.
    fn left_out(id: u32) -> Option<&'static str> {
        match id & FLAGS {
            EXTENDED => None,
            flags if flags & ERROR != 0 => Some(ERROR_FRAME),
            flags if flags & REMOTE != 0 => Some(REMOTE_FRAME),
            _ => Some(SHORT_ID),
        }
    }

    fn open(name: &str) -> io::Result<File> {
        let c_name = CString::new(name)?;
        let interface = unsafe { if_nametoindex(c_name.as_ptr()) };
        if interface == 0 {
            return Err(io::Error::last_os_error());
        }
        let descriptor = unsafe { socket(AF_CAN, SOCK_RAW | SOCK_CLOEXEC, CAN_RAW) };
        if descriptor < 0 {
            return Err(io::Error::last_os_error());
        }
        let file = unsafe { File::from_raw_fd(descriptor) };
        let address = Address {
            family: AF_CAN as u16,
            interface: interface as c_int,
            rest: [0; 16],
        };
        let length = size_of::<Address>() as c_uint;
        match unsafe { bind(descriptor, (&raw const address).cast(), length) } {
            0 => Ok(file),
            _ => Err(io::Error::last_os_error()),
        }
    }

    /// Waits, and gives the sockets from which can be read.
    fn ready(sockets: &[File]) -> io::Result<Vec<usize>> {
        let of = |socket: &File| Poll {
            descriptor: socket.as_raw_fd(),
            events: POLLIN,
            came: 0,
        };
        let mut polls: Vec<Poll> = sockets.iter().map(of).collect();
        if unsafe { poll(polls.as_mut_ptr(), polls.len() as c_ulong, -1) } < 0 {
            let error = io::Error::last_os_error();
            return match error.kind() {
                ErrorKind::Interrupted => Ok(Vec::new()),
                _ => Err(error),
            };
        }
        let came = polls.iter().enumerate().filter(|(_, poll)| poll.came != 0);
        Ok(came.map(|(place, _)| place).collect())
    }
}
