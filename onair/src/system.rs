//! What the system is asked for: a clock that all processes share, datagrams on the loopback's broadcast address, waiting,
//! and signals to a process that the runner has started. Everything unsafe but the library's own calls is here.

use std::ffi::{c_int, c_long, c_short, c_uint, c_ulong, c_void};
use std::io;
use std::net::{Ipv4Addr, SocketAddrV4, UdpSocket};
use std::os::fd::{AsRawFd, FromRawFd, OwnedFd};
use std::time::Duration;

/// Nothing is ever sent elsewhere.
pub const AIR: Ipv4Addr = Ipv4Addr::new(127, 255, 255, 255);
/// The longest datagram that a receiver has room for.
pub const DATAGRAM_MAX: usize = 65_536;

const AF_INET: c_int = 2;
const SOCK_DGRAM: c_int = 2;
const SOCK_CLOEXEC: c_int = 0o2_000_000;
const SOL_SOCKET: c_int = 1;
const SO_REUSEADDR: c_int = 2;
const SO_RCVBUF: c_int = 8;
const SO_RCVBUFFORCE: c_int = 33;
const MSG_PEEK: c_int = 2;
const MSG_DONTWAIT: c_int = 64;
const POLLIN: c_short = 1;
const CLOCK_MONOTONIC: c_int = 1;
const PR_SET_PDEATHSIG: c_int = 1;
const SIGKILL: c_ulong = 9;
const SIGCONT: c_int = 18;
const SIGSTOP: c_int = 19;

#[repr(C)]
struct SockAddrIn {
    family: u16,
    port: u16,
    address: u32,
    zero: [u8; 8],
}

#[repr(C)]
struct PollFd {
    fd: c_int,
    events: c_short,
    revents: c_short,
}

#[repr(C)]
struct TimeSpec {
    seconds: c_long,
    nanos: c_long,
}

extern "C" {
    fn socket(domain: c_int, kind: c_int, protocol: c_int) -> c_int;
    fn setsockopt(fd: c_int, level: c_int, name: c_int, value: *const c_void, len: c_uint) -> c_int;
    fn getsockopt(fd: c_int, level: c_int, name: c_int, value: *mut c_void, len: *mut c_uint) -> c_int;
    fn bind(fd: c_int, address: *const SockAddrIn, len: c_uint) -> c_int;
    fn recv(fd: c_int, buffer: *mut c_void, len: usize, flags: c_int) -> isize;
    fn poll(fds: *mut PollFd, count: c_ulong, timeout: c_int) -> c_int;
    fn clock_gettime(clock: c_int, time: *mut TimeSpec) -> c_int;
    fn kill(process: c_int, signal: c_int) -> c_int;
    fn prctl(option: c_int, value: c_ulong) -> c_int;
}

/// Microseconds of the clock that only runs forward, one for all processes of the machine.
pub fn micros() -> u64 {
    let mut time = TimeSpec { seconds: 0, nanos: 0 };
    // SAFETY: the call fills the lent place
    unsafe { clock_gettime(CLOCK_MONOTONIC, &mut time) };
    time.seconds as u64 * 1_000_000 + time.nanos as u64 / 1_000
}

/// The run's clock: the product's time is 0 where it starts.
#[derive(Clone, Copy)]
pub struct Clock {
    pub start: u64,
}

impl Clock {
    pub fn micros(self) -> u64 {
        micros().saturating_sub(self.start)
    }

    pub fn ms(self) -> u64 {
        self.micros() / 1_000
    }

    pub fn sleep_until(self, at_micros: u64) {
        let now = micros();
        let wake = self.start + at_micros;
        if wake > now {
            std::thread::sleep(Duration::from_micros(wake - now));
        }
    }
}

/// A socket that sends to the air.
pub fn sender() -> io::Result<UdpSocket> {
    let socket = UdpSocket::bind((Ipv4Addr::LOCALHOST, 0))?;
    socket.set_broadcast(true)?;
    Ok(socket)
}

pub fn send(socket: &UdpSocket, port: u16, bytes: &[u8]) -> io::Result<()> {
    socket.send_to(bytes, SocketAddrV4::new(AIR, port)).map(|_| ())
}

/// A socket that hears what is sent to a port of the air, beside any others that do.
pub struct Tuner(OwnedFd);

fn checked(answer: c_int) -> io::Result<c_int> {
    if answer < 0 {
        return Err(io::Error::last_os_error());
    }
    Ok(answer)
}

impl Tuner {
    pub fn on(port: u16, room: usize) -> io::Result<Tuner> {
        // SAFETY: a descriptor that was just made has no other owner
        let tuner = unsafe { Tuner(OwnedFd::from_raw_fd(checked(socket(AF_INET, SOCK_DGRAM | SOCK_CLOEXEC, 0))?)) };
        tuner.set(SO_REUSEADDR, 1)?;
        // more than the system's limit is for the superuser alone
        tuner.set(SO_RCVBUFFORCE, room as c_int).or_else(|_| tuner.set(SO_RCVBUF, room as c_int))?;
        let address =
            SockAddrIn { family: AF_INET as u16, port: port.to_be(), address: u32::from(AIR).to_be(), zero: [0; 8] };
        // SAFETY: the address lives while the call reads it, and the length is its own
        checked(unsafe { bind(tuner.0.as_raw_fd(), &address, size_of::<SockAddrIn>() as c_uint) })?;
        Ok(tuner)
    }

    fn set(&self, name: c_int, value: c_int) -> io::Result<()> {
        let place = (&raw const value).cast();
        // SAFETY: the value lives while the call reads it, and the length is its own
        checked(unsafe { setsockopt(self.0.as_raw_fd(), SOL_SOCKET, name, place, size_of::<c_int>() as c_uint) })?;
        Ok(())
    }

    /// Bytes that may wait for it.
    pub fn room(&self) -> io::Result<usize> {
        let (mut value, mut len): (c_int, c_uint) = (0, size_of::<c_int>() as c_uint);
        let place = (&raw mut value).cast();
        // SAFETY: the value lives while the call writes it, and the length is its own
        checked(unsafe { getsockopt(self.0.as_raw_fd(), SOL_SOCKET, SO_RCVBUF, place, &mut len) })?;
        Ok(value as usize)
    }

    fn receive(&self, buffer: &mut [u8], flags: c_int) -> Option<usize> {
        // SAFETY: the buffer is lent with its own length
        let n = unsafe { recv(self.0.as_raw_fd(), buffer.as_mut_ptr().cast(), buffer.len(), flags | MSG_DONTWAIT) };
        usize::try_from(n).ok()
    }

    /// The next datagram, if one is there.
    pub fn next(&self, buffer: &mut [u8]) -> Option<usize> {
        self.receive(buffer, 0)
    }

    /// The beginning of the next datagram, which stays there.
    pub fn peek(&self, buffer: &mut [u8]) -> Option<usize> {
        self.receive(buffer, MSG_PEEK)
    }

    /// Throws the next datagram away; its bytes are not copied.
    pub fn pass_over(&self) {
        self.receive(&mut [], 0);
    }
}

/// Waits until one of them has a datagram, or for so many ms; says which have.
pub fn wait_for<'a>(tuners: impl Iterator<Item = &'a Tuner>, ms: u64) -> Vec<bool> {
    let mut places: Vec<PollFd> =
        tuners.map(|tuner| PollFd { fd: tuner.0.as_raw_fd(), events: POLLIN, revents: 0 }).collect();
    // SAFETY: the row is lent with its own length
    unsafe { poll(places.as_mut_ptr(), places.len() as c_ulong, ms.min(1_000) as c_int) };
    places.iter().map(|place| place.revents != 0).collect()
}

/// This process ends with the one that has started it, stopped or not.
pub fn end_with_parent() {
    // SAFETY: the call takes two numbers
    unsafe { prctl(PR_SET_PDEATHSIG, SIGKILL) };
}

/// Stops a process for a while, or lets it go on.
pub fn stop(process: u32, stopped: bool) {
    // SAFETY: a signal to a process that this one has started and not yet waited for
    unsafe { kill(process as c_int, if stopped { SIGSTOP } else { SIGCONT }) };
}

#[cfg(test)]
mod tests {
    use super::*;

    #[test]
    fn every_tuner_hears_each_datagram() {
        let port = 39_000 + (std::process::id() % 1_000) as u16;
        let tuners: Vec<Tuner> = (0..3).map(|_| Tuner::on(port, 1 << 20).expect("a tuner")).collect();
        let socket = sender().expect("a sender");
        send(&socket, port, &[7; 8_000]).expect("sent");
        assert_eq!(wait_for(tuners.iter(), 1_000), [true; 3]);
        let mut buffer = [0; DATAGRAM_MAX];
        for tuner in &tuners {
            assert_eq!(tuner.peek(&mut buffer[..4]), Some(4));
            assert_eq!(tuner.next(&mut buffer), Some(8_000));
            assert_eq!(tuner.next(&mut buffer), None);
        }
    }
}
