//! Standard inputs that can't be read to their end.

use std::fs::File;
use std::io::Write;
use std::os::fd::OwnedFd;
use std::os::unix::net::UnixStream;
use std::process::Stdio;

/// An input that gives these bytes and then an error, since reading it waits for no more; and the
/// end through which more may come.
pub fn impatient(bytes: &[u8]) -> (Stdio, UnixStream) {
    let (mut ours, theirs) = UnixStream::pair().expect("a pair of sockets");
    let set = theirs.set_nonblocking(true);
    set.expect("a socket need not wait");
    ours.write_all(bytes).expect("room for some bytes");
    (OwnedFd::from(theirs).into(), ours)
}

/// An input that gives an error at once.
pub fn directory() -> Stdio {
    File::open("/").expect("a directory can be opened").into()
}
