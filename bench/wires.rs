// Moves so many bytes over a Unix socket from one of its own links to another, 64 KiB at a time, by
// sockets that never wait: what `wires` of crates/bench does.
// size: 16777216
// size: 134217728
// size: 1073741824
use std::io::{ErrorKind, Read, Write};
use std::os::unix::net::{UnixListener, UnixStream};

fn main() -> std::io::Result<()> {
    let size: u64 = std::env::args().nth(1).map_or(100_000, |word| word.parse().unwrap());
    let path = format!("/tmp/bench-wires-{}", std::process::id());
    let listener = UnixListener::bind(&path)?;
    let mut from = UnixStream::connect(&path)?;
    let mut to = listener.accept()?.0;
    from.set_nonblocking(true)?;
    to.set_nonblocking(true)?;
    let mut buffer = vec![1u8; 65536];
    let (mut sent, mut read) = (0u64, 0u64);
    while read < size {
        if sent < size {
            let most = (size - sent).min(buffer.len() as u64) as usize;
            match from.write(&buffer[..most]) {
                Ok(n) => sent += n as u64,
                Err(error) if error.kind() == ErrorKind::WouldBlock => {}
                Err(error) => return Err(error),
            }
        }
        match to.read(&mut buffer) {
            Ok(0) => break,
            Ok(n) => read += n as u64,
            Err(error) if error.kind() == ErrorKind::WouldBlock => {}
            Err(error) => return Err(error),
        }
    }
    std::fs::remove_file(&path)?;
    println!("{read} bytes");
    Ok(())
}
