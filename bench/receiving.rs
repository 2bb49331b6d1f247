//! What it takes to be woken for datagrams: a thread for each of so many ports of the loopback, which receives what comes there as a node's
//! receivers do, and does nothing with it. `tests/pair load` runs it beside the nodes.
//!
//!     receiving FIRST_PORT PORTS SECONDS

use std::net::{Ipv4Addr, UdpSocket};
use std::thread;
use std::time::{Duration, Instant};

/// As a receiver of a node waits.
const IDLE_AFTER: Duration = Duration::from_millis(20);

/// The size of a receiver's buffer.
const MAX_SIZE: usize = 65535;

/// Receives at the port until this time, and answers how many datagrams came.
fn receive(port: u16, until: Instant) -> std::io::Result<u64> {
    let socket = UdpSocket::bind((Ipv4Addr::LOCALHOST, port))?;
    socket.set_read_timeout(Some(IDLE_AFTER))?;
    let mut buffer = vec![0; MAX_SIZE];
    let mut received = 0;
    while Instant::now() < until {
        received += u64::from(socket.recv(&mut buffer).is_ok());
    }
    Ok(received)
}

fn main() -> std::io::Result<()> {
    let numbers: Vec<u16> = std::env::args()
        .skip(1)
        .map_while(|word| word.parse().ok())
        .collect();
    let [first, ports, seconds] = numbers[..] else {
        eprintln!("receiving FIRST_PORT PORTS SECONDS");
        std::process::exit(2);
    };
    let until = Instant::now() + Duration::from_secs(seconds.into());
    let threads: Vec<_> = (first..first + ports)
        .map(|port| thread::spawn(move || receive(port, until)))
        .collect();
    let mut received = 0;
    for thread in threads {
        received += thread.join().expect("no receiver panics")?;
    }
    println!("received={received}");
    Ok(())
}
