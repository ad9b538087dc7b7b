//! station [--address ADDRESS] [--versions COUNT] [--bytes COUNT]: serves the registry on a loopback address.
use station::core::Registry;
use station::server::{meaning, Server};
use std::net::{SocketAddr, TcpListener};
use std::process::exit;

const USAGE: &str = "usage: station [--address 127.0.0.1:6380] [--versions 16384] [--bytes 1048576]";
/// Arguments of one request; more of them meet number 2.
const ARGUMENTS: usize = 65_536;
/// Bytes of one reply; a longer one meets number 3.
const MOST_REPLY: usize = 67_108_864;

struct Options {
    address: SocketAddr,
    versions: usize,
    bytes: usize,
}

fn stop(text: &str) -> ! {
    eprintln!("station: {text}");
    exit(2)
}

fn number(text: &str) -> usize {
    text.parse().unwrap_or_else(|_| stop(&format!("'{text}' is no count\n{USAGE}")))
}

fn options() -> Options {
    let mut options = Options { address: SocketAddr::from(([127, 0, 0, 1], 6380)), versions: 16_384, bytes: 1_048_576 };
    let mut words = std::env::args().skip(1);
    while let Some(name) = words.next() {
        let Some(value) = words.next() else { stop(USAGE) };
        match name.as_str() {
            "--address" => options.address = value.parse().unwrap_or_else(|_| stop(&format!("'{value}' is no address\n{USAGE}"))),
            "--versions" => options.versions = number(&value),
            "--bytes" => options.bytes = number(&value),
            _ => stop(USAGE),
        }
    }
    if !options.address.ip().is_loopback() {
        stop("the address is not a loopback address");
    }
    options
}

fn main() {
    let options = options();
    let registry = Registry::open(0, options.versions, options.bytes, ARGUMENTS, MOST_REPLY).unwrap_or_else(|n| stop(&format!("number {n}: {}", meaning(n))));
    let listener = TcpListener::bind(options.address).unwrap_or_else(|e| stop(&format!("{}: {e}", options.address)));
    let address = listener.local_addr().unwrap_or_else(|e| stop(&e.to_string()));
    let most_held = options.bytes.saturating_add(1_048_576);
    let mut server = Server::new(listener, registry, most_held).unwrap_or_else(|e| stop(&e.to_string()));
    println!("listening on {address}");
    server.run()
}
