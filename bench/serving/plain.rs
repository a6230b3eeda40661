//! A plain server: one connection after the other, one request each, always the same reply. It says when it listens.
use std::io::{Read, Write};
use std::net::{Shutdown, TcpListener};

fn main() {
    let words: Vec<String> = std::env::args().collect();
    let body = "x".repeat(words[2].parse().expect("a length"));
    let length = body.len();
    let head = format!("HTTP/1.1 200 OK\r\nContent-Type: text/plain\r\nContent-Length: {length}\r\nConnection: close");
    let reply = format!("{head}\r\n\r\n{body}");
    let listener = TcpListener::bind(format!("127.0.0.1:{}", words[1])).expect("a port");
    println!("listening {}", words[1]);
    for connection in listener.incoming() {
        let mut connection = connection.expect("a connection");
        let mut head = Vec::new();
        let mut part = [0; 4096];
        while !head.ends_with(b"\r\n\r\n") {
            match connection.read(&mut part) {
                Ok(length) if length > 0 => head.extend_from_slice(&part[..length]),
                _ => break,
            }
        }
        let _ = connection.write_all(reply.as_bytes());
        let _ = connection.shutdown(Shutdown::Write);
    }
}
