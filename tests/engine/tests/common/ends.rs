//! What programs end with, and a standard input that cannot be read.

use std::io::{self, Read};

use engine::ended::Ended;

pub fn ended(output: &[u8], errors: &str, status: i32) -> Ended {
    Ended { output: output.to_vec(), errors: errors.as_bytes().to_vec(), status }
}

pub struct Broken;

impl Read for Broken {
    fn read(&mut self, _: &mut [u8]) -> io::Result<usize> {
        Err(io::Error::other("broken"))
    }
}
