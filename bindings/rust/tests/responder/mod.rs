//! The responder in C: a process that is sent calls and sends back what each left behind.

#![allow(dead_code)] // each test file uses a part

use crate::c_programs::built;
use std::io::{Read, Write};
use std::process::{Child, ChildStdin, ChildStdout, Command, Stdio};

/// Which call it is to make.
#[derive(Clone, Copy)]
pub enum Call {
    Check = 0,
    Write = 1,
}

pub struct Responder {
    process: Child,
    to: ChildStdin,
    from: ChildStdout,
}

impl Responder {
    pub fn start() -> Self {
        let mut process = Command::new(built("responder"))
            .stdin(Stdio::piped())
            .stdout(Stdio::piped())
            .spawn()
            .unwrap();
        Responder {
            to: process.stdin.take().unwrap(),
            from: process.stdout.take().unwrap(),
            process,
        }
    }

    /// A call is read whole before it is answered, so sending all of it cannot block for ever.
    pub fn send(&mut self, call: Call, instance: &[u8], plan: &[u8], table: &[u32]) {
        for number in [call as usize, instance.len(), plan.len(), table.len()] {
            self.to.write_all(&(number as u64).to_ne_bytes()).unwrap();
        }
        self.to.write_all(instance).unwrap();
        self.to.write_all(plan).unwrap();
        let words: Vec<u8> = table.iter().flat_map(|word| word.to_ne_bytes()).collect();
        self.to.write_all(&words).unwrap();
    }

    pub fn numbers<const COUNT: usize>(&mut self) -> [u64; COUNT] {
        [(); COUNT].map(|()| {
            let mut bytes = [0; 8];
            self.from.read_exact(&mut bytes).unwrap();
            u64::from_ne_bytes(bytes)
        })
    }

    pub fn bytes(&mut self, count: usize) -> Vec<u8> {
        let mut bytes = vec![0; count];
        self.from.read_exact(&mut bytes).unwrap();
        bytes
    }

    pub fn words(&mut self, count: usize) -> Vec<u32> {
        let bytes = self.bytes(4 * count);
        let words = bytes.chunks_exact(4);
        words.map(|word| u32::from_ne_bytes(word.try_into().unwrap())).collect()
    }

    /// Nothing more is sent, so the process has to end, and well.
    pub fn end(mut self) {
        drop(self.to);
        let mut rest = Vec::new();
        self.from.read_to_end(&mut rest).unwrap();
        assert!(rest.is_empty());
        assert!(self.process.wait().unwrap().success());
    }
}
