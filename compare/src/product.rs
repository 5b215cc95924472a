//! The product's side: its program, or its static library.
use crate::{judge::Judge, line};
use std::{
    fs,
    io::{self, Write},
    path::PathBuf,
    process::{Command, Stdio},
};

/// Anything that answers lines over an image.
pub trait Product {
    fn answers(&mut self, image: &[u8], judge: Judge, lines: &[Vec<u8>]) -> io::Result<Vec<String>>;
}

/// The program: one run for each image, a line of script for each line.
pub struct Program {
    pub path: PathBuf,
}

impl Product for Program {
    fn answers(&mut self, image: &[u8], judge: Judge, lines: &[Vec<u8>]) -> io::Result<Vec<String>> {
        let file = std::env::temp_dir().join(format!("compare-{}.img", std::process::id()));
        fs::write(&file, image)?;
        let script = lines.iter().map(|l| format!("readx {}\n", line::hex(l))).collect::<String>();
        let mut child = Command::new(&self.path)
            .arg("--image")
            .arg(&file)
            .args(["--judge", judge.name()])
            .stdin(Stdio::piped())
            .stdout(Stdio::piped())
            .spawn()?;
        let mut stdin = child.stdin.take().unwrap();
        let writer = std::thread::spawn(move || stdin.write_all(script.as_bytes()));
        let output = child.wait_with_output()?;
        let _ = writer.join().unwrap();
        fs::remove_file(&file)?;
        answers_of(&String::from_utf8_lossy(&output.stdout), lines.len())
    }
}

/// Between the word on the image and the summary stands an answer for each line.
fn answers_of(output: &str, count: usize) -> io::Result<Vec<String>> {
    let mut answers = output.lines().map(String::from).collect::<Vec<String>>();
    let framed = answers.len() == count + 2 && answers[0].starts_with("image ok ");
    if !framed {
        return Err(io::Error::other(format!("the program answered {output}")));
    }
    answers.pop();
    answers.remove(0);
    Ok(answers)
}

/// The static library, linked where DOTMUSLIN_LIB named one at build time.
#[cfg(library)]
pub struct Library;

/// A function of the library that does its work so many times.
#[cfg(library)]
type Measured = unsafe extern "C" fn(*const u8, usize, *const u8, usize, u8, u64) -> u64;

#[cfg(library)]
mod foreign {
    unsafe extern "C" {
        /// Reads a line over an image and writes the answer; returns its length.
        pub fn dotmuslin_read(
            image: *const u8,
            image_length: usize,
            line: *const u8,
            line_length: usize,
            judge: u8,
            out: *mut u8,
            out_length: usize,
        ) -> usize;

        /// Loads an image and cuts a line once, reads it so many times, and returns the orders read in all.
        pub fn dotmuslin_repeat(
            image: *const u8,
            image_length: usize,
            line: *const u8,
            line_length: usize,
            judge: u8,
            rounds: u64,
        ) -> u64;

        /// Loads an image once, has a console admit a line and withdraw it so many times, and returns the orders accepted in all.
        pub fn dotmuslin_admit(
            image: *const u8,
            image_length: usize,
            line: *const u8,
            line_length: usize,
            judge: u8,
            rounds: u64,
        ) -> u64;
    }
}

#[cfg(library)]
impl Library {
    fn read(image: &[u8], judge: Judge, line: &[u8], out: &mut [u8]) -> String {
        // SAFETY: each slice passes as its pointer and its length.
        let length = unsafe {
            foreign::dotmuslin_read(
                image.as_ptr(),
                image.len(),
                line.as_ptr(),
                line.len(),
                judge as u8,
                out.as_mut_ptr(),
                out.len(),
            )
        };
        String::from_utf8_lossy(&out[..length]).into()
    }

    /// A line read so many times.
    pub fn repeat(image: &[u8], judge: Judge, line: &[u8], rounds: u64) -> u64 {
        Self::rounds(foreign::dotmuslin_repeat, image, judge, line, rounds)
    }

    /// A line admitted and withdrawn so many times.
    pub fn admit(image: &[u8], judge: Judge, line: &[u8], rounds: u64) -> u64 {
        Self::rounds(foreign::dotmuslin_admit, image, judge, line, rounds)
    }

    fn rounds(measured: Measured, image: &[u8], judge: Judge, line: &[u8], rounds: u64) -> u64 {
        // SAFETY: each slice passes as its pointer and its length.
        unsafe { measured(image.as_ptr(), image.len(), line.as_ptr(), line.len(), judge as u8, rounds) }
    }
}

#[cfg(library)]
impl Product for Library {
    fn answers(&mut self, image: &[u8], judge: Judge, lines: &[Vec<u8>]) -> io::Result<Vec<String>> {
        let mut out = vec![0; 1 << 16];
        Ok(lines.iter().map(|line| Self::read(image, judge, line, &mut out)).collect())
    }
}
