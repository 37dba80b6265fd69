//! Named checks, printed as Rust prints its tests.

use std::process::ExitCode;
use std::time::Instant;

pub struct Report {
    began: Instant,
    passed: u32,
    failed: u32,
}

impl Report {
    pub fn new() -> Self {
        Report { began: Instant::now(), passed: 0, failed: 0 }
    }

    pub fn check(&mut self, name: &str, outcome: Result<(), String>) {
        match outcome {
            Ok(()) => {
                println!("test {name} ... ok");
                self.passed += 1;
            }
            Err(why) => {
                println!("test {name} ... FAILED\n{why}");
                self.failed += 1;
            }
        }
    }

    pub fn finish(self) -> ExitCode {
        let Report { began, passed, failed } = self;
        let (word, code) = match failed {
            0 => ("ok", ExitCode::SUCCESS),
            _ => ("FAILED", ExitCode::FAILURE),
        };
        println!(
            "\ntest result: {word}. {passed} passed; {failed} failed; 0 ignored; 0 measured; \
             0 filtered out; finished in {:.2}s\n",
            began.elapsed().as_secs_f64()
        );
        code
    }
}
