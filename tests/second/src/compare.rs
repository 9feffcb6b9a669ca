//! Many inputs through a program of the engine and the library, byte by byte; at the first difference the input is kept.

use std::path::Path;
use std::{fs, io};

use crate::engine::{self, Language};

pub struct Comparison<'a> {
    pub language: Language,
    /// The engine's program.
    pub program: &'a str,
    /// The folder that a generated input is kept in where the answers differ.
    pub store: &'a str,
}

impl Comparison<'_> {
    /// `paths` are files, `generated` are seeds with their inputs. Each input goes to `count` with its answers.
    pub fn all(
        &self,
        paths: &[String],
        generated: impl Iterator<Item = (u64, Vec<u8>)>,
        mut count: impl FnMut(&[u8], &[u8]),
    ) -> Result<(), String> {
        let compare = |input: &[u8]| engine::compare(&self.language, self.program, &[input]);
        for path in paths {
            let input = fs::read(path).map_err(|error| format!("{path}: {error}"))?;
            let answers = compare(&input).map_err(|error| format!("{path}: {error}"))?;
            count(&input, &answers);
        }
        for (seed, input) in generated {
            let answers =
                compare(&input).map_err(|error| format!("seed {seed}: {error}\n{}", self.kept(seed, &input)))?;
            count(&input, &answers);
        }
        Ok(())
    }

    /// Keeps an input, and says where.
    fn kept(&self, seed: u64, input: &[u8]) -> String {
        let path = Path::new(self.store).join(format!("seed-{seed}.{}", self.language.end));
        let keep = || -> io::Result<()> {
            fs::create_dir_all(self.store)?;
            fs::write(&path, input)
        };
        match keep() {
            Ok(()) => format!("the input is in {}", path.display()),
            Err(error) => format!("could not store it: {error}"),
        }
    }
}
