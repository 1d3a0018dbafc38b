//! The command line: metarun's options but `--workers`, each as `--name N` or `--name=N`.

/// What becomes of memory that is given back.
#[derive(Clone, Copy, PartialEq, Eq)]
pub enum Policy {
    Balanced,
    Aggressive,
    None,
}

pub struct Options {
    pub max_granules: u32,
    pub nodes: u32,
    pub class_nodes: u32,
    pub policy: Policy,
    pub addresses: bool,
}

impl Options {
    /// Reads the words after the program's name; answers the word that is none.
    pub fn from_words(mut words: impl Iterator<Item = String>) -> Result<Options, String> {
        let mut options = Options {
            max_granules: 8192,
            nodes: 64,
            class_nodes: 0,
            policy: Policy::Balanced,
            addresses: false,
        };
        while let Some(word) = words.next() {
            if word == "--addresses" {
                options.addresses = true;
                continue;
            }
            let (name, value) = match word.split_once('=') {
                Some((name, value)) => (name.to_owned(), value.to_owned()),
                None => (word, words.next().unwrap_or_default()),
            };
            options
                .set(&name, &value)
                .ok_or(format!("{name} {value}"))?;
        }
        Ok(options)
    }

    fn set(&mut self, name: &str, value: &str) -> Option<()> {
        let within = |least: u32, most: u32| {
            value
                .parse()
                .ok()
                .filter(|number| (least..=most).contains(number))
        };
        match name {
            "--max-granules" => self.max_granules = within(1, 40960)?,
            "--nodes" => self.nodes = within(1, 64)?,
            "--class-nodes" => self.class_nodes = within(0, 16)?,
            "--policy" => {
                self.policy = match value {
                    "balanced" => Policy::Balanced,
                    "aggressive" => Policy::Aggressive,
                    "none" => Policy::None,
                    _ => return None,
                }
            }
            _ => return None,
        }
        Some(())
    }
}
