//! The report: each section goes to the terminal as it is made, and all of them to a page at the end.

use shared::check::fail;

/// The page and its picture, in the folder of the documents.
const PAGE: &str = "BENCHMARKS.md";
const PICTURE: &str = "benchmarks.svg";

/// The fixed parts of the page: below the picture, and at its end.
const READING: &str = include_str!("reading.md");
const CHANGES: &str = include_str!("changes.md");

pub struct Report {
    sections: String,
}

impl Report {
    pub fn new() -> Report {
        Report { sections: String::new() }
    }

    pub fn section(&mut self, title: &str, text: String) {
        let section = format!("\n## {title}\n\n{}\n", text.trim_end());
        print!("{section}");
        self.sections += &section;
    }

    /// The page with a picture at its head, and what is to be seen there in words.
    pub fn write(self, folder: &str, words: &str, svg: &str) {
        let page = format!("# Benchmarks\n\n![{words}]({PICTURE})\n\n{READING}{}{CHANGES}", self.sections);
        for (name, text) in [(PICTURE, svg), (PAGE, &page)] {
            let path = format!("{folder}/{name}");
            match std::fs::write(&path, text) {
                Ok(()) => println!("\nbench: written to {path}"),
                Err(error) => fail(format!("{path} cannot be written: {error}")),
            }
        }
    }
}
