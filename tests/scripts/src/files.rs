//! An image and a script, as the files of a folder.

use harness::case::Input;
use model::gauge::Gauge;
use model::record::Boot;
use model::{imagefile, script};

pub struct Files {
    pub image: Input,
    pub script: Input,
}

impl Files {
    pub fn named(&self) -> Vec<(&'static str, &Input)> {
        vec![("image.hex", &self.image), ("script.hex", &self.script)]
    }

    /// The gauge that a script begins with, and the script, if both files are right.
    pub fn run(&self) -> Option<(Gauge, &[u8])> {
        let (layout, image) = imagefile::read(self.image.text()?).ok()?;
        let script = self.script.text().filter(|text| script::is_valid(text))?;
        Some((Gauge::power_on(layout, image, Boot::Sealed), script))
    }

    /// What a tool says of the files that are not right.
    pub fn reasons(&self) -> Vec<String> {
        let image = self.image.no_image().map(|why| format!("image.hex: {why}"));
        let script = self.no_script().map(|why| format!("script.hex: {why}"));
        image.into_iter().chain(script).collect()
    }

    /// Why there is no script, if so.
    fn no_script(&self) -> Option<String> {
        let bad_line = self.script.text().and_then(script::first_bad_line);
        match bad_line {
            Some(line) => Some(format!("no script: line {line} is no frame")),
            None => self.script.unread().map(str::to_string),
        }
    }
}
