//! Says which functions the runs of a module can enter.
//!
//!     state FILE           of the image in the file
//!     state SCRIPT DIR     of each image of a script that is accepted; they become the files of
//!                          the directory, in place of what was there, in the order of their names

use reference::entering::statement;
use reference::image::Module;
use reference::script::accepted;
use std::fs;
use std::io::{self, Write};
use std::path::Path;
use std::process::ExitCode;

fn main() -> ExitCode {
    let words: Vec<String> = std::env::args().skip(1).collect();
    let text = match words.as_slice() {
        [file] => of_file(file),
        [script, dir] => of_script(script, Path::new(dir)),
        _ => Err("state FILE, or state SCRIPT DIR".to_string()),
    };
    let written = text.and_then(|text| {
        io::stdout().lock().write_all(text.as_bytes()).map_err(|error| error.to_string())
    });
    match written {
        Ok(()) => ExitCode::SUCCESS,
        Err(why) => {
            eprintln!("{why}");
            ExitCode::FAILURE
        }
    }
}

fn read(file: &str) -> Result<Vec<u8>, String> {
    fs::read(file).map_err(|error| format!("{file}: {error}"))
}

fn of_image(image: &[u8]) -> Result<String, String> {
    match Module::read(image) {
        Ok(module) => Ok(statement(&module)),
        Err(fault) => Err(format!("refused {} {} {}", fault.number, fault.list, fault.record)),
    }
}

fn of_file(file: &str) -> Result<String, String> {
    of_image(&read(file)?).map_err(|why| format!("{file}: {why}"))
}

fn of_script(script: &str, dir: &Path) -> Result<String, String> {
    let images = accepted(&read(script)?);
    put(&images, dir).map_err(|error| format!("{}: {error}", dir.display()))?;
    images.iter().map(|image| of_image(image)).collect()
}

fn put(images: &[Vec<u8>], dir: &Path) -> io::Result<()> {
    for file in fs::read_dir(dir)? {
        fs::remove_file(file?.path())?;
    }
    for (number, image) in (0..).zip(images) {
        fs::write(dir.join(format!("{number:05}")), image)?;
    }
    Ok(())
}
