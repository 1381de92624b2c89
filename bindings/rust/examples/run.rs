//! run [-d] PAGE FOLDER..: of each page what `specparse page` prints of it with the scripts of that
//! folder, with -d the dump; and then its status, and how many bytes these were.

use specparse::{Error, Show};
use std::fs::{read, read_dir};
use std::io::{stdout, Write};

/// The files of a folder, under their names; none where there is no folder.
fn files(folder: &str) -> Vec<(String, Vec<u8>)> {
    let mut files = Vec::new();
    for file in read_dir(folder).into_iter().flatten() {
        let file = file.unwrap();
        let name = file.file_name().into_string().unwrap();
        files.push((name, read(file.path()).unwrap()));
    }
    files
}

fn run(page: &str, folder: &str, show: Show) -> (String, u32) {
    let files = files(folder);
    let scripts: Vec<(&str, &[u8])> = files.iter().map(|it| (&*it.0, &*it.1)).collect();
    match specparse::run(read(page).unwrap(), &scripts, show) {
        Ok(ran) => (ran.printed, ran.refused.map_or(0, status)),
        Err(error) => (String::new(), status(error)),
    }
}

fn status(error: Error) -> u32 {
    match error {
        Error::Context => 2,
        Error::BadUtf8 => 4,
        Error::Limit => 5,
        Error::NoMemory => 12,
    }
}

fn main() {
    let words: Vec<String> = std::env::args().skip(1).collect();
    let dump = words.first().map_or(false, |word| word == "-d");
    let show = if dump { Show::Dump } else { Show::Text };
    let mut out = stdout().lock();
    for it in words[dump as usize..].chunks_exact(2) {
        let (text, status) = run(&it[0], &it[1], show);
        let line = format!("status {}, {} bytes\n", status, text.len());
        out.write_all((text + &line).as_bytes()).unwrap();
    }
}
