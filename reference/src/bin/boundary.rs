//! Writes the boundary books and what the program prints for each.

use std::path::Path;
use std::process::ExitCode;

fn main() -> ExitCode {
    let arguments: Vec<String> = std::env::args().skip(1).collect();
    let [folder] = arguments.as_slice() else {
        eprintln!("usage: boundary DIR");
        return ExitCode::FAILURE;
    };
    match write(Path::new(folder)) {
        Ok(()) => ExitCode::SUCCESS,
        Err(error) => {
            eprintln!("{folder}: {error}");
            ExitCode::FAILURE
        }
    }
}

fn write(folder: &Path) -> std::io::Result<()> {
    std::fs::create_dir_all(folder)?;
    for named in reference::boundary::books() {
        let out = reference::run(&named.book);
        std::fs::write(folder.join(format!("{}.book", named.name)), &named.book)?;
        std::fs::write(folder.join(format!("{}.out", named.name)), out)?;
    }
    Ok(())
}
