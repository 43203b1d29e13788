//! The words after the name of compare or bench.

use std::process::ExitCode;

/// What is read from the words, or what to exit with: after --help, or where a word is wrong.
pub fn read<T>(
    program: &str,
    usage: &str,
    from: fn(&[String]) -> Result<T, String>,
) -> Result<T, ExitCode> {
    let words = std::env::args_os().skip(1);
    let words: Vec<_> = words.map(|word| word.to_string_lossy().into()).collect();
    if words == ["--help"] {
        println!("{usage}");
        return Err(ExitCode::SUCCESS);
    }
    from(&words).map_err(|message| {
        eprintln!("{program}: {message}\n\n{usage}");
        ExitCode::from(2)
    })
}
