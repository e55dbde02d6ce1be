//! `declare` makes the declarations in include/ anew; `declare check` says where they are not as they would be made.

use declare::Declarations;
use std::path::Path;
use std::process::ExitCode;

fn run(check: bool) -> Result<(), Vec<String>> {
    let repository = Path::new(env!("CARGO_MANIFEST_DIR")).join("../..");
    let mut declarations = Declarations::read(&repository)?;
    if check {
        let lines = declarations.differences();
        return if lines.is_empty() { Ok(()) } else { Err(lines) };
    }
    let placed = declarations.make();
    declarations.write(&repository).map_err(|line| vec![line])?;
    placed.map_err(|mut lines| {
        let place = "for one that is missing, write its comment where it belongs and `void lc_its_name();`, for names `enum lc_its_name {};`, under it";
        lines.push(format!("{place}, and run this again"));
        lines
    })
}

fn main() -> ExitCode {
    let arguments: Vec<_> = std::env::args().skip(1).collect();
    let check = match &arguments[..] {
        [] => false,
        [word] if word == "check" => true,
        _ => {
            eprintln!("usage: declare [check]");
            return ExitCode::from(2);
        }
    };
    match run(check) {
        Ok(()) => ExitCode::SUCCESS,
        Err(lines) => {
            lines.iter().for_each(|line| eprintln!("{line}"));
            ExitCode::FAILURE
        }
    }
}
