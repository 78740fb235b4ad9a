use std::{env, error::Error, io, io::Read, io::Write, process::ExitCode};

fn main() -> Result<ExitCode, Box<dyn Error>> {
    let signer = env::args().nth(1);
    let signer = signer.ok_or("translate SIGNER < text > file")?.parse()?;
    let mut text = Vec::new();
    io::stdin().read_to_end(&mut text)?;
    match shortest::translate(&text, signer) {
        Ok(file) => io::stdout().write_all(&file)?,
        Err(refused) => {
            eprintln!("{refused}");
            return Ok(ExitCode::FAILURE);
        }
    }
    Ok(ExitCode::SUCCESS)
}
