use std::{error::Error, io, io::Read};

fn main() -> Result<(), Box<dyn Error>> {
    let mut task = Vec::new();
    io::stdin().read_to_end(&mut task)?;
    let planned = shortest::plan(&task, 4, 1)?;
    for action in planned.steps {
        println!("step {action}");
    }
    println!("cost {}", planned.cost);
    Ok(())
}
