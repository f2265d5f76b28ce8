//! `plans SEED COUNT [--dir DIR]`: writes COUNT random plans as a stream on standard
//! output, or each into a file of its own in DIR.

use std::io::{BufWriter, Write};

use second_hand::{frame, plans};

fn main() -> std::io::Result<()> {
    let arguments: Vec<String> = std::env::args().skip(1).collect();
    let usage = || -> ! {
        eprintln!("usage: plans SEED COUNT [--dir DIR]");
        std::process::exit(2)
    };
    let directory = match arguments.get(2).map(String::as_str) {
        None => None,
        Some("--dir") if arguments.len() == 4 => Some(std::path::PathBuf::from(&arguments[3])),
        Some(_) => usage(),
    };
    let number = |place: usize| arguments.get(place).and_then(|text| text.parse::<u64>().ok());
    let (Some(seed), Some(count)) = (number(0), number(1)) else { usage() };

    let mut out = BufWriter::new(std::io::stdout().lock());
    for index in 0..count {
        let plan = plans::plan(seed, index);
        match &directory {
            None => frame::write(&mut out, &plan)?,
            Some(directory) => {
                std::fs::create_dir_all(directory)?;
                std::fs::write(directory.join(format!("plan-{index:06}.txt")), &plan)?;
            }
        }
    }
    out.flush()
}
