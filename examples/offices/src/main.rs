//! The offices of a site as processes of their own, which talk over sockets and agree. The
//! README beside this folder says what it shows and what a real server must add.
//!
//! ```text
//! sh tools/offices examples/dry-bulk
//! ```

#![forbid(unsafe_code)]

mod args;
mod desk;
mod failing;
mod frame;
mod links;
mod office;
mod opening;
mod parent;
mod plan;
mod site;
mod talk;

use args::Task;
use site::Site;
use std::env;
use std::error::Error;
use std::process::ExitCode;

/// The status where nothing is decided, and where nothing could be done.
const REFUSED: u8 = 1;
const UNUSABLE: u8 = 2;

fn main() -> ExitCode {
    let done = match args::parse(env::args_os().skip(1)) {
        Ok(Task::Site(asked)) => shown(&asked),
        Ok(Task::Office(own)) => office::run(&own).map(|()| ExitCode::SUCCESS),
        Ok(Task::Failing(own)) => failing::run(&own).map(|()| ExitCode::SUCCESS),
        Err(usage) => Err(usage.into()),
    };
    done.unwrap_or_else(|why| {
        eprintln!("offices: {why}");
        ExitCode::from(UNUSABLE)
    })
}

/// Prints what the offices of a site decide, in the words of `rehearse`.
fn shown(asked: &args::Asked) -> Result<ExitCode, Box<dyn Error>> {
    let site = match Site::read(&asked.folder)? {
        Ok(site) => site,
        Err(refusal) => {
            println!("{}", site::refused(refusal));
            return Ok(ExitCode::from(REFUSED));
        }
    };
    let decided = parent::run(&site, asked)?;
    let totals = site.totals;
    println!("blocks {} carriages {}", totals.blocks, totals.carriages);
    for (server, bit) in decided {
        match bit {
            Some(bit) => println!("server {server} decided {bit}"),
            None => println!("server {server} decided faulty"),
        }
    }
    Ok(ExitCode::SUCCESS)
}
