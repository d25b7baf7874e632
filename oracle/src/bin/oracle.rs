//! oracle [--accesses] [TRACE]
//!
//! Replays sessions of records (see `oracle::trace`) on the original Rust. TRACE
//! is a file, or standard input. A record of zeros, kind 0, begins a new session:
//! a fresh table and 65,536 zero bytes.
//!
//! Each call prints its answer's eight decimals. Each session ends with the slots
//! in use, the enabled endpoints and the rows of memory that are not all zero.
//! A call that takes the Rust out of its domain gives the line
//! "undefined: <reason>" and ends its session there, without such an end; the
//! next session goes on, and the exit status is 3. The line "bad record" ends
//! the run.
//!
//! --accesses  before each answer prints the call's reads and stores in guest
//!             memory, in order, in lines that begin with "# "

use std::{
    fs,
    io::{self, BufWriter, Read, Write},
    process::ExitCode,
};

use anyhow::{bail, Context};
use oracle::{
    session::{Outcome, Session},
    trace::{self, RECORD},
};

/// How a session ended.
enum End {
    Whole,
    BadRecord,
    Undefined,
}

async fn replay(
    session: &mut Session,
    records: &[&[u8]],
    accesses: bool,
    out: &mut impl Write,
) -> io::Result<End> {
    for &record in records {
        let call = record.try_into().ok().and_then(trace::parse);
        let outcome = match call {
            Some(call) => session.call(call).await,
            None => Outcome::BadRecord,
        };
        if accesses {
            for access in session.accesses() {
                writeln!(out, "# {access}")?;
            }
        }
        match outcome {
            Outcome::Answer(answer) => writeln!(out, "{answer}")?,
            Outcome::Silent => {}
            Outcome::BadRecord => {
                writeln!(out, "bad record")?;
                return Ok(End::BadRecord);
            }
            Outcome::Undefined(reason) => {
                writeln!(out, "undefined: {reason}")?;
                return Ok(End::Undefined);
            }
        }
    }
    for line in session.end().await.map_err(io::Error::other)? {
        writeln!(out, "{line}")?;
    }
    Ok(End::Whole)
}

fn main() -> anyhow::Result<ExitCode> {
    let mut accesses = false;
    let mut path = None;
    for arg in std::env::args().skip(1) {
        match arg.as_str() {
            "--accesses" => accesses = true,
            _ if arg.starts_with('-') => bail!("unknown option {arg}"),
            _ => path = Some(arg),
        }
    }
    let mut input = Vec::new();
    match path {
        Some(path) => input = fs::read(&path).context(path)?,
        None => drop(io::stdin().read_to_end(&mut input)?),
    }

    let mut out = BufWriter::new(io::stdout().lock());
    let mut status = ExitCode::SUCCESS;
    let records: Vec<&[u8]> = input.chunks(RECORD).collect();
    for session in records.split(|record| **record == [0; RECORD]) {
        match Session::run(async |fresh| replay(fresh, session, accesses, &mut out).await)? {
            End::Whole => {}
            End::BadRecord => break,
            End::Undefined => status = ExitCode::from(3),
        }
    }
    out.flush()?;
    Ok(status)
}
