//! Plays what a table was asked, a record each from standard input, and at each position spells the game's plain values,
//! reads them, and makes the game of them again. Words: the files of the kit's four texts; without any it does nothing. It
//! prints how many positions there were of which the game was made again, the most bytes, and the nanoseconds that
//! spelling and that reading took a time.
#![tactic(auto)]

use anyhow::{Result, bail};
use rr_code::{Command, read_record};
use rr_game::history::{Request, Table};
use rr_game::{Game, Parts};
use rr_kit::Kit;
use rr_words::spelling::Spell;
use std::alloc::{AllocError, Global};
use std::time::Instant;
use std::{env, fs};

/// How often a position is spelled and read for its time.
const ROUNDS: u32 = 100;

/// What was seen of a table's positions.
#[derive(Clone, Copy)]
struct Seen {
    positions: u64,
    longest: usize,
    spelling: u128,
    reading: u128,
}

fn spelled(alloc: Global, game: &Game) -> Result<Vec<u8>, AllocError> {
    let mut bytes = Vec::new(alloc);
    game.parts().write(&mut bytes)?;
    Ok(bytes)
}

fn read(alloc: Global, bytes: &[u8]) -> Result<Option<Game>, AllocError> {
    match Parts::read(bytes) {
        Some(parts) => Game::from_parts(alloc, &parts),
        None => Ok(None),
    }
}

// Whether the game is made of its bytes again.
fn is_made_again(alloc: Global, bytes: &[u8]) -> Result<bool, AllocError> {
    match read(alloc, bytes)? {
        Some(again) => Ok(spelled(alloc, &again)?.as_slice() == bytes),
        None => Ok(false),
    }
}

fn spell_often(alloc: Global, game: &Game) -> Result<(), AllocError> {
    for _round in 0..ROUNDS {
        spelled(alloc, game)?;
    }
    Ok(())
}

fn read_often(alloc: Global, bytes: &[u8]) -> Result<(), AllocError> {
    for _round in 0..ROUNDS {
        read(alloc, bytes)?;
    }
    Ok(())
}

fn nanoseconds(rt: &HostRuntime, start: Instant) -> Result<u128> {
    Ok(start.elapsed(rt)?.as_nanos() / u128::from(ROUNDS))
}

fn see(rt: &HostRuntime, game: &Game, seen: Seen) -> Result<Seen> {
    let bytes = spelled(rt.alloc(), game)?;
    if !is_made_again(rt.alloc(), &bytes)? {
        bail!("a game isn't made of its bytes again");
    }
    let start = Instant::now(rt)?;
    spell_often(rt.alloc(), game)?;
    let spelling = nanoseconds(rt, start)?;
    let start = Instant::now(rt)?;
    read_often(rt.alloc(), &bytes)?;
    let reading = nanoseconds(rt, start)?;
    Ok(Seen {
        positions: seen.positions.saturating_add(1),
        longest: seen.longest.max(bytes.len()),
        spelling: seen.spelling.saturating_add(spelling),
        reading: seen.reading.saturating_add(reading),
    })
}

fn text(rt: &HostRuntime, words: &[String], place: usize) -> Result<Vec<u8>> {
    match words.get(place) {
        Some(path) => Ok(fs::read(rt, path.as_str())?),
        None => bail!("a text of the kit is missing"),
    }
}

fn kit(rt: &HostRuntime, words: &[String]) -> Result<Kit> {
    let chart = text(rt, words, 0)?;
    let roster = text(rt, words, 1)?;
    let tiles = text(rt, words, 2)?;
    let board = text(rt, words, 3)?;
    Ok(Kit::read(rt.alloc(), &chart, &roster, &tiles, &board)?)
}

fn play(rt: &HostRuntime, kit: &Kit, table: Option<Table>, record: &[u8]) -> Result<Table> {
    let (_, request) = read_record(record)?;
    match (table, request) {
        (None, Request::Play(Command::Open { players })) => {
            Ok(Table::open(rt.alloc(), &players, kit)?)
        }
        (Some(mut table), request) => {
            let stamp = table.stamp();
            match request {
                Request::Play(command) => table.step(rt.alloc(), stamp, &command, kit)?,
                Request::Back(turn) => table.take_back(rt.alloc(), stamp, turn, kit)?,
                Request::Forget(turn) => table.forget(stamp, turn)?,
            }
            Ok(table)
        }
        _ => bail!("no opening"),
    }
}

fn main(rt: HostRuntime) -> Result<()> {
    let words: Vec<String> = env::args(&rt)?.skip(1).collect(rt.alloc())?;
    // (so it is run once it is built)
    if words.is_empty() {
        return Ok(());
    }
    let kit = kit(&rt, &words)?;
    let mut table = None;
    let mut seen = Seen {
        positions: 0,
        longest: 0,
        spelling: 0,
        reading: 0,
    };
    for line in rt.lines(rt.alloc()) {
        let played = play(&rt, &kit, table, line?.as_bytes())?;
        seen = see(&rt, played.game(), seen)?;
        table = Some(played);
    }
    println!(rt;
        "{} {} {} {}",
        seen.positions, seen.longest, seen.spelling, seen.reading
    )?;
    Ok(())
}
