//! Times the search, as built, on random boards of 30 to 50 hexes. Words: how many trains, how many tokens, how many boards.
#![tactic(auto)]

ghost use Rattle.std.specs.Prelude.{◌≡◌, ℕ, ◌≤◌, true, slice_index};

use anyhow::Result;
use rr_checker::{CentreLimit, Link, Net, Node};
use rr_routes::MOST_NODES;
use rr_search::{Fault, best};
use std::alloc::{AllocError, Global};
use std::env;
use std::time::{CpuClock, Instant};

// a small generator of pseudorandom numbers
#[derive(Drop)]
struct Dice {
    state: u64,
}

impl Dice {
    fn below(&mut self, count: usize) -> usize {
        self.state ^= self.state << 13;
        self.state ^= self.state >> 7;
        self.state ^= self.state << 17;
        ((self.state >> 11) as usize)
            .checked_rem(count)
            .unwrap_or(0)
    }
}

fn number_of(hex_row: usize, column: usize, edge: usize) -> usize {
    hex_row
        .saturating_mul(8)
        .saturating_add(column)
        .saturating_mul(3)
        .saturating_add(edge)
}

// the edge of a hex of a board eight hexes wide: each edge of two hexes has one number
fn side_of(row: usize, column: usize, edge: usize) -> usize {
    let above = row.saturating_sub(1);
    let right = column.saturating_add(1) % 8;
    match edge {
        0 | 1 | 2 => number_of(row, column, edge),
        3 => number_of(above, column, 0),
        4 => number_of(above, right, 1),
        _ => number_of(row, right, 2),
    }
}

fn side_at(hex: usize, edge: usize) -> usize {
    side_of((hex / 8).saturating_add(1), hex % 8, edge % 6)
}

#[derive(Drop)]
struct Board {
    links: Vec<Link>,
    terminals: Vec<usize>,
    values: Vec<u32>,
    cities: Vec<usize>,
}

fn add_centre(
    dice: &mut Dice,
    board: &mut Board,
    hex: usize,
    exits: usize,
    value: u32,
) -> Result<usize, AllocError> {
    let centre = board.values.len();
    board.values.push(value)?;
    let first = dice.below(6);
    for exit in 0..exits {
        let turn = exit.saturating_mul(6).checked_div(exits).unwrap_or(0);
        let side = side_at(hex, first.saturating_add(turn));
        board.links.push(Link {
            hex,
            side,
            other: Node::Centre(centre),
        })?;
    }
    Ok(centre)
}

fn add_tracks(dice: &mut Dice, board: &mut Board, hex: usize) -> Result<(), AllocError> {
    let first = dice.below(6);
    let gap = dice.below(2).saturating_add(2);
    let count = dice.below(3).saturating_add(1);
    for track in 0..count {
        let from = first.saturating_add(track);
        let one = side_at(hex, from);
        let other = side_at(hex, from.saturating_add(gap));
        board.links.push(Link {
            hex,
            side: one,
            other: Node::Hexside(other),
        })?;
    }
    Ok(())
}

fn add_city(dice: &mut Dice, board: &mut Board, hex: usize) -> Result<(), AllocError> {
    let exits = dice.below(3).saturating_add(3);
    let value = match dice.below(5) {
        0 => 20,
        1 => 30,
        2 => 40,
        3 => 50,
        _ => 60,
    };
    let centre = add_centre(dice, board, hex, exits, value)?;
    board.cities.push(centre)?;
    Ok(())
}

fn add_hex(dice: &mut Dice, board: &mut Board, hex: usize) -> Result<(), AllocError> {
    let face = dice.below(20);
    if face == 0 {
        let centre = add_centre(dice, board, hex, 2, 40)?;
        board.terminals.push(centre)?;
        return Ok(());
    }
    if face <= 4 {
        return add_city(dice, board, hex);
    }
    if face <= 7 {
        let _town = add_centre(dice, board, hex, 2, 10)?;
        return Ok(());
    }
    if face <= 9 {
        return Ok(());
    }
    add_tracks(dice, board, hex)
}

fn board_of(alloc: Global, dice: &mut Dice) -> Result<Board, AllocError> {
    let mut board = Board {
        links: Vec::new(alloc),
        terminals: Vec::new(alloc),
        values: Vec::new(alloc),
        cities: Vec::new(alloc),
    };
    let hexes = dice.below(21).saturating_add(30);
    for hex in 0..hexes {
        add_hex(dice, &mut board, hex)?;
    }
    Ok(board)
}

fn stations_of(
    alloc: Global,
    dice: &mut Dice,
    cities: &[usize],
    tokens: usize,
) -> Result<Vec<usize>, AllocError> {
    let mut stations = Vec::new(alloc);
    for _token in 0..tokens {
        if let Some(city) = cities.get(dice.below(cities.len())) {
            stations.push(*city)?;
        }
    }
    Ok(stations)
}

fn limit_of(dice: &mut Dice) -> CentreLimit {
    match dice.below(4) {
        0 => CentreLimit::AtMost(4),
        1 => CentreLimit::AtMost(5),
        2 => CentreLimit::AtMost(6),
        _ => CentreLimit::Unlimited,
    }
}

fn limits_of(
    alloc: Global,
    dice: &mut Dice,
    trains: usize,
) -> Result<Vec<CentreLimit>, AllocError> {
    let mut limits = Vec::new(alloc);
    for _train in 0..trains {
        limits.push(limit_of(dice))?;
    }
    Ok(limits)
}

fn net_of(alloc: Global, dice: &mut Dice, trains: usize, tokens: usize) -> Result<Net, AllocError> {
    let board = board_of(alloc, dice)?;
    let stations = stations_of(alloc, dice, &board.cities, tokens)?;
    let limits = limits_of(alloc, dice, trains)?;
    Ok(Net::new(board.links, stations, board.terminals, board.values, limits))
}

// whether each is at most 65,535
fn are_small(values: &[u32]) -> bool
    ensures { result ≡ true → (place : ℕ) → slice_index values.now place ≤ 65535 }
{
    for value in values {
        if *value > 65535 {
            return false;
        }
    }
    true
}

// what comes of the search
fn outcome(alloc: Global, net: &Net) -> &'static str {
    if !are_small(net.values()) || net.values().len() > 65536 || net.trains().len() > 1000 {
        return "refused";
    }
    match best(alloc, net, MOST_NODES) {
        Ok(_) => "certified",
        Err(Fault::NoCertificate) => "none",
        Err(Fault::OutOfMemory) => "memory",
    }
}

fn time_board(rt: &HostRuntime, net: &Net, round: usize) -> Result<()> {
    let cpu = rt.thread_cpu_time()?;
    let start = Instant::now(rt)?;
    let word = outcome(rt.alloc(), net);
    let wall = start.elapsed(rt)?.as_micros();
    let used = rt.thread_cpu_time()?.saturating_sub(cpu).as_micros();
    let links = net.links().len();
    println!(rt; "board {round} links {links} {word} wall_us {wall} cpu_us {used}")?;
    Ok(())
}

fn word_at(words: &[String], place: usize) -> usize {
    match words.get(place) {
        None => 0,
        Some(word) => word.as_str().parse::<usize>().unwrap_or(0),
    }
}

fn main(rt: HostRuntime) -> Result<()> {
    let words: Vec<String> = env::args(&rt)?.skip(1).collect(rt.alloc())?;
    let trains = word_at(&words, 0);
    let tokens = word_at(&words, 1);
    let rounds = word_at(&words, 2);
    let mut dice = Dice {
        state: 0x9E37_79B9_7F4A_7C15,
    };
    for round in 0..rounds {
        let net = net_of(rt.alloc(), &mut dice, trains, tokens)?;
        time_board(&rt, &net, round)?;
    }
    Ok(())
}
