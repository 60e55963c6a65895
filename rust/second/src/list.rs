//! The list: the messages whose score is above the bound.

use crate::bound::{bound, cost, GREATEST_LIMIT, GREATEST_MULTIPLICITY};
use crate::code::{every_message, sizes_allowed, value_at, x_of, MOST_POSITIONS};
use crate::field::SYMBOLS;
use crate::plan::{Stated, GREATEST_STEPS};
use crate::proposal::Proposal;
use crate::refusal::{answered, refuse, refuse_found, symbol_above, unless_refused, Refusal};
use crate::roots::FEW_SYMBOLS;
use crate::search::messages_above;
use crate::weights::{column_above, entries, multiplicity, GREATEST_LEVEL, LEAST_LEVEL};
use crate::Answer;
use std::cmp::Reverse;
use std::sync::OnceLock;

pub const MOST_ROWS: usize = 20;

type Coded = (Vec<u8>, [u8; MOST_POSITIONS]);

fn coded(message: Vec<u8>) -> Coded {
    let codeword = std::array::from_fn(|i| value_at(&message, x_of(i)));
    (message, codeword)
}

/// Every message of few symbols with its codeword, in order.
fn every_coded(k: usize) -> &'static [Coded] {
    static BY_SYMBOLS: [OnceLock<Vec<Coded>>; FEW_SYMBOLS + 1] =
        [const { OnceLock::new() }; FEW_SYMBOLS + 1];
    BY_SYMBOLS[k].get_or_init(|| every_message(k).map(coded).collect())
}

/// The sum, over positions, of the entry at the codeword's symbol.
fn score(matrix: &[u8], codeword: &[u8]) -> usize {
    let columns = matrix.chunks(SYMBOLS).zip(codeword);
    columns
        .map(|(column, &symbol)| usize::from(column[usize::from(symbol)]))
        .sum()
}

/// A score and its message.
type Row = (usize, Vec<u8>);

/// Each message whose score is above the bound, with that score, by falling score and in order.
fn rows_above(bound: usize, k: usize, matrix: &[u8]) -> Vec<Row> {
    let searched: Vec<Coded>;
    let candidates = if k <= FEW_SYMBOLS {
        every_coded(k)
    } else {
        let messages = messages_above(bound, k, matrix);
        searched = messages.into_iter().map(coded).collect();
        &searched
    };
    filtered(bound, candidates, matrix)
}

/// Those of the messages, which stand in order, whose score is above the bound, with that score, by
/// falling score and in order.
fn filtered(bound: usize, messages: &[Coded], matrix: &[u8]) -> Vec<Row> {
    let mut rows: Vec<Row> = messages
        .iter()
        .map(|(message, codeword)| (score(matrix, codeword), message))
        .filter(|&(score, _)| score > bound)
        .map(|(score, message)| (score, message.clone()))
        .collect();
    rows.sort_by_key(|&(score, _)| Reverse(score));
    rows
}

fn write_list(k: usize, matrix: &[u8], rows: &mut [u8], scores: &mut [u16]) -> Answer {
    let listed = rows_above(bound(k - 1, cost(matrix)), k, matrix);
    write_rows(k, &listed, rows, scores)
}

fn write_rows(k: usize, listed: &[Row], rows: &mut [u8], scores: &mut [u16]) -> Answer {
    for (index, (score, message)) in listed.iter().enumerate() {
        rows[k * index..][..k].copy_from_slice(message);
        scores[index] = *score as u16;
    }
    Answer {
        count: listed.len() as u16,
        ..Answer::default()
    }
}

fn too_little_room(k: usize, rows: &[u8], scores: &[u16]) -> bool {
    (rows.len() as u128) < MOST_ROWS as u128 * k as u128 || scores.len() < MOST_ROWS
}

pub fn list_of_multiplicities(
    n: usize,
    k: usize,
    limit: usize,
    matrix: &[u8],
    rows: &mut [u8],
    scores: &mut [u16],
) -> Answer {
    let tests = [
        (!sizes_allowed(n, k)).then_some(Refusal::Sizes),
        (limit > GREATEST_LIMIT).then_some(Refusal::Setting),
        (matrix.len() as u128 != entries(n)).then_some(Refusal::Length),
        too_little_room(k, rows, scores).then_some(Refusal::Room),
        symbol_above(GREATEST_MULTIPLICITY, matrix),
        (cost(matrix) > limit).then_some(Refusal::Cost),
    ];
    unless_refused(&tests, || write_list(k, matrix, rows, scores))
}

pub fn list_of_reliabilities(
    n: usize,
    k: usize,
    level: usize,
    limit: usize,
    reliabilities: &[u16],
    rows: &mut [u8],
    scores: &mut [u16],
) -> Answer {
    let level_allowed = (LEAST_LEVEL..=GREATEST_LEVEL).contains(&level);
    let tests = [
        (!sizes_allowed(n, k)).then_some(Refusal::Sizes),
        (!level_allowed || limit > GREATEST_LIMIT).then_some(Refusal::Setting),
        (reliabilities.len() as u128 != entries(n)).then_some(Refusal::Length),
        too_little_room(k, rows, scores).then_some(Refusal::Room),
        column_above(reliabilities),
    ];
    unless_refused(&tests, || {
        let entry = |&reliability| multiplicity(level, reliability);
        let matrix: Vec<u8> = reliabilities.iter().map(entry).collect();
        let costs_too_much = (cost(&matrix) > limit).then_some(Refusal::Cost);
        unless_refused(&[costs_too_much], || write_list(k, &matrix, rows, scores))
    })
}

pub fn list_of_plan(
    n: usize,
    k: usize,
    limit: usize,
    stated: Stated,
    rows: &mut [u8],
    scores: &mut [u16],
) -> Answer {
    let too_great = limit > GREATEST_LIMIT || stated.steps > GREATEST_STEPS;
    let tests = [
        (!sizes_allowed(n, k)).then_some(Refusal::Sizes),
        too_great.then_some(Refusal::Setting),
        (!stated.has_lengths(n)).then_some(Refusal::Length),
        too_little_room(k, rows, scores).then_some(Refusal::Room),
        symbol_above(GREATEST_MULTIPLICITY, stated.entries),
        column_above(stated.reliabilities),
        (cost(stated.entries) > limit).then_some(Refusal::Cost),
    ];
    unless_refused(&tests, || {
        stated.unless_refused(|_| write_list(k, stated.entries, rows, scores))
    })
}

/// The roots of a polynomial from outside, filtered by their score.
fn rows_of_proposal(
    n: usize,
    k: usize,
    limit: usize,
    matrix: &[u8],
    proposal: Proposal,
    has_room: bool,
) -> Result<Vec<Row>, Refusal> {
    refuse(!sizes_allowed(n, k), Refusal::Sizes)?;
    let too_great = limit > GREATEST_LIMIT || proposal.has_too_many(k);
    refuse(too_great, Refusal::Setting)?;
    refuse(!proposal.has_lengths(n, k, matrix), Refusal::Length)?;
    refuse(!has_room, Refusal::Room)?;
    refuse_found(proposal.symbol_above(matrix))?;
    refuse(cost(matrix) > limit, Refusal::Cost)?;
    let bound = bound(k - 1, cost(matrix));
    refuse(proposal.degree > bound, Refusal::Setting)?;
    refuse(!proposal.is_yes(k, matrix), Refusal::Proposal)?;
    let roots: Vec<Coded> = proposal.roots(k).into_iter().map(coded).collect();
    Ok(filtered(bound, &roots, matrix))
}

pub fn list_of_proposal(
    n: usize,
    k: usize,
    limit: usize,
    matrix: &[u8],
    proposal: Proposal,
    rows: &mut [u8],
    scores: &mut [u16],
) -> Answer {
    let has_room = !too_little_room(k, rows, scores);
    let listed = rows_of_proposal(n, k, limit, matrix, proposal, has_room);
    answered(listed.map(|listed| write_rows(k, &listed, rows, scores)))
}
