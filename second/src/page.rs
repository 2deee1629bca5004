//! The station's page: a line for each campaign, then a line with the total.
//!
//! A paused campaign has its line like any other, and marks do not show. Its
//! named counts only the views that found it unpaused, as in the tallies.

use crate::day::{Campaign, Day, MAX_CAMPAIGNS};
use crate::refusal;
use std::ops::Range;

/// Bytes of one line, its byte 10 included.
pub const LINE: usize = 41;
/// Bytes of the longest page.
pub const MAX_PAGE: usize = LINE * (MAX_CAMPAIGNS as usize + 1);

/// The word that begins the last line.
const TOTAL: &[u8] = b"total";

/// The columns of a line, counted from 0 here.
const NUMBER: Range<usize> = 0..3;
const PLAYS: Range<usize> = 3..9;
const PRICE: Range<usize> = 9..20;
const PAID: Range<usize> = 20..34;
const NAMED: Range<usize> = 34..40;

/// Writes the page of a state of any phase to the front of the buffer; gives
/// its length or a refusal number. A refusal leaves the buffer as it was.
pub fn write(day: &Day, buffer: &mut [u8]) -> Result<usize, u64> {
    let ledger = day.ledger().ok_or(refusal::UNSOUND)?;
    let count = day.count as usize;
    let length = LINE * (count + 1);
    let page = buffer.get_mut(..length).ok_or(refusal::SHORT_BUFFER)?;
    let (rows, last) = page.split_at_mut(LINE * count);
    let lines = rows.chunks_exact_mut(LINE);
    for (number, (line, campaign)) in lines.zip(&day.campaigns).enumerate() {
        put_campaign(line, number as u64, campaign);
    }
    put_total(last, ledger.takings);
    Ok(length)
}

/// Fills the line of one campaign of a sound state. Its greatest figures are
/// 63, 4096, 10000.00, 20000000.00 and 4096, so none overflows its columns.
fn put_campaign(line: &mut [u8], number: u64, campaign: &Campaign) {
    clear(line);
    put_number(&mut line[NUMBER], number);
    put_number(&mut line[PLAYS], campaign.plays);
    put_money(&mut line[PRICE], campaign.price);
    put_money(&mut line[PAID], campaign.price * campaign.plays);
    put_number(&mut line[NAMED], campaign.named);
}

fn put_total(line: &mut [u8], takings: u64) {
    clear(line);
    line[..TOTAL.len()].copy_from_slice(TOTAL);
    put_money(&mut line[PAID], takings);
}

/// Spaces and a byte 10.
fn clear(line: &mut [u8]) {
    line.fill(b' ');
    line[LINE - 1] = b'\n';
}

/// Cents as whole units, a point and two decimals, flush right.
fn put_money(field: &mut [u8], cents: u64) {
    let (whole, decimals) = field.split_at_mut(field.len() - 3);
    put_number(whole, cents / 100);
    decimals[0] = b'.';
    decimals[1] = digit(cents / 10);
    decimals[2] = digit(cents);
}

/// A number without leading zeros, flush right; the columns before it are kept.
fn put_number(field: &mut [u8], mut number: u64) {
    for column in field.iter_mut().rev() {
        *column = digit(number);
        number /= 10;
        if number == 0 {
            break;
        }
    }
}

/// The last digit of a number.
fn digit(number: u64) -> u8 {
    b'0' + (number % 10) as u8
}
