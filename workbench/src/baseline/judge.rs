//! Judge and verdict of a store that load left.

use super::bits::Bits;
use super::flow::failing_row;
use super::kinds::{CHAN, FAN_IN, FAN_OUT, MANY, ONE_SHOT, ONE_SYNC, ONE_TO_ONE};
use super::read::Program;
use super::walks::{of_many, of_one, Facts};
use crate::layout::LIMIT;
use crate::reference::refusal::{refusal, Refusal, CLAIM, FLOW_RULE, NO_CHANNEL};
use crate::reference::verdict::Verdict;

/// The count of claims, if the flow rules and all claims hold.
pub fn judge(store: &[u8]) -> Result<usize, Refusal> {
    let mut program = Program::of(store);
    let results = program.results();
    test_flow(&mut program, &results)?;
    let (mut claims, mut open) = (0, Bits::default());
    for (row, &word) in program.claims.iter().enumerate() {
        claims += usize::from(word != 0);
        if word != 0 && word != MANY {
            open.put(row + 1);
        }
    }
    if open.is_empty() {
        return Ok(claims);
    }
    let facts = of_many(&mut program, &results, open);
    let failing = failing_claims(program.claims, open, &facts);
    match failing.first() {
        Some(member) => Err(refusal(CLAIM, claim_line(&program, member - 1))),
        None => Ok(claims),
    }
}

/// The verdict on a channel row.
pub fn verdict(store: &[u8], channel: usize) -> Result<Verdict, Refusal> {
    let mut program = Program::of(store);
    if !program.is_chan_row(channel) {
        return Err(refusal(NO_CHANNEL, 0));
    }
    let results = program.results();
    test_flow(&mut program, &results)?;
    let facts = of_one(&mut program, &results, channel);
    let (fan_out, fan_in) = (!facts.send_rivals, !facts.receive_rivals);
    let one_shot = fan_out && !facts.sends_in_a_row;
    let one_sync = one_shot && fan_in && !facts.receives_in_a_row;
    Ok([one_shot, fan_out && fan_in, fan_out, fan_in, one_sync])
}

fn test_flow(program: &mut Program, results: &[u8; LIMIT]) -> Result<(), Refusal> {
    match failing_row(program, results) {
        Some(row) => Err(refusal(FLOW_RULE, row + 2)),
        None => Ok(()),
    }
}

/// Those of the channels whose claim fails, all as members of a set.
fn failing_claims(claims: &[u8], channels: Bits, facts: &Facts<Bits>) -> Bits {
    let not_fan_out = facts.send_rivals;
    let not_fan_in = facts.receive_rivals;
    let not_one_to_one = not_fan_out.joined(not_fan_in);
    let not_one_shot = not_fan_out.joined(facts.sends_in_a_row);
    let receives = not_fan_in.joined(facts.receives_in_a_row);
    let not_one_sync = not_one_shot.joined(receives);
    let mut failing = Bits::default();
    channels.for_each(|member| {
        let fails = match claims[member - 1] {
            ONE_SHOT => not_one_shot.has(member),
            ONE_TO_ONE => not_one_to_one.has(member),
            FAN_OUT => not_fan_out.has(member),
            FAN_IN => not_fan_in.has(member),
            ONE_SYNC => not_one_sync.has(member),
            _ => false,
        };
        if fails {
            failing.put(member);
        }
    });
    failing
}

/// The line of a row's claim in the text of the store.
fn claim_line(program: &Program, row: usize) -> usize {
    let mut sets = 0;
    program.bound().for_each(|name| {
        sets += usize::from(!Bits::of_flags(&program.values.flags[name]).is_empty());
    });
    program.of_kind(CHAN).for_each(|member| {
        sets += usize::from(!Bits::of_flags(&program.messages.flags[member - 1]).is_empty());
    });
    let claims = program.claims[..row].iter().filter(|&&word| word != 0);
    2 + program.rows.len() + sets + claims.count()
}
