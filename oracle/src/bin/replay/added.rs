//! The records that only a box of the present rules has.

use super::choices::Choices;
use super::engine::{Record, Sounder};
use super::original::ages;
use super::rules;
use super::waiting::Request;
use crate::calls::Call;
use crate::fields::{Answered, Bad};

struct Records<const N: usize>;

impl<const N: usize> Records<N> {
    const ALL: [Record<Sounder<N>>; 7] = [
        (0x73, 11, fade),
        (0x74, 13, leave),
        (0x75, 2, withdraw),
        (0x76, 0, waiting),
        (0x77, 0, next),
        (0x78, 0, kept_refusal),
        (0x7A, 0, ranks),
    ];
}

pub fn records<const N: usize>() -> &'static [Record<Sounder<N>>] {
    &Records::<N>::ALL
}

/// The fade that keeps sounding. What the port adds, 7 and 10, changes nothing, as no refusal of this call does.
fn fade<const N: usize>(sounder: &mut Sounder<N>, call: &mut Call) -> Answered {
    let engine = &mut sounder.engine;
    let fields = &mut call.fields;
    let (id, ms, envelope) = (fields.u16(), fields.u16(), fields.envelope());
    let added = rules::added(engine, call.lent, id).filter(|_| N >= 2);
    let ruled = match added {
        Some(number) => Err(number),
        None => engine
            .lent(call.lent, |engine| {
                engine.crossfade_sounding_on(id, ms, envelope)
            })
            .map_err(rules::number),
    };
    call.answers.number(ruled)
}

/// Building 0 is the only one so far.
fn leave<const N: usize>(sounder: &mut Sounder<N>, call: &mut Call) -> Answered {
    let fields = &mut call.fields;
    let (label, building) = (fields.u16(), fields.u8());
    if building != 0 {
        return Err(Bad);
    }
    let request = Request {
        label,
        id: fields.u16(),
        envelope: fields.envelope(),
        priority: fields.u8(),
    };
    call.answers.number(sounder.line.leave(request))
}

fn withdraw<const N: usize>(sounder: &mut Sounder<N>, call: &mut Call) -> Answered {
    let withdrawn = sounder.line.withdraw(call.fields.u16());
    call.answers.number(withdrawn.map(|_| ()))
}

/// How many, and their labels, the next first.
fn waiting<const N: usize>(sounder: &mut Sounder<N>, call: &mut Call) -> Answered {
    let line = sounder.line.sorted();
    call.answers.hex(line.len() as i64, 2);
    for request in line {
        call.answers.hex(request.label as i64, 4);
    }
    call.answers.end_line();
    Ok(())
}

fn next<const N: usize>(sounder: &mut Sounder<N>, call: &mut Call) -> Answered {
    let next = sounder.line.next();
    labelled(call, next.map(|request| (1, request.label)))
}

fn kept_refusal<const N: usize>(sounder: &mut Sounder<N>, call: &mut Call) -> Answered {
    labelled(call, sounder.line.kept)
}

/// A line of two digits and a label, or 00 where there is none.
fn labelled(call: &mut Call, labelled: Option<(i64, u16)>) -> Answered {
    let Some((number, label)) = labelled else {
        return call.answers.line(0, 2);
    };
    call.answers.hex(number, 2);
    call.answers.line(label as i64, 4)
}

/// FF for a voice that has none.
fn ranks<const N: usize>(sounder: &mut Sounder<N>, call: &mut Call) -> Answered {
    for rank in ages::ranks(&sounder.engine) {
        call.answers.hex(rank.map_or(0xFF, |rank| rank as i64), 2);
    }
    call.answers.end_line();
    Ok(())
}
