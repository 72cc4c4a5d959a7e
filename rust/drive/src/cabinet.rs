//! Driving several sites of one cabinet, each under the eyes of a monitor of its
//! own: to each, its steps and retimings are a run alone.

use crate::watching::TWO_IN_A_ROW;
use crate::{Driver, Report, Strategy};
use generate::{any_second, unknown_inputs, Rng};
use model::packed::{number, rest, Board};
use model::{parts_in, RecordBytes, Site, TimedState, OUTPUTS, RECORDS, RECORD_LEN, STATE_LEN};
use monitor::{Breach, Monitor, Seen};
use std::ops::Range;

/// Refusals of the calls of a cabinet.
const SHORT_BUFFER: u64 = 14;
const STRAY_INPUT: u64 = 15;
const WRONG_RECORD: u64 = 24;
const WRONG_OUTPUTS: u64 = 25;

/// The bytes of a record: whether it is held, its first output, the length of its personality,
/// the personality, and the state.
const HELD: usize = 0;
const FIRST: usize = 1;
const LENGTH: Range<usize> = 2..4;
const PERSONALITY: usize = 4;
const STATE: usize = RECORD_LEN - STATE_LEN;

/// Of a thousand calls so many are wrong ones, to be refused.
const WRONG_CALLS: usize = 30;
/// Of a thousand calls so many take a site out and place it again.
const PLACINGS: usize = 2;

/// Runs a board with accepted personalities, as many as a cabinet has records and
/// outputs for, for so many calls. The sites take turns at random, with wrong
/// calls among them; some sites are retimed. An error is the site that a breach is
/// about, and the breach.
pub fn watch_cabinet(
    board: &dyn Board,
    personalities: &[Vec<u8>],
    rng: &mut Rng,
    calls: u64,
) -> Result<Vec<Report>, (usize, Breach)> {
    let mut run = Run {
        board,
        row: [[0; RECORD_LEN]; RECORDS],
        outputs: [0xEE; OUTPUTS],
    };
    let mut tenants = tenants(personalities, rng);
    for (index, tenant) in tenants.iter_mut().enumerate() {
        run.place(tenant).map_err(|breach| (index, breach))?;
    }
    for _ in 0..calls {
        let index = rng.below(tenants.len());
        let tenant = &mut tenants[index];
        let call = rng.below(1_000);
        let called = if call < WRONG_CALLS {
            run.wrong_call(tenant, rng)
        } else if call < WRONG_CALLS + PLACINGS {
            run.take_out(tenant).and_then(|()| run.place(tenant))
        } else if tenant
            .calls_a_retiming
            .is_some_and(|calls| rng.below(calls) == 0)
        {
            run.retimings(tenant, rng)
        } else {
            run.right_call(tenant)
        };
        called.map_err(|breach| (index, breach))?;
    }
    Ok(tenants.into_iter().map(Tenant::report).collect())
}

/// A site of the cabinet.
struct Tenant<'a> {
    personality: &'a [u8],
    site: Site<'a>,
    record: usize,
    own: Range<usize>,
    driver: Driver,
    /// Of the run since the site was placed.
    monitor: Monitor,
    /// What the runs before it have shown.
    before: Report,
    refused: u64,
    retimings: u64,
    /// One call of about so many is a retiming, if any is.
    calls_a_retiming: Option<usize>,
}

/// The sites one after the other, with some outputs left free between them.
fn tenants<'a>(personalities: &'a [Vec<u8>], rng: &mut Rng) -> Vec<Tenant<'a>> {
    let sites = personalities
        .iter()
        .map(|personality| Site::read(personality).expect("an accepted personality"));
    let sites: Vec<Site> = sites.collect();
    let groups: usize = sites.iter().map(Site::group_count).sum();
    let mut spare = OUTPUTS - groups;
    let mut next = 0;
    let mut tenants = Vec::new();
    for (record, (site, personality)) in sites.into_iter().zip(personalities).enumerate() {
        let gap = rng.range(0, spare);
        spare -= gap;
        let first = next + gap;
        next = first + site.group_count();
        let strategy = rng.pick(&Strategy::ALL);
        tenants.push(Tenant {
            personality,
            record,
            own: first..next,
            driver: Driver::new(strategy, &site, Rng::new(rng.draw())),
            monitor: Monitor::new(personality),
            before: Report::default(),
            refused: 0,
            retimings: 0,
            calls_a_retiming: rng.pick(&[None, Some(10), Some(60), Some(300)]),
            site,
        });
    }
    tenants
}

impl Tenant<'_> {
    /// What all its runs have shown together.
    fn report(self) -> Report {
        let last = Report::of(&self.monitor, self.refused, self.retimings);
        self.before.and(&last)
    }

    /// Its run ends, and another one begins.
    fn begin(&mut self) {
        let last = Report::of(&self.monitor, self.refused, self.retimings);
        self.before = self.before.and(&last);
        (self.refused, self.retimings) = (0, 0);
        self.monitor = Monitor::new(self.personality);
    }
}

struct Run<'a> {
    board: &'a dyn Board,
    row: [RecordBytes; RECORDS],
    outputs: [u8; OUTPUTS],
}

impl Run<'_> {
    /// Places a site, whose run begins.
    fn place(&mut self, tenant: &mut Tenant) -> Result<(), Breach> {
        let first = tenant.own.start;
        self.silent_call(tenant, |board, tenant, row, outputs| {
            board.cabinet_place(row, tenant.record, tenant.personality, first, outputs)
        })?;
        tenant.begin();
        tenant.monitor.begins_with(self.state(tenant)?)
    }

    fn take_out(&mut self, tenant: &mut Tenant) -> Result<(), Breach> {
        self.silent_call(tenant, |board, tenant, row, outputs| {
            board.cabinet_take_out(row, tenant.record, outputs)
        })
    }

    /// A step that is to be accepted.
    fn right_call(&mut self, tenant: &mut Tenant) -> Result<(), Breach> {
        let before = *self.state(tenant)?;
        let step = tenant.monitor.accepted();
        let decoded = TimedState::from_bytes(&before).ok_or(Breach::NoState { step })?;
        let inputs = tenant.driver.inputs(&tenant.site, &decoded.state);
        let wait = self.accepted_call(tenant, |board, tenant, row, outputs| {
            board.cabinet_step(row, tenant.record, inputs, outputs)
        })?;
        let seen = Seen {
            before: &before,
            inputs,
            after: self.state(tenant)?,
            colours: &self.outputs[tenant.own.clone()],
            wait,
        };
        tenant.monitor.accepted_step(&seen)
    }

    /// A retiming of a site, or several in a row.
    fn retimings(&mut self, tenant: &mut Tenant, rng: &mut Rng) -> Result<(), Breach> {
        loop {
            let new = any_second(rng, tenant.personality);
            let read = self.board.read(&new);
            match tenant.monitor.retiming_answer(&new, read) {
                0 => self.right_retiming(tenant, &new)?,
                refusal => self.refused_retiming(tenant, &new, refusal)?,
            }
            if !rng.percent(TWO_IN_A_ROW) {
                return Ok(());
            }
        }
    }

    fn right_retiming(&mut self, tenant: &mut Tenant, new: &[u8]) -> Result<(), Breach> {
        let before = *self.state(tenant)?;
        self.silent_call(tenant, |board, tenant, row, _| {
            retime_held(board, row, tenant.record, new)
        })?;
        tenant.retimings += 1;
        let after = self.state(tenant)?;
        tenant.monitor.accepted_retiming(&before, after, new)
    }

    fn refused_retiming(
        &mut self,
        tenant: &mut Tenant,
        new: &[u8],
        expected: u64,
    ) -> Result<(), Breach> {
        let step = tenant.monitor.accepted();
        let row = self.row;
        let answer = retime_held(self.board, &mut self.row, tenant.record, new);
        if answer != expected {
            return Err(Breach::WrongAnswer { step, answer });
        }
        if self.row != row {
            return Err(Breach::RefusalWrites { step });
        }
        tenant.refused += 1;
        Ok(())
    }

    /// An accepted call that answers nothing more.
    fn silent_call(
        &mut self,
        tenant: &Tenant,
        call: impl FnOnce(&dyn Board, &Tenant, &mut [RecordBytes], &mut [u8]) -> u64,
    ) -> Result<(), Breach> {
        let step = tenant.monitor.accepted();
        match self.accepted_call(tenant, call)? {
            0 => Ok(()),
            more => Err(Breach::WrongAnswer {
                step,
                answer: more << 8,
            }),
        }
    }

    /// An accepted call, which may write the record and the outputs of its site only.
    /// Gives the wait in its answer.
    fn accepted_call(
        &mut self,
        tenant: &Tenant,
        call: impl FnOnce(&dyn Board, &Tenant, &mut [RecordBytes], &mut [u8]) -> u64,
    ) -> Result<u64, Breach> {
        let step = tenant.monitor.accepted();
        let (row, outputs) = (self.row, self.outputs);
        let answer = call(self.board, tenant, &mut self.row, &mut self.outputs);
        if number(answer) != 0 {
            return Err(Breach::WrongAnswer { step, answer });
        }
        let mut others = (self.row, self.outputs);
        let (record, own) = (tenant.record, tenant.own.clone());
        others.0[record] = row[record];
        others.1[own.clone()].copy_from_slice(&outputs[own]);
        if others == (row, outputs) {
            Ok(rest(answer))
        } else {
            Err(Breach::WritesBeside { step })
        }
    }

    /// A call that is to be refused: a step with a bit too many, with a buffer too
    /// short or of a record that has no site, or a placing where the site is.
    fn wrong_call(&mut self, tenant: &mut Tenant, rng: &mut Rng) -> Result<(), Breach> {
        let step = tenant.monitor.accepted();
        let (row, outputs) = (self.row, self.outputs);
        let free = self.free_record();
        let personality = tenant.personality;
        let (board, record, first) = (self.board, tenant.record, tenant.own.start);
        let (answer, expected) = match rng.below(5) {
            0 => {
                let inputs = unknown_inputs(rng, &tenant.site);
                let answer = board.cabinet_step(&mut self.row, record, inputs, &mut self.outputs);
                (answer, STRAY_INPUT)
            }
            1 => {
                let short = &mut self.outputs[..rng.below(OUTPUTS)];
                let answer = board.cabinet_step(&mut self.row, record, 0, short);
                (answer, SHORT_BUFFER)
            }
            2 => {
                let answer = board.cabinet_step(&mut self.row, free, 0, &mut self.outputs);
                (answer, WRONG_RECORD)
            }
            3 => {
                let outputs = &mut self.outputs;
                let answer =
                    board.cabinet_place(&mut self.row, record, personality, first, outputs);
                (answer, WRONG_RECORD)
            }
            _ => {
                let outputs = &mut self.outputs;
                let answer = board.cabinet_place(&mut self.row, free, personality, first, outputs);
                let expected = match free < RECORDS {
                    true => WRONG_OUTPUTS,
                    false => WRONG_RECORD,
                };
                (answer, expected)
            }
        };
        if answer != expected {
            return Err(Breach::WrongAnswer { step, answer });
        }
        if self.row != row || self.outputs != outputs {
            return Err(Breach::RefusalWrites { step });
        }
        tenant.refused += 1;
        Ok(())
    }

    /// A free record, or one that the cabinet lacks.
    fn free_record(&self) -> usize {
        let mut records = self.row.iter();
        let free = records.position(|record| record[HELD] == 0);
        free.unwrap_or(RECORDS)
    }

    /// The state in the record of a site, which still holds that site.
    fn state(&self, tenant: &Tenant) -> Result<&[u8; STATE_LEN], Breach> {
        let record = &self.row[tenant.record];
        let length = tenant.personality.len();
        let same_site = record[HELD] != 0
            && usize::from(record[FIRST]) == tenant.own.start
            && record[LENGTH] == (length as u16).to_le_bytes()
            && record[PERSONALITY..].starts_with(tenant.personality);
        let state = record[STATE..].first_chunk();
        let step = tenant.monitor.accepted();
        state.filter(|_| same_site).ok_or(Breach::NoState { step })
    }
}

/// A retiming of the site of a record: the call of a site alone, on the personality
/// and the state where they lie in the row.
fn retime_held(board: &dyn Board, row: &mut [RecordBytes], record: usize, new: &[u8]) -> u64 {
    let (personality, state) = parts_in(row, record).expect("a whole row");
    board.retime(personality, state, new)
}
