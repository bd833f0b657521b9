//! A frame's path: filter, maximum SDU, gate, meter, scheduler.

use super::{Bridge, Drop, Outcome, Pass, Verdict};
use crate::fields::NO_PRIORITY;
use crate::filter::{count, Filter, FilterState};
use crate::gate::GateDrop;
use crate::meter::Colour;
use crate::record::Arrival;
use crate::refusal::Refusal;
use crate::scheduler;
use crate::tokens::Octets;
use crate::traffic_class::traffic_class;

impl Bridge {
    pub(super) fn arrive(
        &mut self,
        table: &[Filter],
        arrival: Arrival,
    ) -> Result<Outcome, Refusal> {
        if self.last_arrival.map_or(false, |last| arrival.time < last) {
            return Err(Refusal::TimeGoesBack);
        }
        self.last_arrival = Some(arrival.time);
        Ok(Outcome::Arrival(self.police(table, &arrival)))
    }

    fn police(&mut self, table: &[Filter], arrival: &Arrival) -> Verdict {
        let policed = match self.first_match(table, arrival.handle, arrival.priority) {
            Some(id) => self.filtered(id, &table[id], arrival),
            None => Ok(self.pass(arrival.priority, arrival.drop_eligible, None)),
        };
        match policed {
            Ok(pass) => Verdict::Pass(pass),
            Err(drop) => Verdict::Drop(drop),
        }
    }

    fn filtered(&mut self, id: usize, row: &Filter, arrival: &Arrival) -> Result<Pass, Drop> {
        self.sdu_filter(id, row, arrival)?;
        let ipv = self.gate_step(id, row, arrival)?;
        let drop_eligible = self.meter_step(id, row, arrival)?;
        let eligibility = self.scheduler_step(row, arrival)?;
        let priority = if ipv == NO_PRIORITY { arrival.priority } else { ipv };
        Ok(self.pass(priority, drop_eligible, eligibility))
    }

    fn pass(&self, priority: u8, drop_eligible: bool, eligibility: Option<u64>) -> Pass {
        let classes = self.classes.expect("a frame arrives after start");
        let class = traffic_class(priority, classes);
        Pass { priority, class, drop_eligible, eligibility }
    }

    fn sdu_filter(&mut self, id: usize, row: &Filter, arrival: &Arrival) -> Result<(), Drop> {
        let FilterState { counters, oversize } = &mut self.filters[id];
        let block = row.oversize_block == 1;
        count(&mut counters.matching_frames);
        let result = if block && *oversize {
            Err(Drop::OversizeFlag)
        } else if row.max_sdu().map_or(false, |max_sdu| arrival.msdu > max_sdu) {
            *oversize |= block;
            Err(Drop::Oversize)
        } else {
            Ok(())
        };
        count(match result {
            Ok(()) => &mut counters.passing_sdu,
            Err(_) => &mut counters.not_passing_sdu,
        });
        result
    }

    fn gate_step(&mut self, id: usize, row: &Filter, arrival: &Arrival) -> Result<u8, Drop> {
        let counters = &mut self.filters[id].counters;
        let result = self.gates[usize::from(row.gate)].take(arrival.time, arrival.msdu);
        count(match result {
            Ok(_) => &mut counters.passing_frames,
            Err(_) => &mut counters.not_passing_frames,
        });
        result.map_err(|drop| match drop {
            GateDrop::FlagStands => Drop::GateFlag,
            GateDrop::Closed => Drop::GateClosed,
            GateDrop::OctetsExceeded => Drop::OctetsExceeded,
        })
    }

    /// Gives the frame's drop mark.
    fn meter_step(&mut self, id: usize, row: &Filter, arrival: &Arrival) -> Result<bool, Drop> {
        let meter = match row.meter().and_then(|meter| self.meters[meter].as_mut()) {
            Some(meter) => meter,
            None => return Ok(arrival.drop_eligible),
        };
        let (after, colour) = meter
            .take(arrival.time, arrival.msdu, arrival.drop_eligible)
            .expect("a meter and a frame in range, in order of time");
        *meter = after;
        let result = match colour {
            Colour::Green => Ok(arrival.drop_eligible),
            Colour::Yellow if after.record.drop_on_yellow => Err(Drop::Yellow),
            Colour::Yellow => Ok(true),
            Colour::Red => Err(Drop::Red),
        };
        if result.is_err() {
            count(&mut self.filters[id].counters.red_frames);
        }
        result
    }

    /// Gives the eligibility time, if a scheduler is named.
    fn scheduler_step(&mut self, row: &Filter, arrival: &Arrival) -> Result<Option<u64>, Drop> {
        let length = Octets(u32::from(arrival.msdu) + u32::from(self.overhead(arrival.port)));
        let scheduler = match row.scheduler().and_then(|id| self.schedulers[id].as_mut()) {
            Some(scheduler) => scheduler,
            None => return Ok(None),
        };
        let group =
            self.groups[usize::from(scheduler.group)].as_mut().expect("start saw the group");
        let eligibility = scheduler::step(scheduler, group, arrival.time, length)
            .expect("start saw that every length fits the burst");
        if eligibility.is_none() {
            count(&mut self.ports[usize::from(arrival.port)].discarded_frames);
            return Err(Drop::ResidenceExceeded);
        }
        Ok(eligibility)
    }
}
