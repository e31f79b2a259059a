//! Faults in the window and the ledgers, and the wrapper's calls.

use super::questions::Kept;
use super::{Broken, Fault, Seen, is_ping, number};
use calls::{
    Came, DataInPdu, DataSnack, Engine, HEADER_BYTES, Holder, LoginAnswer, LogoutCounts, Numbers,
    Offer, Parameters, Pdu, Refusal, Response, Run, Take, Task, TaskGiven, Window,
};

impl<E: Engine + Clone> Broken<E> {
    pub(super) fn connection(&self, connection: u32) -> u32 {
        if self.is(Fault::ConnectionCut) {
            connection & 0xff
        } else {
            connection
        }
    }

    pub(super) fn count_of(&self, connection: u32) -> usize {
        self.seen.held.get(&connection).copied().unwrap_or(0)
    }

    /// Write down what was kept and what came again.
    fn remember(&mut self, offer: Offer, cmd_sn: u32, ticket: u32, connection: u32) {
        match offer {
            Offer::Kept => {
                let first = self.seen.kept.get(&cmd_sn);
                let kept = Kept {
                    ticket,
                    connection: connection as u8,
                    first_ticket: first.map_or(ticket, |kept| kept.first_ticket),
                };
                self.seen.kept.insert(cmd_sn, kept);
                self.seen.tickets.remove(&cmd_sn);
            }
            Offer::Duplicate => drop(self.seen.tickets.insert(cmd_sn, ticket)),
            _ => {}
        }
    }
}

impl<E: Engine + Clone> Engine for Broken<E> {
    fn begin_session(&mut self, first: u32, stat_sn: u32, level: u8) {
        let level = if self.is(Fault::LevelZeroServes) {
            1
        } else {
            level
        };
        self.inner.begin_session(first, stat_sn, level);
        self.seen = Seen::default();
        self.seen.level = level;
        self.seen.open.insert(0);
    }

    fn offer(&mut self, connection: u32, ticket: u32, pdu: &[u8]) -> Result<Offer, Refusal> {
        let mut shown = self.disguised(pdu);
        if self.is(Fault::ImmediateKept) && !shown.is_empty() && shown[0] & 0x3f == 1 {
            shown[0] &= 0x3f;
        }
        let connection = self.connection(connection);
        let before = self.inner.clone();
        let offer = self.inner.offer(connection, ticket, &shown);
        let offer = self.data_out_offered(&shown, offer)?;
        if self.is(Fault::OfferAlwaysBeyond) && offer != Offer::Immediate {
            self.inner = before;
            return Ok(Offer::Beyond);
        }
        let cmd_sn = number(pdu, 24);
        let back = self.next_cmd_sn().wrapping_sub(cmd_sn);
        match self.fault {
            Fault::BehindIsPassed if offer == Offer::Beyond && back <= 1 << 31 => Ok(Offer::Passed),
            Fault::PassedForgets if offer == Offer::Passed && back > 64 => Ok(Offer::Beyond),
            _ => {
                self.remember(offer, cmd_sn, ticket, connection);
                Ok(offer)
            }
        }
    }

    fn take(&mut self, out: &mut [u8]) -> Result<Take, Refusal> {
        if self.is(Fault::TakeAlwaysNothing) && out.len() >= HEADER_BYTES {
            return Ok(Take::Nothing);
        }
        let mut taken = self.inner.take(out);
        match &mut taken {
            Ok(Take::Void(_)) => {
                self.seen.void -= 1;
                if self.is(Fault::VoidWrites) {
                    out[0] = 0x01;
                }
                if self.is(Fault::VoidIsNothing) {
                    taken = Ok(Take::Nothing);
                }
            }
            Ok(Take::Out(o)) => {
                if let Some(ticket) = self.seen.tickets.remove(&o.cmd_sn)
                    && self.fault == Fault::DuplicateReplaces
                {
                    o.ticket = ticket;
                }
                if self.is(Fault::OriginKept) && o.origin.is_none() {
                    o.origin = Some(0);
                }
                self.spoil(out, &taken);
            }
            _ => {}
        }
        taken
    }

    fn logout(&mut self, connection: u32, reason: u8) -> Result<LogoutCounts, Refusal> {
        let mut counts = self.inner.logout(self.connection(connection), reason)?;
        let already = self.seen.void;
        self.seen.void += counts.voided;
        if self.is(Fault::VoidCountedAgain) && reason == 0 {
            counts.voided += already;
        }
        self.seen.open.remove(&connection);
        let closed: Vec<_> = if reason == 0 {
            let others = std::mem::take(&mut self.seen.open);
            others.into_iter().chain([connection]).collect()
        } else {
            vec![connection]
        };
        for each in closed {
            self.seen.held.remove(&each);
            if self.is(Fault::OthersStayOpen) && each != connection {
                let _ = self.open(each, 1);
            }
        }
        Ok(counts)
    }

    fn open(&mut self, connection: u32, stat_sn: u32) -> Result<(), Refusal> {
        let shown = match self.seen.next.get(&connection) {
            Some(&next) if self.is(Fault::ReopenedGoesOn) => next,
            _ => stat_sn,
        };
        self.inner.open(self.connection(connection), shown)?;
        self.seen.open.insert(connection);
        self.seen.pings.remove(&connection);
        Ok(())
    }

    fn send(
        &mut self,
        connection: u32,
        ticket: u32,
        task: &Task,
        out: &mut [u8],
        response: &Response,
    ) -> Result<u32, Refusal> {
        let held = self.count_of(connection);
        let mut shown = self.data_to_send(self.response(response));
        if let (Fault::NopInStored, Response::NopIn { itt, .. }) = (self.fault, &mut shown) {
            *itt &= 0x7fff_ffff;
        }
        let too_many = match self.fault {
            Fault::NopInFull => held >= 32 && is_ping(response),
            Fault::FullOneEarly => held >= 31 && !is_ping(response),
            _ => false,
        };
        let before = out.to_vec();
        let inner = self.inner.clone();
        let target = self.connection(connection);
        let record = self.record_to_send(task, &shown);
        let answer = self.inner.send(target, ticket, &record, out, &shown);
        let mut answer = self.judged_first(&shown, answer);
        answer = self.data_sent(&shown, held, answer);
        answer = self.scsi_sent(task, &shown, held, answer);
        if too_many && answer.is_ok() {
            out.copy_from_slice(&before);
            self.inner = inner;
            answer = Err(Refusal::Full);
        }
        if let Ok(stat_sn) = answer {
            if !is_ping(response) {
                *self.seen.held.entry(connection).or_default() += 1;
                self.seen.next.insert(connection, stat_sn.wrapping_add(1));
                let header = out[..HEADER_BYTES].to_vec();
                self.seen.sent.insert((connection, stat_sn), header);
                self.spoil_sent(task, &shown, out);
            } else {
                *self.seen.pings.entry(connection).or_default() += 1;
                if self.is(Fault::NopInStored) {
                    out[16..20].fill(0xff);
                }
            }
        }
        self.spoil(out, &answer);
        answer
    }

    fn acknowledge(&mut self, connection: u32, exp_stat_sn: u32) -> Result<u32, Refusal> {
        let shown = self.connection(connection);
        let mut answer = self.inner.acknowledge(shown, exp_stat_sn);
        if self.is(Fault::AcknowledgeOneMore) && answer == Err(Refusal::Stale) {
            answer = self.inner.acknowledge(shown, exp_stat_sn.wrapping_sub(1));
        }
        if let Ok(count) = answer {
            let held = self.seen.held.entry(connection).or_default();
            *held = held.saturating_sub(count as usize);
        }
        answer
    }

    fn snack(&mut self, connection: u32, pdu: &[u8]) -> Result<Run, Refusal> {
        let mut shown = self.disguised(pdu);
        let connection = self.connection(connection);
        let answer = self.inner.snack(connection, &shown);
        let mut answer = self.data_out_as_snack(&shown, answer);
        if self.is(Fault::RunClipped) && answer == Err(Refusal::Snack) && shown.len() >= 48 {
            shown[44..48].fill(0);
            if shown[40..44] != [0; 4] {
                answer = self.inner.snack(connection, &shown);
            }
        }
        if self.is(Fault::SnackAcknowledges) && answer.is_ok() {
            let _ = self.inner.acknowledge(connection, number(pdu, 28));
        }
        answer
    }

    fn resend(
        &mut self,
        connection: u32,
        stat_sn: u32,
        task: &Task,
        out: &mut [u8],
    ) -> Result<u32, Refusal> {
        let target = self.connection(connection);
        let untouched = out.to_vec();
        let mut answer = self.inner.resend(target, stat_sn, task, out);
        if answer.is_ok()
            && let Some(header) = self.seen.sent.get(&(connection, stat_sn))
        {
            if self.is(Fault::ResendAsSent) {
                out[..HEADER_BYTES].copy_from_slice(header);
            }
            if let Err(refusal) = self.spoil_resent(task, header, out) {
                out.copy_from_slice(&untouched);
                answer = Err(refusal);
            }
        }
        self.spoil(out, &answer);
        answer
    }

    fn window(&self) -> Window {
        let mut window = self.inner.window();
        let next = self.next_cmd_sn();
        if self.is(Fault::FullWindowLooksEmpty) && window.exp_cmd_sn.wrapping_sub(next) == 64 {
            window.exp_cmd_sn = next;
        }
        window
    }

    fn next_stat_sn(&self, connection: u32) -> Result<u32, Refusal> {
        self.next_with_fault(connection)
    }

    fn holder(&self, number: u32) -> Holder {
        self.holder_with_fault(number)
    }

    fn task(&self, given: TaskGiven) -> Result<Task, Refusal> {
        self.task_with_fault(given)
    }

    fn data_in(
        &mut self,
        connection: u32,
        task: &mut Task,
        out: &mut [u8],
        pdu: DataInPdu,
    ) -> Result<(), Refusal> {
        self.data_in_with_fault(connection, task, out, pdu)
    }

    fn r2t(
        &mut self,
        connection: u32,
        task: &mut Task,
        out: &mut [u8],
        tag: u32,
        length: u32,
    ) -> Result<(), Refusal> {
        self.r2t_with_fault(connection, task, out, tag, length)
    }

    fn data_out(&mut self, connection: u32, task: &mut Task, pdu: &[u8]) -> Result<Came, Refusal> {
        self.data_out_with_fault(connection, task, pdu)
    }

    fn data_snack(
        &mut self,
        connection: u32,
        task: &mut Task,
        offset: u32,
        pdu: &[u8],
    ) -> Result<DataSnack, Refusal> {
        self.data_snack_with_fault(connection, task, offset, pdu)
    }

    fn length(&self, header: &[u8]) -> Result<u32, Refusal> {
        self.length_with_fault(header)
    }

    fn read(&self, pdu: &[u8]) -> Result<Pdu, Refusal> {
        self.read_with_fault(pdu)
    }

    fn write(&self, out: &mut [u8], numbers: Numbers, response: &Response) -> Result<(), Refusal> {
        self.write_with_fault(out, numbers, response)
    }

    fn begin_login(&mut self, target_name: &[u8]) {
        self.inner.begin_login(target_name);
    }

    fn login(
        &mut self,
        live: u16,
        new: u16,
        gather: &mut [u8],
        text: &mut [u8],
        pdu: &[u8],
    ) -> Result<LoginAnswer, Refusal> {
        self.login_with_fault(live, new, gather, text, pdu)
    }

    fn parameters(&self) -> Parameters {
        let mut p = self.inner.parameters();
        match self.fault {
            Fault::Time2WaitSmaller => p.default_time2wait = p.default_time2wait.min(2),
            Fault::FirstBurstBounded => {
                p.first_burst_length = p.first_burst_length.min(p.max_burst_length);
            }
            _ => {}
        }
        p
    }
}
