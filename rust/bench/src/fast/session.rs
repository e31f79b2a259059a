//! One window and four ledgers.

use super::ledger::Ledger;
use super::read::{self, be32, offered};
use super::task::Task;
use super::window::CommandWindow;
use super::write::{MAX_DATA, header, judge, put};
use calls::{
    Came, DataInPdu, DataSnack, HEADER_BYTES, Holder, LogoutCounts, Numbers, Offer, Refusal,
    Response, Run, Take, Window,
};

#[derive(Clone)]
pub struct Session {
    window: CommandWindow,
    ledgers: [Ledger; 4],
    level: u8,
}

impl Session {
    pub fn fresh(first: u32, stat_sn: u32, level: u8) -> Self {
        let mut session = Session {
            window: CommandWindow::fresh(first),
            ledgers: std::array::from_fn(|_| Ledger::closed()),
            level,
        };
        session.ledgers[0].open(stat_sn);
        session
    }

    #[inline]
    fn ledger(&mut self, connection: u32) -> Result<&mut Ledger, Refusal> {
        match self.ledgers.get_mut(connection as usize) {
            None => Err(Refusal::NoConn),
            Some(ledger) if !ledger.open => Err(Refusal::Closed),
            Some(ledger) => Ok(ledger),
        }
    }

    #[inline]
    pub fn window(&self) -> Window {
        Window {
            exp_cmd_sn: self.window.exp_cmd_sn(),
            max_cmd_sn: self.window.max_cmd_sn(),
        }
    }

    #[inline]
    pub fn next_stat_sn(&self, connection: u32) -> Result<u32, Refusal> {
        match self.ledgers.get(connection as usize) {
            None => Err(Refusal::NoConn),
            Some(ledger) if !ledger.open => Err(Refusal::Closed),
            Some(ledger) => Ok(ledger.next()),
        }
    }

    #[inline]
    pub fn holder(&self, number: u32) -> Holder {
        self.window.holder(number)
    }

    #[inline]
    pub fn offer(&mut self, connection: u32, ticket: u32, pdu: &[u8]) -> Result<Offer, Refusal> {
        self.ledger(connection)?;
        let (header, immediate) = offered(pdu)?;
        if immediate {
            return Ok(Offer::Immediate);
        }
        let number = be32(header, 24);
        Ok(self
            .window
            .offer(number, header, ticket, connection as usize))
    }

    #[inline]
    pub fn take(&mut self, out: &mut [u8]) -> Result<Take, Refusal> {
        match out.first_chunk_mut::<HEADER_BYTES>() {
            Some(out) => Ok(self.window.take(out)),
            None => Err(Refusal::Buffer),
        }
    }

    #[inline]
    pub fn logout(&mut self, connection: u32, reason: u8) -> Result<LogoutCounts, Refusal> {
        self.ledger(connection)?;
        if reason > 2 {
            return Err(Refusal::Field);
        }
        let counts = self.window.logout(connection as usize, reason);
        if reason == 0 {
            for ledger in &mut self.ledgers {
                ledger.open = false;
            }
        } else {
            self.ledgers[connection as usize].open = false;
        }
        Ok(counts)
    }

    #[inline]
    pub fn open(&mut self, connection: u32, stat_sn: u32) -> Result<(), Refusal> {
        match self.ledgers.get_mut(connection as usize) {
            None => Err(Refusal::NoConn),
            Some(ledger) if ledger.open => Err(Refusal::Open),
            Some(ledger) => {
                ledger.open(stat_sn);
                Ok(())
            }
        }
    }

    #[inline]
    pub fn send(
        &mut self,
        connection: u32,
        ticket: u32,
        task: &Task,
        out: &mut [u8],
        response: &Response,
    ) -> Result<u32, Refusal> {
        let Some(out) = out.first_chunk_mut::<HEADER_BYTES>() else {
            return Err(Refusal::Buffer);
        };
        let window = self.window();
        let ledger = self.ledger(connection)?;
        judge(response)?;
        if matches!(response, Response::DataIn { .. } | Response::R2t { .. }) {
            return Err(Refusal::Field);
        }
        let exp_data_sn = task.due(response)?;
        let stored = !matches!(
            *response,
            Response::NopIn {
                itt: 0xffff_ffff,
                ..
            }
        );
        if stored && ledger.is_full() {
            return Err(Refusal::Full);
        }
        let stat_sn = ledger.next();
        let numbers = Numbers {
            stat_sn,
            exp_cmd_sn: window.exp_cmd_sn,
            max_cmd_sn: window.max_cmd_sn,
        };
        let mut words = header(numbers, response);
        if matches!(response, Response::Scsi { .. }) {
            words[4] = words[4] >> 32 << 32 | u64::from(exp_data_sn);
        }
        put(out, &words);
        if stored {
            ledger.store(&words, ticket);
        }
        Ok(stat_sn)
    }

    #[inline]
    pub fn acknowledge(&mut self, connection: u32, exp_stat_sn: u32) -> Result<u32, Refusal> {
        self.ledger(connection)?.acknowledge(exp_stat_sn)
    }

    #[inline]
    pub fn snack(&mut self, connection: u32, pdu: &[u8]) -> Result<Run, Refusal> {
        let level = self.level;
        let ledger = self.ledger(connection)?;
        let h = read::snack(pdu)?;
        if h[1] & 0x0f != 1 || level == 0 {
            return Err(Refusal::Snack);
        }
        ledger.run(be32(h, 40), be32(h, 44))
    }

    #[inline]
    pub fn resend(
        &mut self,
        connection: u32,
        stat_sn: u32,
        task: &Task,
        out: &mut [u8],
    ) -> Result<u32, Refusal> {
        let Some(out) = out.first_chunk_mut::<HEADER_BYTES>() else {
            return Err(Refusal::Buffer);
        };
        let numbers = (self.window.exp_cmd_sn(), self.window.max_cmd_sn());
        let level = self.level;
        let ledger = self.ledger(connection)?;
        if level == 0 {
            return Err(Refusal::Snack);
        }
        let ticket = ledger.resend(stat_sn, numbers, out)?;
        task.renew(out);
        Ok(ticket)
    }

    #[inline]
    fn numbers(&self, connection: u32) -> Result<Numbers, Refusal> {
        Ok(Numbers {
            stat_sn: self.next_stat_sn(connection)?,
            exp_cmd_sn: self.window.exp_cmd_sn(),
            max_cmd_sn: self.window.max_cmd_sn(),
        })
    }

    #[inline]
    pub fn data_in(
        &self,
        connection: u32,
        task: &mut Task,
        out: &mut [u8],
        pdu: DataInPdu,
    ) -> Result<(), Refusal> {
        let Some(out) = out.first_chunk_mut::<HEADER_BYTES>() else {
            return Err(Refusal::Buffer);
        };
        let numbers = self.numbers(connection)?;
        if pdu.data_segment_length > MAX_DATA {
            return Err(Refusal::TooLong);
        }
        put(out, &task.data_in(numbers, pdu)?);
        Ok(())
    }

    #[inline]
    pub fn r2t(
        &self,
        connection: u32,
        task: &mut Task,
        out: &mut [u8],
        tag: u32,
        length: u32,
    ) -> Result<(), Refusal> {
        let Some(out) = out.first_chunk_mut::<HEADER_BYTES>() else {
            return Err(Refusal::Buffer);
        };
        let numbers = self.numbers(connection)?;
        put(out, &task.r2t(numbers, tag, length)?);
        Ok(())
    }

    #[inline]
    pub fn data_out(&self, connection: u32, task: &mut Task, pdu: &[u8]) -> Result<Came, Refusal> {
        self.next_stat_sn(connection)?;
        task.data_out(pdu)
    }

    #[inline]
    pub fn data_snack(
        &self,
        connection: u32,
        task: &mut Task,
        offset: u32,
        pdu: &[u8],
    ) -> Result<DataSnack, Refusal> {
        self.next_stat_sn(connection)?;
        task.data_snack(self.level, offset, pdu)
    }
}
