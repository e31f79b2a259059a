//! A session and records of tasks, each in its engine's own form: what is timed has no other form of a record to convert.

use crate::fast;
use calls::{Came, DataInPdu, DataSnack, Engine, Offer, Refusal, Response, Take, Task, TaskGiven};
use model::Model;

/// The calls of a session that are timed with a record, or beside one that is.
pub trait Session {
    /// A task's record.
    type Record: Clone;

    /// A fresh session: its first command number, connection 0's first StatSN, and the ErrorRecoveryLevel.
    fn begun(first: u32, stat_sn: u32, level: u8) -> Self;
    /// The record of a task.
    fn record(given: TaskGiven) -> Self::Record;
    /// Offer a whole PDU.
    fn offer(&mut self, connection: u32, ticket: u32, pdu: &[u8]) -> Result<Offer, Refusal>;
    /// Hand out the next command.
    fn take(&mut self, out: &mut [u8]) -> Result<Take, Refusal>;
    /// Send a status with its task's record.
    fn send(
        &mut self,
        connection: u32,
        ticket: u32,
        task: &Self::Record,
        out: &mut [u8],
        response: &Response,
    ) -> Result<u32, Refusal>;
    /// Acknowledge every status before this number.
    fn acknowledge(&mut self, connection: u32, exp_stat_sn: u32) -> Result<u32, Refusal>;
    /// Write a held status again.
    fn resend(
        &mut self,
        connection: u32,
        stat_sn: u32,
        task: &Self::Record,
        out: &mut [u8],
    ) -> Result<u32, Refusal>;
    /// Send the next Data-In.
    fn data_in(
        &mut self,
        connection: u32,
        task: &mut Self::Record,
        out: &mut [u8],
        pdu: DataInPdu,
    ) -> Result<(), Refusal>;
    /// Send the next R2T.
    fn r2t(
        &mut self,
        connection: u32,
        task: &mut Self::Record,
        out: &mut [u8],
        tag: u32,
        length: u32,
    ) -> Result<(), Refusal>;
    /// Take a Data-Out.
    fn data_out(
        &mut self,
        connection: u32,
        task: &mut Self::Record,
        pdu: &[u8],
    ) -> Result<Came, Refusal>;
    /// Take a SNACK of type 0, 2 or 3.
    fn data_snack(
        &mut self,
        connection: u32,
        task: &mut Self::Record,
        offset: u32,
        pdu: &[u8],
    ) -> Result<DataSnack, Refusal>;
}

/// A session of an engine's type, each call by the function of the same name: `inline`, or `inline(never)`.
macro_rules! session {
    ($inline:meta, $(#[$doc:meta])* $name:ident, $session:ty, $record:ty, $begun:expr, $made:expr) => {
        $(#[$doc])*
        pub struct $name($session);

        impl Session for $name {
            type Record = $record;

            fn begun(first: u32, stat_sn: u32, level: u8) -> Self {
                $name($begun(first, stat_sn, level))
            }

            fn record(given: TaskGiven) -> $record {
                $made(given).unwrap()
            }

            #[$inline]
            fn offer(
                &mut self,
                connection: u32,
                ticket: u32,
                pdu: &[u8],
            ) -> Result<Offer, Refusal> {
                <$session>::offer(&mut self.0, connection, ticket, pdu)
            }

            #[$inline]
            fn take(&mut self, out: &mut [u8]) -> Result<Take, Refusal> {
                <$session>::take(&mut self.0, out)
            }

            #[$inline]
            fn send(
                &mut self,
                connection: u32,
                ticket: u32,
                task: &$record,
                out: &mut [u8],
                response: &Response,
            ) -> Result<u32, Refusal> {
                <$session>::send(&mut self.0, connection, ticket, task, out, response)
            }

            #[$inline]
            fn acknowledge(&mut self, connection: u32, exp_stat_sn: u32) -> Result<u32, Refusal> {
                <$session>::acknowledge(&mut self.0, connection, exp_stat_sn)
            }

            #[$inline]
            fn resend(
                &mut self,
                connection: u32,
                stat_sn: u32,
                task: &$record,
                out: &mut [u8],
            ) -> Result<u32, Refusal> {
                <$session>::resend(&mut self.0, connection, stat_sn, task, out)
            }

            #[$inline]
            fn data_in(
                &mut self,
                connection: u32,
                task: &mut $record,
                out: &mut [u8],
                pdu: DataInPdu,
            ) -> Result<(), Refusal> {
                <$session>::data_in(&mut self.0, connection, task, out, pdu)
            }

            #[$inline]
            fn r2t(
                &mut self,
                connection: u32,
                task: &mut $record,
                out: &mut [u8],
                tag: u32,
                length: u32,
            ) -> Result<(), Refusal> {
                <$session>::r2t(&mut self.0, connection, task, out, tag, length)
            }

            #[$inline]
            fn data_out(
                &mut self,
                connection: u32,
                task: &mut $record,
                pdu: &[u8],
            ) -> Result<Came, Refusal> {
                <$session>::data_out(&mut self.0, connection, task, pdu)
            }

            #[$inline]
            fn data_snack(
                &mut self,
                connection: u32,
                task: &mut $record,
                offset: u32,
                pdu: &[u8],
            ) -> Result<DataSnack, Refusal> {
                <$session>::data_snack(&mut self.0, connection, task, offset, pdu)
            }
        }
    };
}

session!(
    inline,
    /// The hand-optimised one, a part of the loop that calls it.
    Fast,
    fast::session::Session,
    fast::task::Task,
    fast::session::Session::fresh,
    fast::task::Task::make
);
session!(
    inline(never),
    /// The hand-optimised one behind calls, as a library has it.
    Called,
    fast::session::Session,
    fast::task::Task,
    fast::session::Session::fresh,
    fast::task::Task::make
);
session!(
    inline,
    /// The proved one, which is a library.
    Drawbevel,
    drawbevel::Session,
    drawbevel::Task,
    drawbevel::Session::new,
    drawbevel::Task::new
);
session!(
    inline,
    /// The model's.
    Modelled,
    Model,
    Task,
    begun_model,
    |given| Model::default().task(given)
);

fn begun_model(first: u32, stat_sn: u32, level: u8) -> Model {
    let mut model = Model::default();
    model.begin_session(first, stat_sn, level);
    model
}
