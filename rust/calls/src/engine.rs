//! What an engine is: something that answers the calls of document 01.

use crate::{
    Came, DataInPdu, DataSnack, Holder, LoginAnswer, LogoutCounts, Numbers, Offer, Parameters, Pdu,
    Refusal, Response, Run, Take, Task, TaskGiven, Window,
};

/// One session, one login, and the header reader and writer. Outputs are lent by the caller as slices of any length;
/// an engine writes what the rules say and no other byte.
pub trait Engine {
    /// A fresh session: its first command number, connection 0's first StatSN, and the ErrorRecoveryLevel.
    fn begin_session(&mut self, first: u32, stat_sn: u32, level: u8);
    /// Offer a whole PDU that came on a connection.
    fn offer(&mut self, connection: u32, ticket: u32, pdu: &[u8]) -> Result<Offer, Refusal>;
    /// Hand out the next command; its header is written to `out`.
    fn take(&mut self, out: &mut [u8]) -> Result<Take, Refusal>;
    /// A logout's effect on an open connection.
    fn logout(&mut self, connection: u32, reason: u8) -> Result<LogoutCounts, Refusal>;
    /// Open a closed connection.
    fn open(&mut self, connection: u32, stat_sn: u32) -> Result<(), Refusal>;
    /// Send a status, a response other than Data-In and R2T, with its task's record; its header is written to `out`. The
    /// answer is its StatSN. A SCSI Response must have the record's tags and gets its ExpDataSN from it, whatever it
    /// states itself; other responses don't look at the record.
    fn send(
        &mut self,
        connection: u32,
        ticket: u32,
        task: &Task,
        out: &mut [u8],
        response: &Response,
    ) -> Result<u32, Refusal>;
    /// Acknowledge every status before this number. The answer is how many were released.
    fn acknowledge(&mut self, connection: u32, exp_stat_sn: u32) -> Result<u32, Refusal>;
    /// A status SNACK, a whole PDU.
    fn snack(&mut self, connection: u32, pdu: &[u8]) -> Result<Run, Refusal>;
    /// Write a held status again, to `out`, with its task's record: a SCSI Response gets its ExpDataSN from it, and the
    /// tag of a type 3 SNACK if one came. The answer is its ticket.
    fn resend(
        &mut self,
        connection: u32,
        stat_sn: u32,
        task: &Task,
        out: &mut [u8],
    ) -> Result<u32, Refusal>;
    /// Both numbers of the command window.
    fn window(&self) -> Window;
    /// The next StatSN of an open connection.
    fn next_stat_sn(&self, connection: u32) -> Result<u32, Refusal>;
    /// Who holds a command number, any number of 32 bits.
    fn holder(&self, number: u32) -> Holder;

    /// Make the record of a task. The data calls are given it as it was last answered; a refusal leaves it.
    fn task(&self, given: TaskGiven) -> Result<Task, Refusal>;
    /// Send a Data-In of a task; its header is written to `out`.
    fn data_in(
        &mut self,
        connection: u32,
        task: &mut Task,
        out: &mut [u8],
        pdu: DataInPdu,
    ) -> Result<(), Refusal>;
    /// Send an R2T with this Target Transfer Tag and Desired Data Transfer Length; its header is written to `out`.
    fn r2t(
        &mut self,
        connection: u32,
        task: &mut Task,
        out: &mut [u8],
        tag: u32,
        length: u32,
    ) -> Result<(), Refusal>;
    /// Take a Data-Out, a whole PDU that came on a connection.
    fn data_out(&mut self, connection: u32, task: &mut Task, pdu: &[u8]) -> Result<Came, Refusal>;
    /// Take a SNACK of type 0, 2 or 3, a whole PDU. After one of type 3 Data-In goes on at `offset`.
    fn data_snack(
        &mut self,
        connection: u32,
        task: &mut Task,
        offset: u32,
        pdu: &[u8],
    ) -> Result<DataSnack, Refusal>;

    /// The whole length of the PDU that begins with these bytes. Only the first 48 are looked at.
    fn length(&self, header: &[u8]) -> Result<u32, Refusal>;
    /// Read a whole PDU.
    fn read(&self, pdu: &[u8]) -> Result<Pdu, Refusal>;
    /// Write a response's header to `out`.
    fn write(&self, out: &mut [u8], numbers: Numbers, response: &Response) -> Result<(), Refusal>;

    /// A fresh login to the target of this name.
    fn begin_login(&mut self, target_name: &[u8]);
    /// Answer a login request. `live` is the live session's handle or 0, `new` the handle for a new session; `gather`
    /// is the area where text is gathered, lent at every call as the last call left it; the answer's text is written
    /// to `text`.
    fn login(
        &mut self,
        live: u16,
        new: u16,
        gather: &mut [u8],
        text: &mut [u8],
        pdu: &[u8],
    ) -> Result<LoginAnswer, Refusal>;
    /// The login's parameters in force.
    fn parameters(&self) -> Parameters;
}
