//! The Login Response, made of a request and of what the login answered to it, so that no field of it is copied by hand.
//!
//! It is written by [`write`](crate::write()), before there is a session or a connection to send it on, so its numbers are the caller's:
//!
//! - StatSN: any number in the first response of a connection, and one more in each further one (RFC 7143, 11.13.4).
//! - ExpCmdSN of a leading login (TSIH 0): the CmdSN of its requests. They are immediate: all carry the same number, and so does the
//!   first command after them (11.12 and 11.12.8). MaxCmdSN: 63 more, as the fresh session will say.
//! - Both of a login that joins a live session: that session's [`window`](crate::Session::window) at the time. The CmdSN of its requests is
//!   the initiator's, and other connections move it meanwhile (11.12.8).
//! - Of a refused login none of the three is valid, and both sides close the connection (11.13.5).
//!
//! The response that ends a login with stage 3 is its last. After it a leading login gets its [`Session::new`](crate::Session::new), with
//! that CmdSN as the first number and the ErrorRecoveryLevel in force, and any other its [`Session::open`](crate::Session::open). Either is
//! given the last response's StatSN plus one: the next response of any kind carries it (11.13.4).

use calls::{Login, LoginAnswer, Response};

/// The response to a request that was answered. Its data segment is the answer's text.
pub fn accepted(request: &Login, itt: u32, answer: &LoginAnswer) -> Response {
    Response::Login {
        csg: answer.csg,
        transit: answer.transit,
        nsg: answer.nsg,
        data_segment_length: answer.text_length as u32,
        isid: request.isid,
        tsih: answer.tsih,
        itt,
        status_class: 0,
        status_detail: 0,
    }
}

/// The response to a request that was refused with this status (class and detail), without data. Document 01 has CSG as in the request;
/// for RFC 7143 (6.3.1) it is reserved in a refusal, as T and NSG are.
pub fn refused(request: &Login, itt: u32, status: u16) -> Response {
    let [status_class, status_detail] = status.to_be_bytes();
    Response::Login {
        csg: request.csg,
        transit: false,
        nsg: 0,
        data_segment_length: 0,
        isid: request.isid,
        tsih: request.tsih,
        itt,
        status_class,
        status_detail,
    }
}
