//! The shim (`shim.c`) as an engine: compiled into a shared object with the `drawbevel.h` of a folder, loaded, and called.
#![allow(unsafe_code)]

use crate::record::Words;
use calls::{
    Came, Data, DataInPdu, DataOut, DataSnack, Engine, Holder, Login, LoginAnswer, Logout,
    LogoutCounts, NopOut, Numbers, Offer, Out, Parameters, Pdu, Refusal, Request, Response, Run,
    ScsiCommand, Snack, Take, Task, TaskGiven, TaskManagement, Window,
};
use std::ffi::{CStr, CString, c_char, c_int, c_void};
use std::path::Path;
use testkit::c::{Language, compile};

#[link(name = "dl")]
unsafe extern "C" {
    fn dlopen(file: *const c_char, flags: c_int) -> *mut c_void;
    fn dlsym(handle: *mut c_void, name: *const c_char) -> *mut c_void;
    fn dlclose(handle: *mut c_void) -> c_int;
    fn dlerror() -> *const c_char;
}

const RTLD_NOW: c_int = 2;

/// A session and a login in C.
enum State {}

/// Makes the table of the shim's functions, each found by its name.
macro_rules! functions {
    ($($name:ident($($argument:ty),*) $(-> $answer:ty)?;)*) => {
        struct Functions {
            $($name: unsafe extern "C" fn($($argument),*) $(-> $answer)?,)*
        }

        impl Functions {
            /// # Safety
            /// The handle is of a shared object made of `shim.c`, whose functions are declared as here.
            unsafe fn of(handle: *mut c_void) -> Self {
                Functions {
                    $($name: unsafe {
                        std::mem::transmute::<*mut c_void, unsafe extern "C" fn($($argument),*) $(-> $answer)?>(
                            symbol(handle, concat!("shim_", stringify!($name))),
                        )
                    },)*
                }
            }
        }
    };
}

functions! {
    make() -> *mut State;
    drop(*mut State);
    sizes(*mut [u64; 5]);
    keys(*mut [u64; 12]);
    begins_whole() -> u32;
    is_refusal(u32) -> u32;
    answer_name(u32) -> *const c_char;
    length(*const u8, usize, *mut [u64; 1]) -> u32;
    read(*const u8, usize, *mut [u64; 17]) -> u32;
    write(*mut u8, usize, u64, *const [u64; 9], u32, u32, u32) -> u32;
    fresh(*mut State, u32, u32, u8);
    offer(*mut State, u32, u32, *const u8, usize) -> u32;
    take(*mut State, *mut u8, usize, *mut [u64; 3]) -> u32;
    logout(*mut State, u32, u8, *mut [u64; 2]) -> u32;
    open(*mut State, u32, u32) -> u32;
    send(*mut State, *const Words, u32, u32, u64, *const [u64; 9], *mut u8, usize, *mut [u64; 1]) -> u32;
    acknowledge(*mut State, u32, u32, *mut [u64; 1]) -> u32;
    snack(*const State, u32, *const u8, usize, *mut [u64; 2]) -> u32;
    resend(*const State, *const Words, u32, u32, *mut u8, usize, *mut [u64; 1]) -> u32;
    window(*const State, *mut [u64; 2]);
    next_stat_sn(*const State, u32, *mut [u64; 1]) -> u32;
    holder(*const State, u32, *mut [u64; 2]) -> u32;
    task(*mut Words, u32, u64, u32, u32, u32, u16) -> u32;
    data_in(*const State, *mut Words, u32, bool, bool, u32, *mut u8, usize) -> u32;
    r2t(*const State, *mut Words, u32, u32, u32, *mut u8, usize) -> u32;
    data_out(*const State, *mut Words, u32, *const u8, usize, *mut [u64; 3]) -> u32;
    data_snack(*const State, *mut Words, u32, u32, *const u8, usize, *mut [u64; 2]) -> u32;
    login_fresh(*mut State);
    login(
        *mut State, *const u8, usize, u16, u16, *const u8, usize, *mut u8, usize, *mut u8, usize, *mut [u64; 7]
    ) -> u32;
    values(*const State, *mut [u64; 12]);
    login_accepted(*const u8, usize, *const [u64; 6], *mut [u64; 10]);
    login_refused(*const u8, usize, u16, *mut [u64; 10]);
}

/// # Safety
/// The handle is one that `dlopen` gave.
unsafe fn symbol(handle: *mut c_void, name: &str) -> *mut c_void {
    let word = CString::new(name).unwrap();
    let found = unsafe { dlsym(handle, word.as_ptr()) };
    assert!(!found.is_null(), "shim.c has no {name}");
    found
}

/// The shim, loaded.
pub struct Library {
    handle: *mut c_void,
    functions: Functions,
}

impl Library {
    /// The shim compiled as `language` with the header in `include`, into the file `object`.
    pub fn compiled(language: Language, include: &Path, object: &Path) -> Self {
        let source = Path::new(env!("CARGO_MANIFEST_DIR")).join("tests/header/shim.c");
        let path = object.to_str().unwrap();
        // -Bsymbolic: this object calls the core that is linked into it, not another one in the process.
        let arguments = [
            env!("DRAWBEVEL_ARCHIVE"),
            "-O1",
            "-fPIC",
            "-shared",
            "-Wl,-Bsymbolic",
            "-o",
            path,
        ];
        compile(language.compiler(), language, include, &source, &arguments);
        let file = CString::new(path).unwrap();
        // SAFETY: the object was just made of shim.c; loading it runs no code of its own.
        unsafe {
            let handle = dlopen(file.as_ptr(), RTLD_NOW);
            assert!(!handle.is_null(), "{:?}", CStr::from_ptr(dlerror()));
            let functions = Functions::of(handle);
            Library { handle, functions }
        }
    }

    /// A session, a login, the reader and the writer.
    pub fn engine(&self) -> Shim<'_> {
        Shim {
            f: &self.functions,
            // SAFETY: no argument.
            state: unsafe { (self.functions.make)() },
            target_name: b"iqn.2026-11.example:drawbevel".to_vec(),
        }
    }

    // SAFETY of what follows: pointers and lengths are of slices and arrays that live through the call.

    /// The sizes that the header names.
    pub fn sizes(&self) -> [u64; 5] {
        let mut answer = [0; 5];
        unsafe { (self.functions.sizes)(&mut answer) };
        answer
    }

    /// The keys' numbers, in the order of the rules' table.
    pub fn keys(&self) -> [u64; 12] {
        let mut answer = [0; 12];
        unsafe { (self.functions.keys)(&mut answer) };
        answer
    }

    /// Whether nothing of what a session's or a login's memory held is left at its beginning.
    pub fn begins_whole(&self) -> bool {
        unsafe { (self.functions.begins_whole)() != 0 }
    }

    pub fn is_refusal(&self, answer: u32) -> bool {
        unsafe { (self.functions.is_refusal)(answer) != 0 }
    }

    pub fn answer_name(&self, answer: u32) -> &str {
        let name = unsafe { CStr::from_ptr((self.functions.answer_name)(answer)) };
        name.to_str().unwrap()
    }

    /// The fields of the Login Response to a Login Request; `answered` are stage, T, CSG, NSG, TSIH and length.
    pub fn login_accepted(&self, pdu: &[u8], answered: &[u64; 6]) -> [u64; 10] {
        let mut answer = [0; 10];
        unsafe { (self.functions.login_accepted)(pdu.as_ptr(), pdu.len(), answered, &mut answer) };
        answer
    }

    /// The fields of the Login Response that refuses these bytes.
    pub fn login_refused(&self, pdu: &[u8], status: u16) -> [u64; 10] {
        let mut answer = [0; 10];
        unsafe { (self.functions.login_refused)(pdu.as_ptr(), pdu.len(), status, &mut answer) };
        answer
    }
}

impl Drop for Library {
    fn drop(&mut self) {
        // SAFETY: every engine borrows the library, so none is left.
        unsafe { dlclose(self.handle) };
    }
}

/// An engine of the shim.
pub struct Shim<'l> {
    f: &'l Functions,
    state: *mut State,
    target_name: Vec<u8>,
}

impl Drop for Shim<'_> {
    fn drop(&mut self) {
        // SAFETY: made by `make`, and not dropped yet.
        unsafe { (self.f.drop)(self.state) };
    }
}

/// A response's opcode, and its fields in the order of RFC 7143's pictures.
fn fields_of(response: &Response) -> (u64, [u64; 9]) {
    let (opcode, list): (u64, &[u64]) = match *response {
        Response::NopIn {
            data_segment_length,
            lun,
            itt,
            ttt,
        } => (
            0x20,
            &[data_segment_length.into(), lun, itt.into(), ttt.into()],
        ),
        Response::Scsi {
            overflow,
            underflow,
            response,
            status,
            data_segment_length,
            itt,
            snack_tag,
            residual,
            exp_data_sn,
        } => (
            0x21,
            &[
                overflow.into(),
                underflow.into(),
                response.into(),
                status.into(),
                data_segment_length.into(),
                itt.into(),
                snack_tag.into(),
                residual.into(),
                exp_data_sn.into(),
            ],
        ),
        Response::TaskManagement { response, itt } => (0x22, &[response.into(), itt.into()]),
        Response::Login {
            csg,
            transit,
            nsg,
            data_segment_length,
            isid,
            tsih,
            itt,
            status_class,
            status_detail,
        } => (
            0x23,
            &[
                transit.into(),
                csg.into(),
                nsg.into(),
                data_segment_length.into(),
                isid,
                tsih.into(),
                itt.into(),
                status_class.into(),
                status_detail.into(),
            ],
        ),
        Response::DataIn {
            final_bit,
            acknowledge,
            data_segment_length,
            lun,
            itt,
            ttt,
            data_sn,
            buffer_offset,
        } => (
            0x25,
            &[
                final_bit.into(),
                acknowledge.into(),
                data_segment_length.into(),
                lun,
                itt.into(),
                ttt.into(),
                data_sn.into(),
                buffer_offset.into(),
            ],
        ),
        Response::Logout {
            response,
            itt,
            time2wait,
            time2retain,
        } => (
            0x26,
            &[
                response.into(),
                itt.into(),
                time2wait.into(),
                time2retain.into(),
            ],
        ),
        Response::R2t {
            lun,
            itt,
            ttt,
            r2t_sn,
            buffer_offset,
            desired_data_transfer_length,
        } => (
            0x31,
            &[
                lun,
                itt.into(),
                ttt.into(),
                r2t_sn.into(),
                buffer_offset.into(),
                desired_data_transfer_length.into(),
            ],
        ),
        Response::Reject { reason } => (0x3f, &[reason.into()]),
    };
    let mut fields = [0; 9];
    fields[..list.len()].copy_from_slice(list);
    (opcode, fields)
}

/// A number as narrow as its field is.
fn fit<T: TryFrom<u64>>(word: u64) -> T {
    T::try_from(word).unwrap_or_else(|_| panic!("{word:#x} is too wide for its field"))
}

/// A flag.
fn flag(word: u64) -> bool {
    assert!(word <= 1, "{word:#x} is no flag");
    word == 1
}

/// A connection, or none.
fn origin(word: u64) -> Option<u8> {
    (word != 255).then(|| fit(word))
}

/// The PDU of what the shim's `read` answers.
fn pdu_of(w: &[u64; 17]) -> Pdu {
    let request = match w[0] {
        0x00 => Request::NopOut(NopOut { ttt: fit(w[8]) }),
        0x01 => Request::ScsiCommand(ScsiCommand {
            final_bit: flag(w[8]),
            read: flag(w[9]),
            write: flag(w[10]),
            attribute: fit(w[11]),
            total_ahs_length: fit(w[12]),
            expected_data_transfer_length: fit(w[13]),
            cdb: [w[14], w[15]],
        }),
        0x02 => Request::TaskManagement(TaskManagement {
            function: fit(w[8]),
            referenced_task_tag: fit(w[9]),
            ref_cmd_sn: fit(w[10]),
            exp_data_sn: fit(w[11]),
        }),
        0x03 => Request::Login(Login {
            transit: flag(w[8]),
            continues: flag(w[9]),
            csg: fit(w[10]),
            nsg: fit(w[11]),
            version_max: fit(w[12]),
            version_min: fit(w[13]),
            isid: w[14],
            tsih: fit(w[15]),
            cid: fit(w[16]),
        }),
        0x05 => Request::DataOut(DataOut {
            final_bit: flag(w[8]),
            ttt: fit(w[9]),
            data_sn: fit(w[10]),
            buffer_offset: fit(w[11]),
        }),
        0x06 => Request::Logout(Logout {
            reason: fit(w[8]),
            cid: fit(w[9]),
        }),
        0x10 => Request::Snack(Snack {
            kind: fit(w[8]),
            ttt: fit(w[9]),
            beg_run: fit(w[10]),
            run_length: fit(w[11]),
        }),
        other => panic!("no request has the opcode {other:#x}"),
    };
    Pdu {
        immediate: flag(w[1]),
        cmd_sn: fit(w[2]),
        lun: w[3],
        itt: fit(w[4]),
        exp_stat_sn: fit(w[5]),
        request,
        data: Data {
            offset: fit(w[6]),
            length: fit(w[7]),
        },
    }
}

/// An answer that is no refusal, or the refusal: what it hands out is 0 then, but for LOGIN's status, its first value.
fn answered<const N: usize>(number: u32, values: [u64; N]) -> Result<u32, Refusal> {
    let refusal = match number {
        1 => Refusal::Buffer,
        2 => Refusal::Opcode,
        3 => Refusal::Field,
        4 => Refusal::Length,
        5 => Refusal::TooLong,
        6 => {
            assert!(values[1..].iter().all(|&word| word == 0), "{values:?}");
            return Err(Refusal::Login(fit(values[0])));
        }
        7 => Refusal::NoConn,
        8 => Refusal::Closed,
        9 => Refusal::Open,
        10 => Refusal::Full,
        11 => Refusal::Stale,
        12 => Refusal::Snack,
        _ => return Ok(number),
    };
    assert_eq!(values, [0; N], "after {refusal:?}");
    Err(refusal)
}

/// The answer of a call that has one.
fn only<const N: usize>(wanted: u32, number: u32, values: [u64; N]) -> Result<[u64; N], Refusal> {
    assert_eq!(answered(number, values)?, wanted);
    Ok(values)
}

const OK: u32 = 0;
const DONE: u32 = 32;

impl Shim<'_> {
    /// Write a response of any opcode and fields; 0 or a refusal.
    pub fn write_fields(
        &self,
        out: &mut [u8],
        numbers: Numbers,
        opcode: u64,
        fields: &[u64; 9],
    ) -> Result<(), Refusal> {
        let Numbers {
            stat_sn,
            exp_cmd_sn,
            max_cmd_sn,
        } = numbers;
        let (start, lent) = (out.as_mut_ptr(), out.len());
        let number =
            unsafe { (self.f.write)(start, lent, opcode, fields, stat_sn, exp_cmd_sn, max_cmd_sn) };
        only(OK, number, []).map(|_| ())
    }

    /// Send a response of any opcode and fields.
    pub fn send_fields(
        &mut self,
        connection: u32,
        ticket: u32,
        task: &Task,
        out: &mut [u8],
        opcode: u64,
        fields: &[u64; 9],
    ) -> Result<u32, Refusal> {
        let (start, lent) = (out.as_mut_ptr(), out.len());
        let mut answer = [0];
        let number = unsafe {
            (self.f.send)(
                self.state,
                &Words::of(task),
                connection,
                ticket,
                opcode,
                fields,
                start,
                lent,
                &mut answer,
            )
        };
        only(DONE, number, answer).map(|[stat_sn]| fit(stat_sn))
    }
}

// SAFETY of all calls: the state is the one that `make` gave, and pointers and lengths are of slices and arrays that live through the call.
impl Engine for Shim<'_> {
    fn begin_session(&mut self, first: u32, stat_sn: u32, level: u8) {
        unsafe { (self.f.fresh)(self.state, first, stat_sn, level) };
    }

    fn offer(&mut self, connection: u32, ticket: u32, pdu: &[u8]) -> Result<Offer, Refusal> {
        let (start, length) = (pdu.as_ptr(), pdu.len());
        let number = unsafe { (self.f.offer)(self.state, connection, ticket, start, length) };
        Ok(match answered(number, [])? {
            33 => Offer::Kept,
            34 => Offer::Duplicate,
            35 => Offer::Passed,
            36 => Offer::Beyond,
            37 => Offer::Immediate,
            other => panic!("an offer answers {other}"),
        })
    }

    fn take(&mut self, out: &mut [u8]) -> Result<Take, Refusal> {
        let mut answer = [0; 3];
        let (start, lent) = (out.as_mut_ptr(), out.len());
        let number = unsafe { (self.f.take)(self.state, start, lent, &mut answer) };
        Ok(match (answered(number, answer)?, answer) {
            (38, [0, 0, 0]) => Take::Nothing,
            (39, [cmd_sn, 0, 0]) => Take::Void(fit(cmd_sn)),
            (40, [cmd_sn, ticket, from]) => Take::Out(Out {
                cmd_sn: fit(cmd_sn),
                ticket: fit(ticket),
                origin: origin(from),
            }),
            other => panic!("a take answers {other:?}"),
        })
    }

    fn logout(&mut self, connection: u32, reason: u8) -> Result<LogoutCounts, Refusal> {
        let mut answer = [0; 2];
        let number = unsafe { (self.f.logout)(self.state, connection, reason, &mut answer) };
        let [emptied, voided] = only(DONE, number, answer)?;
        Ok(LogoutCounts {
            emptied: fit(emptied),
            voided: fit(voided),
        })
    }

    fn open(&mut self, connection: u32, stat_sn: u32) -> Result<(), Refusal> {
        let number = unsafe { (self.f.open)(self.state, connection, stat_sn) };
        only(DONE, number, []).map(|_| ())
    }

    fn send(
        &mut self,
        connection: u32,
        ticket: u32,
        task: &Task,
        out: &mut [u8],
        response: &Response,
    ) -> Result<u32, Refusal> {
        let (opcode, fields) = fields_of(response);
        self.send_fields(connection, ticket, task, out, opcode, &fields)
    }

    fn acknowledge(&mut self, connection: u32, exp_stat_sn: u32) -> Result<u32, Refusal> {
        let mut answer = [0];
        let number =
            unsafe { (self.f.acknowledge)(self.state, connection, exp_stat_sn, &mut answer) };
        only(DONE, number, answer).map(|[released]| fit(released))
    }

    fn snack(&mut self, connection: u32, pdu: &[u8]) -> Result<Run, Refusal> {
        let mut answer = [0; 2];
        let (start, length) = (pdu.as_ptr(), pdu.len());
        let number = unsafe { (self.f.snack)(self.state, connection, start, length, &mut answer) };
        let [first, count] = only(DONE, number, answer)?;
        Ok(Run {
            first: fit(first),
            count: fit(count),
        })
    }

    fn resend(
        &mut self,
        connection: u32,
        stat_sn: u32,
        task: &Task,
        out: &mut [u8],
    ) -> Result<u32, Refusal> {
        let (state, words) = (self.state, Words::of(task));
        let mut answer = [0];
        let (start, lent) = (out.as_mut_ptr(), out.len());
        let number = unsafe {
            (self.f.resend)(state, &words, connection, stat_sn, start, lent, &mut answer)
        };
        only(DONE, number, answer).map(|[ticket]| fit(ticket))
    }

    fn window(&self) -> Window {
        let mut answer = [0; 2];
        unsafe { (self.f.window)(self.state, &mut answer) };
        Window {
            exp_cmd_sn: fit(answer[0]),
            max_cmd_sn: fit(answer[1]),
        }
    }

    fn next_stat_sn(&self, connection: u32) -> Result<u32, Refusal> {
        let mut answer = [0];
        let number = unsafe { (self.f.next_stat_sn)(self.state, connection, &mut answer) };
        only(DONE, number, answer).map(|[stat_sn]| fit(stat_sn))
    }

    fn holder(&self, number: u32) -> Holder {
        let mut answer = [0; 2];
        let said = unsafe { (self.f.holder)(self.state, number, &mut answer) };
        match (said, answer) {
            (41, [0, 0]) => Holder::Free,
            (39, [0, 0]) => Holder::Void,
            (42, [ticket, from]) => Holder::Held {
                ticket: fit(ticket),
                origin: origin(from),
            },
            other => panic!("a question for a holder answers {other:?}"),
        }
    }

    fn task(&self, given: TaskGiven) -> Result<Task, Refusal> {
        let TaskGiven {
            itt,
            lun,
            tag,
            came,
            max_burst,
            max_r2t,
        } = given;
        let mut words = Words::FILLED;
        let number = unsafe { (self.f.task)(&mut words, itt, lun, tag, came, max_burst, max_r2t) };
        only(DONE, number, []).map(|_| words.record())
    }

    fn data_in(
        &mut self,
        connection: u32,
        task: &mut Task,
        out: &mut [u8],
        pdu: DataInPdu,
    ) -> Result<(), Refusal> {
        let (start, lent) = (out.as_mut_ptr(), out.len());
        let (f, a, length) = (pdu.final_bit, pdu.acknowledge, pdu.data_segment_length);
        let number = Words::lend(task, |words| unsafe {
            (self.f.data_in)(self.state, words, connection, f, a, length, start, lent)
        });
        only(DONE, number, []).map(|_| ())
    }

    fn r2t(
        &mut self,
        connection: u32,
        task: &mut Task,
        out: &mut [u8],
        tag: u32,
        length: u32,
    ) -> Result<(), Refusal> {
        let (start, lent) = (out.as_mut_ptr(), out.len());
        let number = Words::lend(task, |words| unsafe {
            (self.f.r2t)(self.state, words, connection, tag, length, start, lent)
        });
        only(DONE, number, []).map(|_| ())
    }

    fn data_out(&mut self, connection: u32, task: &mut Task, pdu: &[u8]) -> Result<Came, Refusal> {
        let mut answer = [0; 3];
        let (start, length) = (pdu.as_ptr(), pdu.len());
        let number = Words::lend(task, |words| unsafe {
            (self.f.data_out)(self.state, words, connection, start, length, &mut answer)
        });
        let [offset, count, open] = only(DONE, number, answer)?;
        Ok(Came {
            offset: fit(offset),
            count: fit(count),
            open: fit(open),
        })
    }

    fn data_snack(
        &mut self,
        connection: u32,
        task: &mut Task,
        offset: u32,
        pdu: &[u8],
    ) -> Result<DataSnack, Refusal> {
        let (state, mut answer) = (self.state, [0; 2]);
        let (start, length) = (pdu.as_ptr(), pdu.len());
        let number = Words::lend(task, |words| unsafe {
            (self.f.data_snack)(state, words, connection, offset, start, length, &mut answer)
        });
        Ok(match (answered(number, answer)?, answer) {
            (43, [first, count]) => DataSnack::Run(Run {
                first: fit(first),
                count: fit(count),
            }),
            (44, [0, count]) => DataSnack::Acknowledged(fit(count)),
            other => panic!("a SNACK for data answers {other:?}"),
        })
    }

    fn length(&self, header: &[u8]) -> Result<u32, Refusal> {
        let mut answer = [0];
        let number = unsafe { (self.f.length)(header.as_ptr(), header.len(), &mut answer) };
        only(OK, number, answer).map(|[whole]| fit(whole))
    }

    fn read(&self, pdu: &[u8]) -> Result<Pdu, Refusal> {
        let mut answer = [0; 17];
        let number = unsafe { (self.f.read)(pdu.as_ptr(), pdu.len(), &mut answer) };
        only(OK, number, answer).map(|words| pdu_of(&words))
    }

    fn write(&self, out: &mut [u8], numbers: Numbers, response: &Response) -> Result<(), Refusal> {
        let (opcode, fields) = fields_of(response);
        self.write_fields(out, numbers, opcode, &fields)
    }

    fn begin_login(&mut self, target_name: &[u8]) {
        self.target_name = target_name.to_vec();
        unsafe { (self.f.login_fresh)(self.state) };
    }

    fn login(
        &mut self,
        live: u16,
        new: u16,
        gather: &mut [u8],
        text: &mut [u8],
        pdu: &[u8],
    ) -> Result<LoginAnswer, Refusal> {
        let mut answer = [0; 7];
        let number = unsafe {
            (self.f.login)(
                self.state,
                pdu.as_ptr(),
                pdu.len(),
                live,
                new,
                self.target_name.as_ptr(),
                self.target_name.len(),
                gather.as_mut_ptr(),
                gather.len(),
                text.as_mut_ptr(),
                text.len(),
                &mut answer,
            )
        };
        let [status, stage, transit, csg, nsg, tsih, length] = only(OK, number, answer)?;
        assert_eq!(status, 0);
        Ok(LoginAnswer {
            stage: fit(stage),
            transit: flag(transit),
            csg: fit(csg),
            nsg: fit(nsg),
            tsih: fit(tsih),
            text_length: fit(length),
        })
    }

    fn parameters(&self) -> Parameters {
        let mut answer = [0; 12];
        unsafe { (self.f.values)(self.state, &mut answer) };
        Parameters {
            max_connections: fit(answer[0]),
            max_outstanding_r2t: fit(answer[1]),
            initial_r2t: flag(answer[2]),
            data_pdu_in_order: flag(answer[3]),
            data_sequence_in_order: flag(answer[4]),
            immediate_data: flag(answer[5]),
            max_recv_data_segment_length: fit(answer[6]),
            max_burst_length: fit(answer[7]),
            first_burst_length: fit(answer[8]),
            default_time2wait: fit(answer[9]),
            default_time2retain: fit(answer[10]),
            error_recovery_level: fit(answer[11]),
        }
    }
}
