//! Login Responses in bytes, and the session that follows them.

use drawbevel::request::Login as Request;
use drawbevel::{
    Login, LoginAnswer, Numbers, Offer, Refusal, Response, Session, Window, login_response, read,
    write,
};
use testkit::pdu::{self, block};
use testkit::{Bytes, Rng};

const TARGET: &[u8] = b"iqn.2026-11.example:drawbevel";
const ISID: u64 = 0x0002_3d00_0001;
/// The handle of a new session.
const NEW: u16 = 0x0708;

/// A login's areas.
struct Talk {
    login: Login,
    gather: [u8; 8192],
    text: [u8; 8192],
}

impl Talk {
    fn new() -> Self {
        Talk {
            login: Login::new(),
            gather: [0; 8192],
            text: [0; 8192],
        }
    }

    /// The response to a request, as a target makes it.
    fn response(&mut self, live: u16, pdu: &Bytes) -> Response {
        let (gather, text) = (&mut self.gather, &mut self.text);
        let (request, itt) = request_of(pdu);
        match self
            .login
            .request(TARGET, live, NEW, gather, text, pdu.as_ref())
        {
            Ok(answer) => login_response::accepted(&request, itt, &answer),
            Err(Refusal::Login(status)) => login_response::refused(&request, itt, status),
            Err(other) => panic!("{other:?}"),
        }
    }
}

/// The request of a PDU, with its tag.
fn request_of(pdu: &Bytes) -> (Request, u32) {
    let pdu = read(pdu.as_ref()).unwrap();
    match pdu.request {
        drawbevel::Request::Login(request) => (request, pdu.itt),
        other => panic!("{other:?}"),
    }
}

/// A request with these flags, handle and CmdSN that names this target.
fn request(flags: u8, tsih: u16, cmd_sn: u32, target: &str) -> Bytes {
    let target = format!("TargetName={target}");
    let names = block(&["InitiatorName=iqn.2026-11.example:station", &target]);
    let bytes = pdu::login(flags, &names).itt(0x0a0b_0c0d).cmd_sn(cmd_sn);
    bytes.field(8, 6, ISID).field(14, 2, tsih.into())
}

fn ours() -> &'static str {
    std::str::from_utf8(TARGET).unwrap()
}

/// The bytes of a response with these numbers.
fn bytes(response: &Response, stat_sn: u32, window: Window) -> [u8; 48] {
    let mut out = [0xee; 48];
    let numbers = Numbers {
        stat_sn,
        exp_cmd_sn: window.exp_cmd_sn,
        max_cmd_sn: window.max_cmd_sn,
    };
    write(&mut out, numbers, response).unwrap();
    out
}

/// The window numbers of a leading login's responses.
fn window_of(cmd_sn: u32) -> Window {
    Window {
        exp_cmd_sn: cmd_sn,
        max_cmd_sn: cmd_sn.wrapping_add(63),
    }
}

/// A header of twelve words in hex.
fn words(text: &str) -> [u8; 48] {
    let word = |digits| u32::from_str_radix(digits, 16).unwrap().to_be_bytes();
    let bytes: Vec<u8> = text.split(' ').flat_map(word).collect();
    bytes.try_into().unwrap()
}

#[test]
fn a_leading_login() {
    let mut talk = Talk::new();
    let window = window_of(123);
    // From the security stage to the operational one: no handle yet; the text is TargetPortalGroupTag=1 and a zero byte.
    let first = talk.response(0, &request(0x81, 0, 123, ours()));
    let header = "23810000 00000017 00023d00 00010000 0a0b0c0d 00000000 00000064 0000007b 000000ba 00000000 00000000 00000000";
    assert_eq!(bytes(&first, 100, window), words(header));
    // To full feature phase: the new handle, no text.
    let empty = request(0x87, 0, 123, ours()).resized(48).field(5, 3, 0);
    let last = talk.response(0, &empty);
    let header = "23870000 00000000 00023d00 00010708 0a0b0c0d 00000000 00000065 0000007b 000000ba 00000000 00000000 00000000";
    assert_eq!(bytes(&last, 101, window), words(header));

    // The session says the same numbers, keeps the command with the login's number, and goes on with the next StatSN.
    let mut session = Session::new(123, 102, 0);
    assert_eq!(session.window(), window);
    assert_eq!(session.next_stat_sn(0), Ok(102));
    assert_eq!(session.acknowledge(0, 102), Ok(0));
    let command = pdu::scsi_command(123);
    assert_eq!(session.offer(0, 1, command.as_ref()), Ok(Offer::Kept));
}

#[test]
fn text_that_goes_on_is_answered_without_any() {
    let mut talk = Talk::new();
    let piece = talk.response(0, &request(0x44, 0, 0xffff_fff0, ours()));
    let header = "23040000 00000000 00023d00 00010000 0a0b0c0d 00000000 00000000 fffffff0 0000002f 00000000 00000000 00000000";
    assert_eq!(bytes(&piece, 0, window_of(0xffff_fff0)), words(header));
}

#[test]
fn a_joining_login() {
    // A session whose numbers the login's own CmdSN, 500, is ahead of.
    let mut session = Session::new(490, 7, 1);
    for number in [490, 491] {
        session
            .offer(0, number, pdu::scsi_command(number).as_ref())
            .unwrap();
    }
    session.take(&mut [0; 48]).unwrap();
    let response = Talk::new().response(NEW, &request(0x87, NEW, 500, ours()));
    let header = "23870000 00000017 00023d00 00010708 0a0b0c0d 00000000 ffffffff 000001ec 0000022a 00000000 00000000 00000000";
    assert_eq!(
        bytes(&response, 0xffff_ffff, session.window()),
        words(header)
    );
    session.open(1, 0).unwrap();
    assert_eq!(session.next_stat_sn(1), Ok(0));
}

#[test]
fn a_refusal() {
    // T and NSG are clear though they were asked for; there is no data, and the handle is the request's.
    let refused = |tsih, target| {
        let response = Talk::new().response(0, &request(0x87, tsih, 123, target));
        bytes(&response, 1, window_of(123))
    };
    // A leading login to another target, and one that joins no live session.
    let header = "23040000 00000000 00023d00 00010000 0a0b0c0d 00000000 00000001 0000007b 000000ba 02030000 00000000 00000000";
    assert_eq!(refused(0, "iqn.2026-11.example:other"), words(header));
    let header = "23040000 00000000 00023d00 00011234 0a0b0c0d 00000000 00000001 0000007b 000000ba 020a0000 00000000 00000000";
    assert_eq!(refused(0x1234, ours()), words(header));
}

/// Every request and answer that a login can have makes a response that can be written, with each field from its own source.
#[test]
fn each_field_has_its_source() {
    let mut rng = Rng::new(11_013);
    for _ in 0..2_000 {
        let request = Request {
            transit: rng.one_in(2),
            continues: rng.one_in(2),
            csg: rng.below(4) as u8,
            nsg: rng.below(4) as u8,
            version_max: rng.number() as u8,
            version_min: rng.number() as u8,
            isid: rng.number() >> 16,
            tsih: rng.number() as u16,
            cid: rng.number() as u16,
        };
        let transit = rng.one_in(2);
        let answer = LoginAnswer {
            stage: rng.pick(&[0, 1, 3]),
            transit,
            csg: rng.below(4) as u8,
            nsg: if transit { rng.below(4) as u8 } else { 0 },
            tsih: rng.number() as u16,
            text_length: rng.index(8193),
        };
        let (itt, status) = (rng.u32(), rng.number() as u16);
        let isid = request.isid.to_be_bytes();
        let accepted = bytes(
            &login_response::accepted(&request, itt, &answer),
            1,
            window_of(2),
        );
        let flags = u8::from(answer.transit) << 7 | answer.csg << 2 | answer.nsg;
        let length = answer.text_length as u32;
        let wanted = header(flags, length, &isid[2..], answer.tsih, itt, 0);
        assert_eq!(accepted, wanted);
        let refused = bytes(
            &login_response::refused(&request, itt, status),
            1,
            window_of(2),
        );
        let wanted = header(request.csg << 2, 0, &isid[2..], request.tsih, itt, status);
        assert_eq!(refused, wanted);
    }
}

/// A Login Response with StatSN 1, ExpCmdSN 2 and MaxCmdSN 65, field by field where RFC 7143 (11.13) puts them.
fn header(flags: u8, length: u32, isid: &[u8], tsih: u16, itt: u32, status: u16) -> [u8; 48] {
    let mut header = [0; 48];
    (header[0], header[1]) = (0x23, flags);
    header[4..8].copy_from_slice(&length.to_be_bytes());
    header[8..14].copy_from_slice(isid);
    header[14..16].copy_from_slice(&tsih.to_be_bytes());
    header[16..20].copy_from_slice(&itt.to_be_bytes());
    (header[27], header[31], header[35]) = (1, 2, 65);
    header[36..38].copy_from_slice(&status.to_be_bytes());
    header
}
