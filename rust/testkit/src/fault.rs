//! An engine with one fault, to show that the tests find it. Each fault is a mistake that a careful reader could make.

use calls::{Engine, Response};
use std::collections::{BTreeMap, BTreeSet};

mod data_headers;
mod headers;
mod login;
mod questions;
mod session;
mod task_statuses;
mod tasks_came;
mod tasks_sent;

/// What is wrong with an engine.
#[derive(Clone, Copy, Debug, PartialEq, Eq, PartialOrd, Ord)]
pub enum Fault {
    /// Nothing: the wrapper itself is right.
    None,
    /// A short input with a bad opcode is OPCODE.
    OpcodeBeforeShort,
    /// LENGTH before TOOLONG.
    LengthBeforeTooLong,
    /// A pad word too many is read.
    PadWordTooMany,
    /// A data segment of 8,192 bytes is too long.
    LongestRefused,
    /// Additional headers are read in every kind.
    AhsAnywhere,
    /// A SNACK shows bytes 24 to 27 as its CmdSN.
    SnackShowsCmdSn,
    /// The task management function has four bits.
    FunctionFourBits,
    /// R stands in for F and W.
    ReadIsEnough,
    /// A Login shows a LUN.
    LoginShowsLun,
    /// A NOP-Out without a tag needn't be immediate.
    NopOutWithoutTag,
    /// A Data-Out is OPCODE.
    DataOutUnknown,
    /// A Data-Out shows bytes 24 to 27 as its CmdSN.
    DataOutShowsCmdSn,
    /// A Data-Out shows I.
    DataOutShowsI,
    /// A Data-Out without F is FIELD.
    DataOutNeedsF,
    /// Additional headers are read in a Data-Out.
    DataOutAhs,
    /// A Data-Out without a Target Transfer Tag is FIELD.
    DataOutNeedsTag,
    /// A Data-Out without data is FIELD.
    DataOutNeedsData,
    /// A Data-Out's DataSN and Buffer Offset are read from each other's place.
    DataOutSwapped,
    /// A Data-Out that is offered is immediate.
    DataOutOffered,
    /// A Data-Out in a SNACK's place is SNACK.
    DataOutAsSnack,
    /// A Data-In carries StatSN.
    DataInStatSn,
    /// A Data-In's byte 1 has its highest bit, as that of others.
    DataInAlwaysFinal,
    /// A isn't written.
    DataInWithoutA,
    /// A Data-In has its length in bytes 44 to 47 too.
    DataInLengthTwice,
    /// A Data-In's length isn't held to 8,192 bytes.
    DataInAnyLength,
    /// A Data-In with A and no Target Transfer Tag is FIELD in writing.
    DataInNeedsTag,
    /// An R2T has its desired length as DataSegmentLength.
    R2tDataLength,
    /// An R2T's StatSN is 0, as a Data-In's.
    R2tStatSnZero,
    /// An R2T without a Target Transfer Tag is FIELD in writing.
    R2tNeedsTag,
    /// An R2T that asks for nothing is FIELD in writing.
    R2tNeedsLength,
    /// A SCSI Response's ExpDataSN isn't written.
    ExpDataSnLeftOut,
    /// A SCSI Response's ExpDataSN stands in bytes 40 to 43.
    ExpDataSnAfterResidual,
    /// A Data-In or an R2T is sent as a status.
    DataSent,
    /// A Data-In that is sent is FIELD before it is TOOLONG.
    DataSentFieldFirst,
    /// A Data-In or an R2T that is sent is FULL before it is FIELD.
    DataSentFullFirst,
    /// A record of MaxOutstandingR2T above 8 is made, for 8.
    TaskMoreR2ts,
    /// MaxOutstandingR2T is cut to eight bits at a record's making.
    TaskCutR2ts,
    /// A record of MaxOutstandingR2T 0 is made, for 1.
    TaskZeroR2ts,
    /// A record starts at 0, whatever immediate data came.
    TaskForgetsImmediate,
    /// DataSN starts anew after each F.
    DataSnRestartsAtF,
    /// The limit of a burst is applied to the whole transfer.
    BurstIsTransfer,
    /// The limit of a burst is applied to each Data-In alone.
    BurstIsPdu,
    /// A burst must be shorter than MaxBurstLength.
    BurstOneShort,
    /// Data-In may not reach the last byte before 2^32.
    OffsetsOneShort,
    /// An empty Data-In is sent at offset 2^32.
    EmptyAtTheEnd,
    /// The last number that may be sent is refused.
    NumbersOneShort,
    /// The count sent wraps at 2^32.
    NumbersWrap,
    /// An empty Data-In is FIELD.
    EmptyDataIn,
    /// A Data-In with A has no transfer tag.
    TagOfALeftOut,
    /// A Data-In with A has no LUN.
    LunOfALeftOut,
    /// A Data-In without A has LUN and transfer tag.
    TagsWithoutA,
    /// A Data-In with A is sent for a task without a transfer tag.
    AWithoutTag,
    /// A Data-In of a task carries the next StatSN.
    DataInCarriesStatSn,
    /// A Data-In uses up a StatSN.
    DataInStored,
    /// A Data-In's Buffer Offset counts from the start of its burst.
    DataInOffsetOfBurst,
    /// A refused Data-In uses up its number.
    RefusedDataInCounts,
    /// An R2T is stored as a status.
    R2tStored,
    /// R2TSN doesn't count the Data-In.
    R2tOwnNumbers,
    /// An R2T asks from where the data came up to.
    R2tFromCame,
    /// An R2T may ask for more than MaxBurstLength.
    R2tAnyLength,
    /// An R2T must ask for less than MaxBurstLength.
    R2tLengthOneShort,
    /// An R2T may ask for nothing.
    R2tOfNothing,
    /// An R2T may not ask for the last byte before 2^32.
    R2tOffsetsOneShort,
    /// Eight R2Ts stand open whatever MaxOutstandingR2T is.
    R2tAnyCount,
    /// The last R2T that may stand open is refused, but for the first.
    R2tOneFewer,
    /// An R2T may have tag 0xffffffff.
    R2tWithoutTag,
    /// An R2T whose tag another open one has is FIELD.
    R2tTagTwice,
    /// An R2T has no LUN.
    R2tLunLeftOut,
    /// An R2T ends the burst of Data-In.
    R2tEndsBurst,
    /// An R2T counts as a Data-In for ExpDataSN.
    R2tIsDataIn,
    /// The newest open R2T is answered first.
    NewestR2tFirst,
    /// Any open R2T's tag is taken for the oldest one's.
    AnyOpenR2t,
    /// Data-Out with tag 0xffffffff is taken for the oldest R2T's.
    UnsolicitedTaken,
    /// F is accepted one byte early.
    FOneEarly,
    /// F ends an R2T before its end.
    FAnywhere,
    /// F may be clear at the R2T's end.
    FMissing,
    /// Data past the R2T's end is accepted.
    PastTheEnd,
    /// An empty Data-Out is FIELD.
    EmptyDataOut,
    /// Data-Out's DataSN goes on over F.
    DataSnOverF,
    /// Data-Out's DataSN isn't looked at.
    AnyDataSn,
    /// The last DataSN is due.
    LastDataSnDue,
    /// Data-Out's Buffer Offset isn't looked at.
    AnyOffset,
    /// Data-Out's Initiator Task Tag isn't looked at.
    AnyItt,
    /// Data-Out of another LUN is FIELD.
    LunCompared,
    /// Data-Out's answer counts the R2Ts open before it.
    OpenBefore,
    /// A refused Data-Out uses up its DataSN.
    RefusedDataOutCounts,
    /// A data SNACK's run from 0 is all.
    DataZeroIsAll,
    /// A data SNACK's run past the end is clipped.
    DataRunClipped,
    /// Acknowledged numbers can be asked for again.
    AcknowledgedAgain,
    /// A type 0 acknowledges the numbers before its run.
    RunAcknowledges,
    /// An older DataACK takes back what is acknowledged.
    DataAckGoesBack,
    /// An older DataACK is SNACK.
    OlderDataAckRefused,
    /// A DataACK above the count acknowledges all.
    DataAckClipped,
    /// A DataACK of all that was sent is SNACK.
    DataAckOneShort,
    /// A DataACK with a RunLength is SNACK.
    DataAckRunLength,
    /// A DataACK's tag isn't looked at.
    DataAckAnyTag,
    /// A DataACK with tag 0xffffffff is due for a task without a transfer tag.
    DataAckWithoutTag,
    /// A data SNACK's Initiator Task Tag isn't looked at.
    SnackAnyItt,
    /// A status SNACK in a data SNACK's place is SNACK.
    StatusSnackIsSnack,
    /// A data SNACK at level 0 is SNACK before FIELD.
    LevelBeforeTags,
    /// A type 3 keeps the count.
    Type3KeepsCount,
    /// The count goes on from 0 after a type 3.
    Type3FromZero,
    /// A type 3 doesn't begin a burst.
    Type3KeepsBurst,
    /// A type 3 doesn't move the offset.
    Type3KeepsOffset,
    /// A later type 3's tag isn't taken.
    Type3KeepsTag,
    /// A type 3 closes the open R2Ts.
    Type3ClosesR2ts,
    /// After a type 3 no Data-In was ever sent.
    Type3ForgetsDataIn,
    /// A type 3 with a run is served.
    Type3WithRun,
    /// ExpDataSN counts R2Ts where no Data-In was sent.
    ExpDataSnOfR2ts,
    /// ExpDataSN isn't 0 for another response code than 0.
    ExpDataSnOfFailed,
    /// ExpDataSN is sent as it is stated.
    ExpDataSnStated,
    /// A SCSI Response's Initiator Task Tag isn't compared.
    StatusAnyItt,
    /// A SCSI Response's SNACK tag isn't compared.
    StatusAnySnackTag,
    /// A SCSI Response with a wrong tag is FIELD before TOOLONG.
    TagsBeforeTooLong,
    /// A SCSI Response with a wrong tag is FULL before FIELD.
    TagsAfterFull,
    /// A resend has the ExpDataSN of the send.
    ResendOldCount,
    /// A resend has the SNACK tag of the send.
    ResendOldTag,
    /// A resend with a record without a type 3 has SNACK tag 0.
    ResendClearsTag,
    /// A resend with another task's record is FIELD.
    ResendJudgesTask,
    /// A resend's ExpDataSN isn't 0 for another response code than 0.
    ResendCountOfFailed,
    /// A resend of any status has an ExpDataSN.
    ResendCountsOthers,
    /// A data call looks at its connection last.
    DataConnectionLast,
    /// A data call looks at its connection before its output.
    DataBufferLast,
    /// A Data-In that no rule allows is FIELD before TOOLONG.
    DataFieldBeforeTooLong,
    /// O and U are written as the bidirectional bits.
    BidirectionalBits,
    /// A Reject has no 0xff bytes.
    RejectWithoutTag,
    /// NSG is dropped where T is clear.
    NsgDropped,
    /// An ISID that is too wide is cut.
    IsidCut,
    /// FIELD before TOOLONG in writing.
    FieldBeforeTooLong,
    /// A send looks at its response before its connection.
    ResponseBeforeConnection,
    /// A byte after the header is written.
    WritesAfterHeader,
    /// A refusal writes a byte.
    WritesOnRefusal,
    /// Every number behind R is passed.
    BehindIsPassed,
    /// Only 64 numbers back are passed.
    PassedForgets,
    /// 64 held numbers count as none.
    FullWindowLooksEmpty,
    /// A void hand-out is answered as nothing.
    VoidIsNothing,
    /// A void hand-out writes a header.
    VoidWrites,
    /// Numbers already void are counted again.
    VoidCountedAgain,
    /// After reason 2 connection 0 is the origin.
    OriginKept,
    /// Reason 0 closes its own connection only.
    OthersStayOpen,
    /// A duplicate's ticket replaces the kept one.
    DuplicateReplaces,
    /// An immediate command is kept.
    ImmediateKept,
    /// Connection numbers have eight bits.
    ConnectionCut,
    /// A run from 0 is all.
    ZeroIsAll,
    /// Runs past the end are clipped.
    RunClipped,
    /// The NOP-In without a tag uses up its number.
    NopInStored,
    /// The NOP-In without a tag can be FULL.
    NopInFull,
    /// The 32nd status is FULL.
    FullOneEarly,
    /// One number past the next may be acknowledged.
    AcknowledgeOneMore,
    /// A resend shows the window numbers of the send.
    ResendAsSent,
    /// SNACKs and resends are served at level 0.
    LevelZeroServes,
    /// A SNACK acknowledges.
    SnackAcknowledges,
    /// A reopened connection goes on with its old StatSN.
    ReopenedGoesOn,
    /// A length of a short input with a bad opcode is OPCODE.
    LengthOpcodeFirst,
    /// A length is TOOLONG before it is OPCODE.
    LengthTooLongFirst,
    /// A length with 8,192 bytes of data is too long.
    LengthLongestTooLong,
    /// A length is without its pad.
    LengthWithoutPad,
    /// A length is without the additional headers.
    LengthWithoutAhs,
    /// A length counts additional headers in a SCSI Command only.
    LengthAhsOfCommandsOnly,
    /// A length of more than 48 bytes is LENGTH.
    LengthOfHeaderOnly,
    /// A length of any bytes but the whole PDU is LENGTH.
    LengthOfWholeOnly,
    /// A length is refused where a field rule is broken.
    LengthJudgesFields,
    /// The next StatSN is the last one sent.
    NextIsLast,
    /// The next StatSN is the oldest one held.
    NextIsOldest,
    /// The next StatSN moves with a NOP-In without a tag.
    NextCountsPings,
    /// The next StatSN of a closed connection is answered.
    NextOfClosed,
    /// The next StatSN of a reopened connection is the one before its logout until a status is sent.
    NextGoesOn,
    /// The holder of a void number is shown with its ticket.
    HolderShowsVoid,
    /// A void number is free.
    HolderVoidIsFree,
    /// The holder of a handed-out number is shown.
    HolderKeepsHandedOut,
    /// The holder of an emptied number is shown.
    HolderKeepsEmptied,
    /// The holder of a number outside the window is that of its place.
    HolderByPlace,
    /// The holder has its origin after reason 2.
    HolderKeepsOrigin,
    /// The holder of a number kept again has its first ticket.
    HolderOldTicket,
    /// The holder has a duplicate's ticket, but is handed out with its own.
    HolderShowsDuplicate,
    /// DefaultTime2Wait isn't settled by the greater.
    Time2WaitSmaller,
    /// FirstBurstLength is bounded by MaxBurstLength.
    FirstBurstBounded,
    /// A key that comes twice is accepted.
    TwiceAccepted,
    /// A name of the length and first letter of two known names is taken for the first of them.
    NameNotWhole,
    /// The second of two known names of one length and first letter isn't known.
    SecondCandidateUnknown,
    /// Names that are missing are 0x0200.
    MissingIsInitiatorError,
    /// T is answered without being asked.
    TransitUnasked,
    /// The new handle is answered before full feature phase.
    HandleEarly,
    /// The new handle is answered to a login that isn't leading.
    HandleAlways,
    /// The first answer lacks TargetPortalGroupTag.
    PortalTagMissing,
    /// A refused request writes to the gather area.
    GatherTouched,
    /// A status doesn't end the login.
    RefusalDoesNotEnd,
    /// The live session's handle isn't looked at.
    LiveIgnored,
    /// Version-min isn't looked at.
    VersionIgnored,
    /// The login may go on after full feature phase.
    FullFeatureGoesOn,
    /// Hollow: every numbered offer is beyond.
    OfferAlwaysBeyond,
    /// Hollow: every take is empty.
    TakeAlwaysNothing,
    /// Hollow: every number is free.
    HolderAlwaysFree,
    /// Hollow: every login is refused.
    LoginAlwaysRefused,
}

impl Fault {
    /// Every fault.
    pub const ALL: [Fault; 194] = [
        Fault::OpcodeBeforeShort,
        Fault::LengthBeforeTooLong,
        Fault::PadWordTooMany,
        Fault::LongestRefused,
        Fault::AhsAnywhere,
        Fault::SnackShowsCmdSn,
        Fault::FunctionFourBits,
        Fault::ReadIsEnough,
        Fault::LoginShowsLun,
        Fault::NopOutWithoutTag,
        Fault::DataOutUnknown,
        Fault::DataOutShowsCmdSn,
        Fault::DataOutShowsI,
        Fault::DataOutNeedsF,
        Fault::DataOutAhs,
        Fault::DataOutNeedsTag,
        Fault::DataOutNeedsData,
        Fault::DataOutSwapped,
        Fault::DataOutOffered,
        Fault::DataOutAsSnack,
        Fault::DataInStatSn,
        Fault::DataInAlwaysFinal,
        Fault::DataInWithoutA,
        Fault::DataInLengthTwice,
        Fault::DataInAnyLength,
        Fault::DataInNeedsTag,
        Fault::R2tDataLength,
        Fault::R2tStatSnZero,
        Fault::R2tNeedsTag,
        Fault::R2tNeedsLength,
        Fault::ExpDataSnLeftOut,
        Fault::ExpDataSnAfterResidual,
        Fault::DataSent,
        Fault::DataSentFieldFirst,
        Fault::DataSentFullFirst,
        Fault::TaskMoreR2ts,
        Fault::TaskCutR2ts,
        Fault::TaskZeroR2ts,
        Fault::TaskForgetsImmediate,
        Fault::DataSnRestartsAtF,
        Fault::BurstIsTransfer,
        Fault::BurstIsPdu,
        Fault::BurstOneShort,
        Fault::OffsetsOneShort,
        Fault::EmptyAtTheEnd,
        Fault::NumbersOneShort,
        Fault::NumbersWrap,
        Fault::EmptyDataIn,
        Fault::TagOfALeftOut,
        Fault::LunOfALeftOut,
        Fault::TagsWithoutA,
        Fault::AWithoutTag,
        Fault::DataInCarriesStatSn,
        Fault::DataInStored,
        Fault::DataInOffsetOfBurst,
        Fault::RefusedDataInCounts,
        Fault::R2tStored,
        Fault::R2tOwnNumbers,
        Fault::R2tFromCame,
        Fault::R2tAnyLength,
        Fault::R2tLengthOneShort,
        Fault::R2tOfNothing,
        Fault::R2tOffsetsOneShort,
        Fault::R2tAnyCount,
        Fault::R2tOneFewer,
        Fault::R2tWithoutTag,
        Fault::R2tTagTwice,
        Fault::R2tLunLeftOut,
        Fault::R2tEndsBurst,
        Fault::R2tIsDataIn,
        Fault::NewestR2tFirst,
        Fault::AnyOpenR2t,
        Fault::UnsolicitedTaken,
        Fault::FOneEarly,
        Fault::FAnywhere,
        Fault::FMissing,
        Fault::PastTheEnd,
        Fault::EmptyDataOut,
        Fault::DataSnOverF,
        Fault::AnyDataSn,
        Fault::LastDataSnDue,
        Fault::AnyOffset,
        Fault::AnyItt,
        Fault::LunCompared,
        Fault::OpenBefore,
        Fault::RefusedDataOutCounts,
        Fault::DataZeroIsAll,
        Fault::DataRunClipped,
        Fault::AcknowledgedAgain,
        Fault::RunAcknowledges,
        Fault::DataAckGoesBack,
        Fault::OlderDataAckRefused,
        Fault::DataAckClipped,
        Fault::DataAckOneShort,
        Fault::DataAckRunLength,
        Fault::DataAckAnyTag,
        Fault::DataAckWithoutTag,
        Fault::SnackAnyItt,
        Fault::StatusSnackIsSnack,
        Fault::LevelBeforeTags,
        Fault::Type3KeepsCount,
        Fault::Type3FromZero,
        Fault::Type3KeepsBurst,
        Fault::Type3KeepsOffset,
        Fault::Type3KeepsTag,
        Fault::Type3ClosesR2ts,
        Fault::Type3ForgetsDataIn,
        Fault::Type3WithRun,
        Fault::ExpDataSnOfR2ts,
        Fault::ExpDataSnOfFailed,
        Fault::ExpDataSnStated,
        Fault::StatusAnyItt,
        Fault::StatusAnySnackTag,
        Fault::TagsBeforeTooLong,
        Fault::TagsAfterFull,
        Fault::ResendOldCount,
        Fault::ResendOldTag,
        Fault::ResendClearsTag,
        Fault::ResendJudgesTask,
        Fault::ResendCountOfFailed,
        Fault::ResendCountsOthers,
        Fault::DataConnectionLast,
        Fault::DataBufferLast,
        Fault::DataFieldBeforeTooLong,
        Fault::BidirectionalBits,
        Fault::RejectWithoutTag,
        Fault::NsgDropped,
        Fault::IsidCut,
        Fault::FieldBeforeTooLong,
        Fault::ResponseBeforeConnection,
        Fault::WritesAfterHeader,
        Fault::WritesOnRefusal,
        Fault::BehindIsPassed,
        Fault::PassedForgets,
        Fault::FullWindowLooksEmpty,
        Fault::VoidIsNothing,
        Fault::VoidWrites,
        Fault::VoidCountedAgain,
        Fault::OriginKept,
        Fault::OthersStayOpen,
        Fault::DuplicateReplaces,
        Fault::ImmediateKept,
        Fault::ConnectionCut,
        Fault::ZeroIsAll,
        Fault::RunClipped,
        Fault::NopInStored,
        Fault::NopInFull,
        Fault::FullOneEarly,
        Fault::AcknowledgeOneMore,
        Fault::ResendAsSent,
        Fault::LevelZeroServes,
        Fault::SnackAcknowledges,
        Fault::ReopenedGoesOn,
        Fault::LengthOpcodeFirst,
        Fault::LengthTooLongFirst,
        Fault::LengthLongestTooLong,
        Fault::LengthWithoutPad,
        Fault::LengthWithoutAhs,
        Fault::LengthAhsOfCommandsOnly,
        Fault::LengthOfHeaderOnly,
        Fault::LengthOfWholeOnly,
        Fault::LengthJudgesFields,
        Fault::NextIsLast,
        Fault::NextIsOldest,
        Fault::NextCountsPings,
        Fault::NextOfClosed,
        Fault::NextGoesOn,
        Fault::HolderShowsVoid,
        Fault::HolderVoidIsFree,
        Fault::HolderKeepsHandedOut,
        Fault::HolderKeepsEmptied,
        Fault::HolderByPlace,
        Fault::HolderKeepsOrigin,
        Fault::HolderOldTicket,
        Fault::HolderShowsDuplicate,
        Fault::Time2WaitSmaller,
        Fault::FirstBurstBounded,
        Fault::TwiceAccepted,
        Fault::NameNotWhole,
        Fault::SecondCandidateUnknown,
        Fault::MissingIsInitiatorError,
        Fault::TransitUnasked,
        Fault::HandleEarly,
        Fault::HandleAlways,
        Fault::PortalTagMissing,
        Fault::GatherTouched,
        Fault::RefusalDoesNotEnd,
        Fault::LiveIgnored,
        Fault::VersionIgnored,
        Fault::FullFeatureGoesOn,
        Fault::OfferAlwaysBeyond,
        Fault::TakeAlwaysNothing,
        Fault::HolderAlwaysFree,
        Fault::LoginAlwaysRefused,
    ];

    /// Faults in sends that no line of a script says: `send` takes statuses there, without ExpDataSN.
    pub const UNSCRIPTED: [Fault; 4] = [
        Fault::ExpDataSnStated,
        Fault::DataSent,
        Fault::DataSentFieldFirst,
        Fault::DataSentFullFirst,
    ];
}

/// An engine with a fault.
#[derive(Clone)]
pub struct Broken<E> {
    inner: E,
    fault: Fault,
    seen: Seen,
}

/// What the wrapper remembers of the calls, for faults that need it.
#[derive(Clone, Default)]
struct Seen {
    level: u8,
    void: u32,
    open: BTreeSet<u32>,
    /// How many statuses each connection holds.
    held: BTreeMap<u32, usize>,
    next: BTreeMap<u32, u32>,
    /// The NOP-Ins without a tag since each connection was opened.
    pings: BTreeMap<u32, u32>,
    /// Each number that was kept.
    kept: BTreeMap<u32, questions::Kept>,
    /// The tickets of duplicates.
    tickets: BTreeMap<u32, u32>,
    sent: BTreeMap<(u32, u32), Vec<u8>>,
}

impl<E: Engine + Clone> Broken<E> {
    /// An engine with this fault and no other.
    pub fn new(inner: E, fault: Fault) -> Self {
        let mut broken = Broken {
            inner,
            fault,
            seen: Seen::default(),
        };
        broken.seen.open.insert(0);
        broken
    }

    fn is(&self, fault: Fault) -> bool {
        self.fault == fault
    }

    fn next_cmd_sn(&self) -> u32 {
        self.inner.window().max_cmd_sn.wrapping_sub(63)
    }
}

/// Whether a response is the NOP-In that isn't stored.
fn is_ping(response: &Response) -> bool {
    matches!(
        response,
        Response::NopIn {
            itt: 0xffff_ffff,
            ..
        }
    )
}

/// Whether a response is no status.
fn is_data(response: &Response) -> bool {
    matches!(response, Response::DataIn { .. } | Response::R2t { .. })
}

/// The tag that stands for none.
const NO_TAG: u32 = 0xffff_ffff;

/// The big-endian number of four bytes.
fn number(bytes: &[u8], at: usize) -> u32 {
    bytes[at..at + 4]
        .iter()
        .fold(0, |n, &b| n << 8 | u32::from(b))
}
