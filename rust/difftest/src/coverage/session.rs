//! What a session reached, seen from its calls and answers alone.

use super::number;
use calls::{Holder, Offer, Refusal, Response};
use script::{Answer, Call};
use std::collections::{BTreeMap, BTreeSet};

/// What is known of the session of the moment.
#[derive(Debug, Default)]
pub struct View {
    level: u8,
    next: u32,
    handed: u32,
    held: BTreeMap<u32, u32>,
    kept_ever: BTreeSet<u32>,
    /// Held numbers that were kept a second time, and those that came again while held.
    kept_again: BTreeSet<u32>,
    duplicates: BTreeSet<u32>,
    void: u32,
    open: BTreeSet<u32>,
    closed_by: BTreeMap<u32, u8>,
    /// Connections whose last send was a NOP-In without tag.
    pinged: BTreeSet<u32>,
    /// The held statuses of each connection, with their headers.
    statuses: BTreeMap<u32, Vec<(u32, [u8; 48])>>,
}

impl View {
    /// ErrorRecoveryLevel.
    pub fn level(&self) -> u8 {
        self.level
    }

    /// The header with which a held status was sent.
    pub fn sent(&self, connection: u32, stat_sn: u32) -> Option<&[u8; 48]> {
        let held = self.statuses.get(&connection)?;
        let status = held.iter().find(|(number, _)| *number == stat_sn)?;
        Some(&status.1)
    }

    /// Whether a connection holds 32 statuses.
    pub fn is_full(&self, connection: u32) -> bool {
        self.statuses.get(&connection).map_or(0, Vec::len) == 32
    }

    pub fn saw(&mut self, call: &Call, answer: &Answer, marks: &mut Vec<String>) {
        let mut mark = |text: &str| marks.push(text.into());
        match (call, answer) {
            (Call::Session { first, level, .. }, _) => {
                *self = View {
                    level: *level,
                    next: *first,
                    open: BTreeSet::from([0]),
                    ..View::default()
                };
            }
            (
                Call::Offer {
                    connection, pdu, ..
                },
                Answer::Offered(offer),
            ) => {
                self.offered(*connection, number(pdu, 24), *offer, &mut mark);
            }
            (Call::Offer { pdu, .. }, Answer::Refused(Refusal::Field))
                if pdu[0] & 0x3f == 0x05 && number(pdu, 24).wrapping_sub(self.next) < 64 =>
            {
                mark("Data-Out: offered with a number of the window, FIELD");
            }
            (_, Answer::Void(_)) => {
                self.void = self.void.saturating_sub(1);
                self.handed_out();
            }
            (_, Answer::Out(..)) => self.handed_out(),
            (_, Answer::Window(window)) => {
                let gapless = window.exp_cmd_sn.wrapping_sub(self.next);
                if gapless == 64 {
                    mark("window: 64 held without a gap");
                }
                if window.max_cmd_sn < self.next {
                    mark("window: across the wrap");
                }
                if (gapless as usize) < self.held.len() {
                    mark("window: a gap");
                }
            }
            (Call::Logout { connection, reason }, Answer::LoggedOut(counts)) => {
                self.logged_out(
                    *connection,
                    *reason,
                    (counts.emptied, counts.voided),
                    &mut mark,
                );
            }
            (Call::Open { connection, .. }, Answer::Opened) => {
                match self.closed_by.get(connection) {
                    Some(0) => mark("opened again after reason 0"),
                    Some(_) => mark("opened again"),
                    None => {}
                }
                self.open.insert(*connection);
            }
            (Call::Next { connection }, _) => self.next_asked(*connection, answer, &mut mark),
            (Call::Holder { number }, Answer::Holder(holder)) => {
                self.holder_asked(*number, *holder, &mut mark);
            }
            (
                Call::DataIn { connection, .. }
                | Call::R2t { connection, .. }
                | Call::DataOut { connection, .. }
                | Call::DataSnack { connection, .. },
                _,
            ) => self.data_call(call, *connection, answer, &mut mark),
            _ => self.ledger(call, answer, &mut mark),
        }
    }

    fn data_call(
        &self,
        call: &Call,
        connection: u32,
        answer: &Answer,
        mark: &mut impl FnMut(&str),
    ) {
        let closed_by = self.closed_by.get(&connection);
        match answer {
            Answer::Refused(Refusal::NoConn) if connection > 255 => {
                mark("data call: on a connection number above 255");
            }
            Answer::Refused(Refusal::Closed) if closed_by.is_some() => {
                mark("data call: on a connection closed by a logout");
            }
            Answer::Refused(_) => {}
            _ => {
                if closed_by.is_some() {
                    mark("data call: on a connection opened again");
                }
                if connection > 0 {
                    mark("data call: on another connection than 0");
                }
                match call {
                    Call::DataIn { .. } if self.is_full(connection) => mark("data-in: when full"),
                    Call::R2t { .. } if self.is_full(connection) => mark("r2t: when full"),
                    _ => {}
                }
            }
        }
    }

    fn next_asked(&self, connection: u32, answer: &Answer, mark: &mut impl FnMut(&str)) {
        let closed_by = self.closed_by.get(&connection);
        match answer {
            Answer::Refused(Refusal::NoConn) if connection > 255 => {
                mark("next: of a connection number above 255");
            }
            Answer::Refused(Refusal::Closed) if closed_by.is_some() => {
                mark("next: of a connection closed by a logout");
            }
            Answer::Refused(Refusal::Closed) => mark("next: of a connection never opened"),
            Answer::Next(stat_sn) => {
                if closed_by.is_some() {
                    mark("next: of a connection opened again");
                }
                if self.pinged.contains(&connection) {
                    mark("next: after a NOP-In without tag");
                }
                if let Some((oldest, _)) = self.statuses.get(&connection).and_then(|s| s.first()) {
                    mark("next: with statuses held");
                    if stat_sn < oldest {
                        mark("next: across the wrap");
                    }
                }
            }
            _ => {}
        }
    }

    fn holder_asked(&self, number: u32, holder: Holder, mark: &mut impl FnMut(&str)) {
        let (ahead, back) = (
            number.wrapping_sub(self.next),
            self.next.wrapping_sub(number),
        );
        match holder {
            Holder::Free if ahead < 64 => {
                mark("holder: free in the window");
                if self.kept_ever.contains(&number) {
                    mark("holder: free, emptied");
                }
            }
            Holder::Free if back < 1 << 31 => {
                mark("holder: free behind the window");
                if back == 1 && self.handed > 0 {
                    mark("holder: free, handed out last");
                }
            }
            Holder::Free => {
                mark("holder: free beyond the window");
                if ahead == 64 {
                    mark("holder: free, the first beyond the window");
                }
            }
            Holder::Void => {}
            Holder::Held { .. } => {
                for (is_so, text) in [
                    (ahead == 63, "holder: held, the last of the window"),
                    (number < self.next, "holder: held across the wrap"),
                    (
                        self.duplicates.contains(&number),
                        "holder: held after a duplicate",
                    ),
                    (
                        self.kept_again.contains(&number),
                        "holder: held, kept again after it was emptied",
                    ),
                ] {
                    if is_so {
                        mark(text);
                    }
                }
            }
        }
    }

    fn handed_out(&mut self) {
        self.held.remove(&self.next);
        self.next = self.next.wrapping_add(1);
        self.handed += 1;
    }

    fn offered(&mut self, connection: u32, number: u32, offer: Offer, mark: &mut impl FnMut(&str)) {
        let back = self.next.wrapping_sub(number);
        if offer == Offer::Duplicate {
            self.duplicates.insert(number);
        }
        match offer {
            Offer::Kept => {
                self.held.insert(number, connection);
                self.duplicates.remove(&number);
                if !self.kept_ever.insert(number) {
                    self.kept_again.insert(number);
                    mark("kept again after it was emptied");
                }
            }
            Offer::Duplicate if number.wrapping_sub(self.next) < self.void => {
                // The void numbers aren't known one by one; of those at the front some are.
                mark("duplicate of a void number");
            }
            Offer::Passed if back > 64 => mark("passed more than 64 back"),
            Offer::Beyond if back < 1 << 31 => mark("beyond behind R"),
            _ => {}
        }
    }

    fn logged_out(
        &mut self,
        connection: u32,
        reason: u8,
        (emptied, voided): (u32, u32),
        mark: &mut impl FnMut(&str),
    ) {
        if emptied > 0 {
            mark(&format!("logout {reason} emptied"));
        }
        if voided > 0 {
            mark(&format!("logout {reason} voided"));
        }
        let own = self
            .held
            .values()
            .filter(|&&origin| origin == connection)
            .count();
        if reason == 2 && own > emptied as usize {
            mark("logout 2 leaves commands");
        }
        if reason == 0 && self.void > 0 {
            mark("logout 0 with void numbers held");
        }
        if reason == 0 && self.open.len() > 1 {
            mark("logout 0 closes others");
        }
        self.void += voided;
        let closed: Vec<_> = match reason {
            0 => self.open.iter().copied().collect(),
            _ => vec![connection],
        };
        for each in closed {
            self.open.remove(&each);
            self.closed_by.insert(each, reason);
            self.statuses.remove(&each);
            self.pinged.remove(&each);
        }
        self.forget_emptied(connection, reason);
    }

    /// Numbers after the gap went with the logout.
    fn forget_emptied(&mut self, connection: u32, reason: u8) {
        let mut gap = self.next;
        while self.held.contains_key(&gap) {
            gap = gap.wrapping_add(1);
        }
        let (next, gapless) = (self.next, gap.wrapping_sub(self.next));
        self.held.retain(|number, origin| {
            let before = number.wrapping_sub(next) < gapless;
            before || (reason != 0 && *origin != connection)
        });
    }

    fn ledger(&mut self, call: &Call, answer: &Answer, mark: &mut impl FnMut(&str)) {
        match (call, answer) {
            (
                Call::Send {
                    connection,
                    response,
                    ..
                },
                Answer::Sent(stat_sn, header),
            ) => {
                let held = self.statuses.entry(*connection).or_default();
                if matches!(
                    response,
                    Response::NopIn {
                        itt: 0xffff_ffff,
                        ..
                    }
                ) {
                    if held.len() == 32 {
                        mark("ledger: NOP-In without tag sent when full");
                    }
                    self.pinged.insert(*connection);
                    return;
                }
                self.pinged.remove(connection);
                held.push((*stat_sn, *header));
                if held.len() == 32 {
                    mark("ledger: 32 held");
                }
                if held[0].0 > *stat_sn {
                    mark("ledger: across the wrap");
                }
            }
            (Call::Acknowledge { connection, .. }, Answer::Acknowledged(count)) => {
                let held = self.statuses.entry(*connection).or_default();
                held.drain(..(*count as usize).min(held.len()));
            }
            (
                Call::Resend {
                    connection,
                    stat_sn,
                    ..
                },
                _,
            ) => {
                let held = self.statuses.entry(*connection).or_default();
                let sent = held.iter().find(|(number, _)| number == stat_sn);
                match (answer, sent) {
                    (Answer::Resent(_, again), Some((_, sent))) if again != sent => {
                        mark("resent with other window numbers");
                    }
                    (Answer::Refused(Refusal::Snack), Some(_)) if self.level == 0 => {
                        mark("resend: refused at level 0 though held");
                    }
                    _ => {}
                }
            }
            (Call::Snack { connection, pdu }, _) if pdu.len() >= 48 => {
                let held = self.statuses.get(connection).map_or(0, Vec::len);
                snack(
                    number(pdu, 40),
                    number(pdu, 44),
                    held,
                    self.level,
                    answer,
                    mark,
                );
            }
            _ => {}
        }
    }
}

fn snack(
    beg_run: u32,
    run_length: u32,
    held: usize,
    level: u8,
    answer: &Answer,
    mark: &mut impl FnMut(&str),
) {
    let all = beg_run == 0 && run_length == 0;
    match answer {
        Answer::Run(run) if all && run.count == 0 => mark("run: all of none"),
        Answer::Run(run) if all && run.count > 1 => mark("run: all of several"),
        Answer::Run(run) if run_length == 0 && run.count > 0 && !all => mark("run: to the end"),
        Answer::Run(run) if run.count < held as u32 => {
            mark("run: a part");
            if beg_run == 0 {
                mark("run: begins at 0 with a length");
            }
        }
        Answer::Refused(Refusal::Snack) if level == 0 && all => {
            mark("run: refused at level 0");
        }
        Answer::Refused(Refusal::Snack) if level > 0 && run_length > 1 => {
            mark("run: refused past the end");
        }
        _ => {}
    }
}
