//! The tape program in plain Rust: the baseline for times, and a second opinion on sheets.
//! Reads a tape from standard input whole and writes its sheet to standard output.

use std::io::{self, Read, Write};

const PLACES: usize = 32;
const MOST_LINKS: usize = 32;
const MOST_SUBSCRIBERS: usize = 64;
const MOST_DIGITS: usize = 15;
const LAST_NUMBER: u16 = 60_000;
const LAST_READING: u64 = 1 << 40;
const ALGORITHM: u8 = 1;

/// The tags of a tape's records.
mod record {
    pub const FIT_OUT: u8 = 0x10;
    pub const LINK: u8 = 0x11;
    pub const SUBSCRIBER: u8 = 0x12;
    pub const PLAIN_INITIATION: u8 = 0x20;
    pub const INITIATION_WITH_VALUES: u8 = 0x21;
    pub const VISITOR_START: u8 = 0x22;
    pub const NETWORK_PROOF: u8 = 0x23;
    pub const REPLY: u8 = 0x24;
    pub const DELIVERY: u8 = 0x25;
    pub const CLOCK: u8 = 0x26;
}

/// The tags of a sheet's records.
mod line {
    pub const SENT: u8 = 0x30;
    pub const REPORT: u8 = 0x31;
    pub const REFUSAL: u8 = 0x32;
    pub const DONE: u8 = 0x33;
}

/// The kinds of report.
mod report {
    pub const CHALLENGE: u8 = 1;
    pub const VERDICT: u8 = 2;
    pub const FAILURE: u8 = 3;
    pub const RESPONSE: u8 = 4;
}

/// The tags of an APDU's fields.
mod field {
    pub const KIND: u8 = 0x01;
    pub const INVOKE_ID: u8 = 0x02;
    pub const OPERATION: u8 = 0x03;
    pub const USER: u8 = 0x04;
    pub const CAN_COMPUTE: u8 = 0x05;
    pub const CHALLENGE: u8 = 0x06;
    pub const ALGORITHM: u8 = 0x07;
    pub const UNIT: u8 = 0x08;
    pub const SESSION: u8 = 0x09;
    pub const RESPONSE: u8 = 0x0A;
    pub const VERDICT: u8 = 0x0B;
    pub const ERROR: u8 = 0x0C;
    pub const PROBLEM: u8 = 0x0D;
}

/// The kinds of APDU.
mod kind {
    pub const INVOKE: u8 = 1;
    pub const RESULT: u8 = 2;
    pub const ERROR: u8 = 3;
    pub const REJECT: u8 = 4;
}

/// The errors that we send of our own accord, and the last one there is.
mod error {
    pub const INVALID_SERVED_USER_NUMBER: u8 = 1;
    pub const PARAM_NOT_AVAILABLE: u8 = 2;
    pub const TEMPORARILY_UNAVAILABLE: u8 = 3;
    pub const UNSPECIFIED: u8 = 5;
}

/// The problems of a reject.
mod problem {
    pub const UNKNOWN_OPERATION: u8 = 1;
    pub const WRONG_ARGUMENT: u8 = 2;
}

mod verdict {
    pub const CORRECT: u8 = 0;
    pub const INCORRECT: u8 = 1;
}

/// Where a subscriber's parameters are; 0 is nowhere.
mod place {
    pub const HERE: u8 = 1;
    pub const AT_SERVER: u8 = 2;
}

/// Why a record was not carried out; the value is the number on the sheet.
#[derive(Clone, Copy)]
enum Refusal {
    Reading = 2,
    Due = 3,
    Argument = 4,
    Garbled = 5,
    Stray = 6,
    Twice = 7,
    Full = 8,
    NumbersSpent = 9,
    FitOut = 10,
}

/// What a record gives, other than a refusal.
enum Outcome<'a> {
    Done,
    Sent { peer: u8, apdu: Apdu<'a> },
    Reported { name: u16, report: Report },
}

type Answer<'a> = Result<Outcome<'a>, Refusal>;

enum Report {
    Challenge(Challenge),
    Verdict(u8),
    /// The number of the error, of the problem or of the timer.
    Failure(Cause, u8),
    Response(Response),
}

/// Why a dialogue failed; the value is the number on the sheet.
#[derive(Clone, Copy)]
enum Cause {
    Error = 1,
    Reject = 2,
    Expiry = 3,
}

type Challenge = [u8; 8];
type Response = [u8; 4];
type Parameter = [u8; 8];
type Key = [u8; 16];

#[derive(Clone, Copy)]
struct Unit {
    challenge: Challenge,
    response: Response,
}

#[derive(Clone, Copy)]
struct Session {
    key: Key,
    parameter: Parameter,
}

/// Fresh bytes that come with a delivery.
struct Draw {
    challenge: Challenge,
    parameter: Parameter,
}

struct Apdu<'a> {
    id: u16,
    body: Body<'a>,
}

enum Body<'a> {
    Invoke(Invoke<'a>),
    Result(Operation, Given),
    Error(u8),
    Reject(u8),
}

/// An operation and its argument; what a field is that an invoke may lack is none where it does.
struct Invoke<'a> {
    operation: Operation,
    digits: &'a [u8],
    can_compute: bool,
    challenge: Option<Challenge>,
    algorithm: Option<u8>,
    unit: Option<Unit>,
}

/// What a result gives. The proof of a network bears no algorithm number.
#[derive(Clone, Copy)]
enum Given {
    Verdict(u8),
    Unit(u8, Unit),
    Session(Option<u8>, Session),
    Response(Response),
}

/// The value is the operation's number.
#[derive(Clone, Copy, PartialEq)]
enum Operation {
    AuthWtmUser = 1,
    GetWtatParam = 2,
    WtatParamEnq = 3,
    GetWtanParam = 4,
    WtanParamEnq = 5,
}

/// What the bytes of a delivery are, under an id, if they are not garbled. An invoke may be due a
/// reject, with a problem.
enum Received<'a> {
    Invoke(u16, Result<Invoke<'a>, u8>),
    Result(u16, Operation, Given),
    Error(u16, u8),
    Reject(u16, u8),
}

/// What a record asks for when it asks for a dialogue.
enum Request {
    PlainInitiation { peer: u8 },
    InitiationWithValues { peer: u8 },
    VisitorStart,
    NetworkProof { challenge: Challenge },
}

/// An invoke that went to a peer or came from one, by its id.
#[derive(Clone, Copy, PartialEq)]
struct Call {
    peer: u8,
    id: u16,
}

struct Dialogue<'a> {
    name: u16,
    ends: u64,
    /// Our invoke that has no answer yet; none when it is with the terminal.
    asked: Option<Call>,
    /// The peer's invoke that the dialogue is to answer; none for a request of the house.
    owed: Option<Call>,
    state: State<'a>,
}

#[derive(Clone, Copy)]
enum State<'a> {
    FetchingForInitiation {
        peer: u8,
        digits: &'a [u8],
    },
    Initiating,
    FetchingForVisitor {
        can_compute: bool,
    },
    Requesting {
        can_compute: bool,
    },
    Executing {
        expected: Response,
    },
    RequestingProof {
        can_compute: bool,
        challenge: Challenge,
    },
    FetchingProof {
        can_compute: bool,
    },
}

/// A subscriber: its number with the count of its digits, its place, and its key.
struct Subscriber {
    user: u64,
    place: u8,
    key: Key,
}

struct Exchange<'a> {
    /// T1 to T5, and TR.
    timers: [u64; 6],
    home: u8,
    server: u8,
    can_compute: bool,
    last_reading: u64,
    next_number: u16,
    links: Vec<u8>,
    subscribers: Vec<Subscriber>,
    dialogues: [Option<Dialogue<'a>>; PLACES],
}

impl<'a> Exchange<'a> {
    /// An exchange in service, if the value is a lawful fit-out.
    fn fit_out(value: &[u8]) -> Option<Exchange<'a>> {
        let value: &[u8; 27] = value.try_into().ok()?;
        let (times, rest) = value.split_at(24);
        for (i, time) in times.chunks_exact(4).enumerate() {
            let least = if i < 5 { 15_000 } else { 1_000 };
            if !(least..=60_000).contains(&number(time)) {
                return None;
            }
        }
        if rest[0] == 0 || rest[1] == 0 || rest[2] > 1 {
            return None;
        }
        Some(Exchange {
            timers: std::array::from_fn(|i| number(&times[4 * i..][..4])),
            home: rest[0],
            server: rest[1],
            can_compute: rest[2] == 1,
            last_reading: 0,
            next_number: 1,
            links: Vec::with_capacity(MOST_LINKS),
            subscribers: Vec::with_capacity(MOST_SUBSCRIBERS),
            dialogues: [const { None }; PLACES],
        })
    }

    /// One record after the fit-out.
    fn step(&mut self, tag: u8, value: &'a [u8]) -> Answer<'a> {
        match (tag, value) {
            (record::LINK, &[peer]) => return self.link(peer),
            (record::SUBSCRIBER, &[place, ref rest @ ..]) => {
                let (key, digits) = rest.split_first_chunk().ok_or(Refusal::Garbled)?;
                return self.subscribe(place, *key, digits);
            }
            _ => (),
        }
        let (reading, rest) = value.split_first_chunk().ok_or(Refusal::Garbled)?;
        let reading = u64::from_be_bytes(*reading);
        match (tag, rest) {
            (record::PLAIN_INITIATION, &[peer, ref digits @ ..]) => {
                self.request(reading, Request::PlainInitiation { peer }, digits)
            }
            (record::INITIATION_WITH_VALUES, &[peer, ref digits @ ..]) => {
                self.request(reading, Request::InitiationWithValues { peer }, digits)
            }
            (record::VISITOR_START, digits) => self.request(reading, Request::VisitorStart, digits),
            (record::NETWORK_PROOF, rest) => {
                let (&challenge, digits) = rest.split_first_chunk().ok_or(Refusal::Garbled)?;
                self.request(reading, Request::NetworkProof { challenge }, digits)
            }
            (record::REPLY, &[high, low, ref response @ ..]) => {
                let response: &Response = response.try_into().map_err(|_| Refusal::Garbled)?;
                self.reply(reading, u16::from_be_bytes([high, low]), response)
            }
            (record::DELIVERY, rest) => {
                let (draw, rest) = rest.split_first_chunk::<16>().ok_or(Refusal::Garbled)?;
                let (&peer, bytes) = rest.split_first().ok_or(Refusal::Garbled)?;
                let (challenge, parameter) = halves(draw);
                self.deliver(
                    reading,
                    Draw {
                        challenge,
                        parameter,
                    },
                    peer,
                    bytes,
                )
            }
            (record::CLOCK, []) => self.clock(reading),
            _ => Err(Refusal::Garbled),
        }
    }

    fn link(&mut self, peer: u8) -> Answer<'a> {
        if peer == 0 {
            return Err(Refusal::Argument);
        }
        if self.links.contains(&peer) {
            return Err(Refusal::Twice);
        }
        if self.links.len() == MOST_LINKS {
            return Err(Refusal::Full);
        }
        self.links.push(peer);
        Ok(Outcome::Done)
    }

    fn subscribe(&mut self, place: u8, key: Key, digits: &[u8]) -> Answer<'a> {
        if place > place::AT_SERVER || !is_user_number(digits) {
            return Err(Refusal::Argument);
        }
        if self.subscriber(digits).is_some() {
            return Err(Refusal::Twice);
        }
        if self.subscribers.len() == MOST_SUBSCRIBERS {
            return Err(Refusal::Full);
        }
        let user = user(digits);
        self.subscribers.push(Subscriber { user, place, key });
        Ok(Outcome::Done)
    }

    fn subscriber(&self, digits: &[u8]) -> Option<&Subscriber> {
        let user = user(digits);
        self.subscribers.iter().find(|there| there.user == user)
    }

    /// Opens a dialogue at the request of the house, and gives the invoke that it begins with.
    fn request(&mut self, reading: u64, request: Request, digits: &'a [u8]) -> Answer<'a> {
        self.check_reading(reading)?;
        self.check_timers(reading)?;
        let is_linked = match request {
            Request::PlainInitiation { peer } | Request::InitiationWithValues { peer } => {
                self.links.contains(&peer)
            }
            Request::VisitorStart | Request::NetworkProof { .. } => true,
        };
        if !is_linked || !is_user_number(digits) {
            return Err(Refusal::Argument);
        }
        let can_compute = self.can_compute;
        let (state, peer, invoke) = match request {
            Request::PlainInitiation { peer } => (
                State::Initiating,
                peer,
                Invoke::new(Operation::AuthWtmUser, digits),
            ),
            Request::InitiationWithValues { peer } => (
                State::FetchingForInitiation { peer, digits },
                self.server,
                Invoke::new(Operation::WtatParamEnq, digits),
            ),
            Request::VisitorStart => (
                State::Requesting { can_compute },
                self.home,
                Invoke {
                    can_compute,
                    ..Invoke::new(Operation::GetWtatParam, digits)
                },
            ),
            Request::NetworkProof { challenge } => (
                State::RequestingProof {
                    can_compute,
                    challenge,
                },
                self.home,
                Invoke {
                    can_compute,
                    challenge: Some(challenge),
                    algorithm: Some(ALGORITHM),
                    ..Invoke::new(Operation::GetWtanParam, digits)
                },
            ),
        };
        let id = self.open(reading, state, Some(peer), None)?;
        self.last_reading = reading;
        Ok(Call { peer, id }.send(Body::Invoke(invoke)))
    }

    /// Opens a dialogue that sends its first invoke to the peer, if there is one; gives its name.
    fn open(
        &mut self,
        reading: u64,
        state: State<'a>,
        peer: Option<u8>,
        owed: Option<Call>,
    ) -> Result<u16, Refusal> {
        let Some(place) = self.dialogues.iter_mut().find(|place| place.is_none()) else {
            return Err(Refusal::Full);
        };
        if self.next_number > LAST_NUMBER {
            return Err(Refusal::NumbersSpent);
        }
        let name = self.next_number;
        *place = Some(Dialogue {
            name,
            ends: reading + self.timers[state.timer() as usize - 1],
            asked: peer.map(|peer| Call { peer, id: name }),
            owed,
            state,
        });
        self.next_number += 1;
        Ok(name)
    }

    fn reply(&mut self, reading: u64, name: u16, response: &Response) -> Answer<'a> {
        self.check_reading(reading)?;
        self.check_timers(reading)?;
        let mut open = self.dialogues.iter_mut();
        let Some(place) =
            open.find(|place| place.as_ref().is_some_and(|dialogue| dialogue.name == name))
        else {
            return Err(Refusal::Stray);
        };
        let Some(Dialogue {
            state: State::Executing { expected },
            owed,
            ..
        }) = *place
        else {
            return Err(Refusal::Stray);
        };
        *place = None;
        self.last_reading = reading;
        let verdict = if *response == expected {
            verdict::CORRECT
        } else {
            verdict::INCORRECT
        };
        Ok(match owed {
            Some(owed) => owed.result(Operation::AuthWtmUser, Given::Verdict(verdict)),
            None => Outcome::Reported {
                name,
                report: Report::Verdict(verdict),
            },
        })
    }

    fn deliver(&mut self, reading: u64, draw: Draw, peer: u8, bytes: &'a [u8]) -> Answer<'a> {
        self.check_reading(reading)?;
        self.check_timers(reading)?;
        if !self.links.contains(&peer) {
            return Err(Refusal::Argument);
        }
        let outcome = match read(bytes).ok_or(Refusal::Garbled)? {
            Received::Invoke(id, invoke) => {
                let call = Call { peer, id };
                if self
                    .dialogues
                    .iter()
                    .flatten()
                    .any(|dialogue| dialogue.owed == Some(call))
                {
                    return Err(Refusal::Twice);
                }
                match invoke {
                    Ok(invoke) => match self.take_invoke(reading, draw, call, invoke) {
                        Ok(outcome) => outcome,
                        Err(error) => call.error(error),
                    },
                    Err(problem) => call.send(Body::Reject(problem)),
                }
            }
            Received::Result(id, operation, given) => {
                self.take_result(reading, draw, Call { peer, id }, operation, given)?
            }
            Received::Error(id, error) => {
                let dialogue = self.awaiting(Call { peer, id })?.take().unwrap();
                dialogue.fail(error, Cause::Error, error)
            }
            Received::Reject(id, problem) => {
                let dialogue = self.awaiting(Call { peer, id })?.take().unwrap();
                dialogue.fail(error::PARAM_NOT_AVAILABLE, Cause::Reject, problem)
            }
        };
        self.last_reading = reading;
        Ok(outcome)
    }

    /// The place of the dialogue that has asked this and has no answer yet.
    fn awaiting(&mut self, call: Call) -> Result<&mut Option<Dialogue<'a>>, Refusal> {
        let mut open = self.dialogues.iter_mut();
        open.find(|place| {
            place
                .as_ref()
                .is_some_and(|dialogue| dialogue.asked == Some(call))
        })
        .ok_or(Refusal::Stray)
    }

    /// What a peer's invoke gives, or the error that it is answered with.
    fn take_invoke(
        &mut self,
        reading: u64,
        draw: Draw,
        call: Call,
        invoke: Invoke<'a>,
    ) -> Result<Outcome<'a>, u8> {
        let operation = invoke.operation;
        let passed_on = match operation {
            Operation::AuthWtmUser => {
                let Some(unit) = invoke.unit else {
                    let can_compute = self.can_compute;
                    let state = State::Requesting { can_compute };
                    let request = Invoke {
                        can_compute,
                        ..Invoke::new(Operation::GetWtatParam, invoke.digits)
                    };
                    return self.ask(reading, state, self.home, call, request);
                };
                let expected = unit.response;
                let state = State::Executing { expected };
                let name = self
                    .open(reading, state, None, Some(call))
                    .map_err(|_| error::TEMPORARILY_UNAVAILABLE)?;
                return Ok(Outcome::Reported {
                    name,
                    report: Report::Challenge(unit.challenge),
                });
            }
            Operation::GetWtatParam => Some(Operation::WtatParamEnq),
            Operation::GetWtanParam => Some(Operation::WtanParamEnq),
            Operation::WtatParamEnq | Operation::WtanParamEnq => None,
        };
        let Some(subscriber) = self.subscriber(invoke.digits) else {
            return Err(error::INVALID_SERVED_USER_NUMBER);
        };
        match (subscriber.place, passed_on) {
            (place::HERE, _) => Ok(call.result(
                operation,
                answer_as_server(&subscriber.key, &draw, &invoke)?,
            )),
            (place::AT_SERVER, Some(passed_on)) => {
                let can_compute = invoke.can_compute;
                let state = match passed_on {
                    Operation::WtatParamEnq => State::FetchingForVisitor { can_compute },
                    _ => State::FetchingProof { can_compute },
                };
                let request = Invoke {
                    operation: passed_on,
                    ..invoke
                };
                self.ask(reading, state, self.server, call, request)
            }
            _ => Err(error::PARAM_NOT_AVAILABLE),
        }
    }

    /// Opens a dialogue that owes an answer and asks a peer for what it needs.
    fn ask(
        &mut self,
        reading: u64,
        state: State<'a>,
        peer: u8,
        owed: Call,
        invoke: Invoke<'a>,
    ) -> Result<Outcome<'a>, u8> {
        let id = self
            .open(reading, state, Some(peer), Some(owed))
            .map_err(|_| error::TEMPORARILY_UNAVAILABLE)?;
        Ok(Call { peer, id }.send(Body::Invoke(invoke)))
    }

    /// What an answer with a result gives, where it is awaited.
    fn take_result(
        &mut self,
        reading: u64,
        draw: Draw,
        call: Call,
        operation: Operation,
        given: Given,
    ) -> Answer<'a> {
        let number = self.next_number;
        let timers = self.timers;
        let place = self.awaiting(call)?;
        let dialogue = place.as_mut().unwrap();
        let name = dialogue.name;
        if operation != dialogue.state.awaited_operation() {
            return Err(Refusal::Stray);
        }
        let outcome = match (dialogue.state, given) {
            // It goes on: to the peer that is to check the user, or to the terminal.
            (State::FetchingForInitiation { peer, digits }, Given::Unit(_, unit)) => {
                let call = Call { peer, id: number };
                dialogue.go_on(State::Initiating, Some(call), reading, &timers);
                self.next_number += 1;
                let invoke = Invoke {
                    unit: Some(unit),
                    ..Invoke::new(Operation::AuthWtmUser, digits)
                };
                return Ok(call.send(Body::Invoke(invoke)));
            }
            (State::Requesting { .. }, Given::Unit(_, unit)) => {
                let expected = unit.response;
                dialogue.go_on(State::Executing { expected }, None, reading, &timers);
                let report = Report::Challenge(unit.challenge);
                return Ok(Outcome::Reported { name, report });
            }
            (
                State::Requesting { can_compute: true },
                Given::Session(Some(ALGORITHM), Session { key, .. }),
            ) => {
                let expected = response(&key, draw.challenge);
                dialogue.go_on(State::Executing { expected }, None, reading, &timers);
                let report = Report::Challenge(draw.challenge);
                return Ok(Outcome::Reported { name, report });
            }
            // It ends.
            (State::Initiating, Given::Verdict(verdict)) => Outcome::Reported {
                name,
                report: Report::Verdict(verdict),
            },
            (State::FetchingForVisitor { .. }, Given::Unit(..))
            | (State::FetchingForVisitor { can_compute: true }, Given::Session(..)) => dialogue
                .owed
                .unwrap()
                .result(Operation::GetWtatParam, given),
            (State::FetchingProof { .. }, Given::Response(..))
            | (State::FetchingProof { can_compute: true }, Given::Session(..)) => dialogue
                .owed
                .unwrap()
                .result(Operation::GetWtanParam, given),
            (State::RequestingProof { .. }, Given::Response(response)) => Outcome::Reported {
                name,
                report: Report::Response(response),
            },
            (
                State::RequestingProof {
                    can_compute: true,
                    challenge,
                },
                Given::Session(_, Session { key, .. }),
            ) => {
                let report = Report::Response(response(&key, challenge));
                Outcome::Reported { name, report }
            }
            // A session that is not awaited.
            _ => return Err(Refusal::Stray),
        };
        *place = None;
        Ok(outcome)
    }

    fn clock(&mut self, reading: u64) -> Answer<'a> {
        self.check_reading(reading)?;
        // The timer that ends first, the lowest name on a tie, among those that have ended.
        let first = self
            .dialogues
            .iter_mut()
            .filter(|place| {
                place
                    .as_ref()
                    .is_some_and(|dialogue| dialogue.ends <= reading)
            })
            .min_by_key(|place| {
                place
                    .as_ref()
                    .map(|dialogue| (dialogue.ends, dialogue.name))
            });
        match first.and_then(Option::take) {
            Some(dialogue) => {
                let timer = dialogue.state.timer();
                Ok(dialogue.fail(error::TEMPORARILY_UNAVAILABLE, Cause::Expiry, timer))
            }
            None => {
                self.last_reading = reading;
                Ok(Outcome::Done)
            }
        }
    }

    fn check_reading(&self, reading: u64) -> Result<(), Refusal> {
        if (self.last_reading..=LAST_READING).contains(&reading) {
            Ok(())
        } else {
            Err(Refusal::Reading)
        }
    }

    fn check_timers(&self, reading: u64) -> Result<(), Refusal> {
        if self
            .dialogues
            .iter()
            .flatten()
            .any(|dialogue| dialogue.ends <= reading)
        {
            Err(Refusal::Due)
        } else {
            Ok(())
        }
    }
}

impl<'a> Dialogue<'a> {
    /// Goes on to a state, whose timer starts now.
    fn go_on(&mut self, state: State<'a>, asked: Option<Call>, reading: u64, timers: &[u64; 6]) {
        self.ends = reading + timers[state.timer() as usize - 1];
        self.asked = asked;
        self.state = state;
    }

    /// What it gives when it ends with no result: an error to the invoke that it owes an answer,
    /// or else a report.
    fn fail(self, error: u8, cause: Cause, number: u8) -> Outcome<'a> {
        match self.owed {
            Some(owed) => owed.error(error),
            None => Outcome::Reported {
                name: self.name,
                report: Report::Failure(cause, number),
            },
        }
    }
}

impl State<'_> {
    /// The number of the timer that runs in it; 6 is TR.
    fn timer(&self) -> u8 {
        match self {
            State::Initiating => 1,
            State::FetchingForInitiation { .. } | State::FetchingForVisitor { .. } => 2,
            State::Requesting { .. } => 3,
            State::RequestingProof { .. } => 4,
            State::FetchingProof { .. } => 5,
            State::Executing { .. } => 6,
        }
    }

    /// The operation of the invoke that has no answer yet; with the terminal, of the last one.
    fn awaited_operation(&self) -> Operation {
        match self {
            State::Initiating => Operation::AuthWtmUser,
            State::FetchingForInitiation { .. } | State::FetchingForVisitor { .. } => {
                Operation::WtatParamEnq
            }
            State::Requesting { .. } | State::Executing { .. } => Operation::GetWtatParam,
            State::RequestingProof { .. } => Operation::GetWtanParam,
            State::FetchingProof { .. } => Operation::WtanParamEnq,
        }
    }
}

impl Call {
    /// Sends an APDU to the peer, under the id.
    fn send<'a>(self, body: Body<'a>) -> Outcome<'a> {
        let Call { peer, id } = self;
        Outcome::Sent {
            peer,
            apdu: Apdu { id, body },
        }
    }

    fn result<'a>(self, operation: Operation, given: Given) -> Outcome<'a> {
        self.send(Body::Result(operation, given))
    }

    fn error<'a>(self, error: u8) -> Outcome<'a> {
        self.send(Body::Error(error))
    }
}

impl Invoke<'_> {
    /// One whose argument is a user number alone.
    fn new(operation: Operation, digits: &[u8]) -> Invoke<'_> {
        Invoke {
            operation,
            digits,
            can_compute: false,
            challenge: None,
            algorithm: None,
            unit: None,
        }
    }
}

/// What the one who has the user's key gives to an invoke for parameters or for a proof, or the
/// error.
fn answer_as_server(user_key: &Key, draw: &Draw, invoke: &Invoke) -> Result<Given, u8> {
    let is_network_proof = matches!(
        invoke.operation,
        Operation::GetWtanParam | Operation::WtanParamEnq
    );
    if invoke
        .algorithm
        .is_some_and(|algorithm| algorithm != ALGORITHM)
    {
        return Err(error::PARAM_NOT_AVAILABLE);
    }
    let direction = if is_network_proof {
        NETWORKS_PROOF
    } else {
        USERS_PROOF
    };
    let parameter = draw.parameter;
    let key = session_key(direction, user_key, parameter);
    if invoke.can_compute {
        let algorithm = (!is_network_proof).then_some(ALGORITHM);
        return Ok(Given::Session(algorithm, Session { key, parameter }));
    }
    let challenge = invoke.challenge.unwrap_or(draw.challenge);
    let response = response(&key, challenge);
    Ok(if is_network_proof {
        Given::Response(response)
    } else {
        Given::Unit(
            ALGORITHM,
            Unit {
                challenge,
                response,
            },
        )
    })
}

// The response algorithm: XTEA.

/// The directions of a session.
const USERS_PROOF: u8 = 1;
const NETWORKS_PROOF: u8 = 2;

fn session_key(direction: u8, user_key: &Key, parameter: Parameter) -> Key {
    let half = |change: u8| {
        let mut block = parameter;
        block[7] ^= change;
        encipher(user_key, block)
    };
    join(&half(direction), &half(direction + 2))
}

fn response(session_key: &Key, challenge: Challenge) -> Response {
    *encipher(session_key, challenge).first_chunk().unwrap()
}

fn encipher(key: &Key, block: [u8; 8]) -> [u8; 8] {
    const CYCLES: u32 = 32;
    const DELTA: u32 = 0x9E37_79B9;
    let word = |bytes: &[u8]| u32::from_be_bytes(bytes.try_into().unwrap());
    let mix = |half: u32| (half << 4 ^ half >> 5).wrapping_add(half);
    let key: [u32; 4] = std::array::from_fn(|i| word(&key[4 * i..4 * i + 4]));
    let (mut left, mut right) = (word(&block[..4]), word(&block[4..]));
    let mut sum = 0_u32;
    for _ in 0..CYCLES {
        left = left.wrapping_add(mix(right) ^ sum.wrapping_add(key[sum as usize & 3]));
        sum = sum.wrapping_add(DELTA);
        right = right.wrapping_add(mix(left) ^ sum.wrapping_add(key[(sum >> 11) as usize & 3]));
    }
    join(&left.to_be_bytes(), &right.to_be_bytes())
}

// Small parts of values.

fn is_user_number(digits: &[u8]) -> bool {
    (1..=MOST_DIGITS).contains(&digits.len()) && digits.iter().all(u8::is_ascii_digit)
}

/// A user number as one number: the count of its digits, and what they say.
fn user(digits: &[u8]) -> u64 {
    const COUNTED: u64 = 1_000_000_000_000_000;
    let value = digits
        .iter()
        .fold(0, |value, digit| value * 10 + u64::from(digit - b'0'));
    digits.len() as u64 * COUNTED + value
}

/// The number whose bytes these are, high byte first; at most eight bytes.
fn number(bytes: &[u8]) -> u64 {
    bytes
        .iter()
        .fold(0, |value, &byte| value << 8 | u64::from(byte))
}

/// The first bytes, and the rest; as many as there are.
fn halves<const ALL: usize, const FIRST: usize, const SECOND: usize>(
    bytes: &[u8; ALL],
) -> ([u8; FIRST], [u8; SECOND]) {
    const { assert!(FIRST + SECOND == ALL) };
    let (first, second) = bytes.split_at(FIRST);
    (first.try_into().unwrap(), second.try_into().unwrap())
}

fn join<const HALF: usize, const ALL: usize>(first: &[u8; HALF], second: &[u8; HALF]) -> [u8; ALL] {
    const { assert!(2 * HALF == ALL) };
    let mut all = [0; ALL];
    all[..HALF].copy_from_slice(first);
    all[HALF..].copy_from_slice(second);
    all
}

// Reading.

/// The tag, the value and what follows the first record, or field; nothing if it is cut.
fn take_record(tape: &[u8]) -> Option<(u8, &[u8], &[u8])> {
    let (&[tag, high, low], rest) = tape.split_first_chunk::<3>()?;
    let (value, rest) = rest.split_at_checked(usize::from(u16::from_be_bytes([high, low])))?;
    Some((tag, value, rest))
}

/// The fields of an APDU that are not read yet.
struct Fields<'a>(&'a [u8]);

impl<'a> Fields<'a> {
    /// The value of the next field if it has this tag; else the field stays.
    fn take_any(&mut self, tag: u8) -> Option<&'a [u8]> {
        let (there, value, rest) = take_record(self.0)?;
        if there != tag {
            return None;
        }
        self.0 = rest;
        Some(value)
    }

    /// The value of the next field if it has this tag and this size; else the field stays.
    fn take<const SIZE: usize>(&mut self, tag: u8) -> Option<&'a [u8; SIZE]> {
        let (there, value, rest) = take_record(self.0)?;
        let value = value.try_into().ok()?;
        if there != tag {
            return None;
        }
        self.0 = rest;
        Some(value)
    }

    fn take_unit(&mut self) -> Option<Unit> {
        let (challenge, response) = halves(self.take::<12>(field::UNIT)?);
        Some(Unit {
            challenge,
            response,
        })
    }

    fn take_session(&mut self) -> Option<Session> {
        let (key, parameter) = halves(self.take::<24>(field::SESSION)?);
        Some(Session { key, parameter })
    }

    /// Whether nothing is left.
    fn is_read(&self) -> bool {
        self.0.is_empty()
    }
}

/// What these bytes are, unless they are garbled.
fn read(bytes: &[u8]) -> Option<Received<'_>> {
    let mut fields = Fields(bytes);
    let &[kind] = fields.take(field::KIND)?;
    let id = u16::from_be_bytes(*fields.take(field::INVOKE_ID)?);
    if id == 0 {
        return None;
    }
    let received = match kind {
        kind::INVOKE => {
            let &[operation] = fields.take(field::OPERATION)?;
            let invoke = match read_operation(operation) {
                Some(operation) => read_invoke(operation, fields).ok_or(problem::WRONG_ARGUMENT),
                None => Err(problem::UNKNOWN_OPERATION),
            };
            return Some(Received::Invoke(id, invoke));
        }
        kind::RESULT => {
            let &[operation] = fields.take(field::OPERATION)?;
            let operation = read_operation(operation)?;
            Received::Result(id, operation, read_given(operation, &mut fields)?)
        }
        kind::ERROR => {
            let &[error] = fields.take(field::ERROR)?;
            if !(error::INVALID_SERVED_USER_NUMBER..=error::UNSPECIFIED).contains(&error) {
                return None;
            }
            Received::Error(id, error)
        }
        kind::REJECT => {
            let &[problem] = fields.take(field::PROBLEM)?;
            Received::Reject(id, problem)
        }
        _ => return None,
    };
    fields.is_read().then_some(received)
}

fn read_operation(number: u8) -> Option<Operation> {
    Some(match number {
        1 => Operation::AuthWtmUser,
        2 => Operation::GetWtatParam,
        3 => Operation::WtatParamEnq,
        4 => Operation::GetWtanParam,
        5 => Operation::WtanParamEnq,
        _ => return None,
    })
}

/// The fields are all that follow the operation.
fn read_invoke(operation: Operation, mut fields: Fields<'_>) -> Option<Invoke<'_>> {
    let digits = fields.take_any(field::USER)?;
    if !is_user_number(digits) {
        return None;
    }
    let mut invoke = Invoke::new(operation, digits);
    if operation == Operation::AuthWtmUser {
        invoke.unit = fields.take_unit();
    } else {
        invoke.can_compute = fields.take::<0>(field::CAN_COMPUTE).is_some();
        invoke.challenge = fields.take(field::CHALLENGE).copied();
    }
    if let Operation::GetWtanParam | Operation::WtanParamEnq = operation {
        let &[algorithm] = fields.take(field::ALGORITHM)?;
        invoke.algorithm = Some(algorithm);
        invoke.challenge?;
    }
    fields.is_read().then_some(invoke)
}

fn read_given(operation: Operation, fields: &mut Fields) -> Option<Given> {
    Some(match operation {
        Operation::AuthWtmUser => {
            let &[verdict] = fields.take(field::VERDICT)?;
            if verdict > verdict::INCORRECT {
                return None;
            }
            Given::Verdict(verdict)
        }
        Operation::GetWtatParam | Operation::WtatParamEnq => {
            let &[algorithm] = fields.take(field::ALGORITHM)?;
            match fields.take_unit() {
                Some(unit) => Given::Unit(algorithm, unit),
                None => Given::Session(Some(algorithm), fields.take_session()?),
            }
        }
        Operation::GetWtanParam | Operation::WtanParamEnq => match fields.take_session() {
            Some(session) => Given::Session(None, session),
            None => Given::Response(*fields.take(field::RESPONSE)?),
        },
    })
}

// Writing.

/// Writes a record of the sheet, or a field of an APDU: they have one layout.
fn put(out: &mut Vec<u8>, tag: u8, parts: &[&[u8]]) {
    let length: usize = parts.iter().map(|part| part.len()).sum();
    out.push(tag);
    out.extend_from_slice(&(length as u16).to_be_bytes());
    for part in parts {
        out.extend_from_slice(part);
    }
}

fn put_apdu(out: &mut Vec<u8>, apdu: &Apdu) {
    let kind = match apdu.body {
        Body::Invoke(..) => kind::INVOKE,
        Body::Result(..) => kind::RESULT,
        Body::Error(..) => kind::ERROR,
        Body::Reject(..) => kind::REJECT,
    };
    put(out, field::KIND, &[&[kind]]);
    put(out, field::INVOKE_ID, &[&apdu.id.to_be_bytes()]);
    match &apdu.body {
        Body::Invoke(invoke) => put_invoke(out, invoke),
        Body::Result(operation, given) => {
            put(out, field::OPERATION, &[&[*operation as u8]]);
            put_given(out, given);
        }
        Body::Error(error) => put(out, field::ERROR, &[&[*error]]),
        Body::Reject(problem) => put(out, field::PROBLEM, &[&[*problem]]),
    }
}

fn put_invoke(out: &mut Vec<u8>, invoke: &Invoke) {
    put(out, field::OPERATION, &[&[invoke.operation as u8]]);
    put(out, field::USER, &[invoke.digits]);
    if invoke.can_compute {
        put(out, field::CAN_COMPUTE, &[]);
    }
    if let Some(challenge) = &invoke.challenge {
        put(out, field::CHALLENGE, &[challenge]);
    }
    if let Some(algorithm) = invoke.algorithm {
        put(out, field::ALGORITHM, &[&[algorithm]]);
    }
    if let Some(unit) = &invoke.unit {
        put(out, field::UNIT, &[&unit.challenge, &unit.response]);
    }
}

fn put_given(out: &mut Vec<u8>, given: &Given) {
    match given {
        Given::Verdict(verdict) => put(out, field::VERDICT, &[&[*verdict]]),
        Given::Unit(algorithm, unit) => {
            put(out, field::ALGORITHM, &[&[*algorithm]]);
            put(out, field::UNIT, &[&unit.challenge, &unit.response]);
        }
        Given::Session(algorithm, session) => {
            if let Some(algorithm) = algorithm {
                put(out, field::ALGORITHM, &[&[*algorithm]]);
            }
            put(out, field::SESSION, &[&session.key, &session.parameter]);
        }
        Given::Response(response) => put(out, field::RESPONSE, &[response]),
    }
}

fn put_answer(sheet: &mut Vec<u8>, answer: Answer) {
    match answer {
        Ok(Outcome::Done) => put(sheet, line::DONE, &[]),
        Ok(Outcome::Sent { peer, apdu }) => {
            let start = sheet.len();
            put(sheet, line::SENT, &[&[peer]]);
            put_apdu(sheet, &apdu);
            // The length, now that it is known.
            let length = (sheet.len() - start - 3) as u16;
            sheet[start + 1..start + 3].copy_from_slice(&length.to_be_bytes());
        }
        Ok(Outcome::Reported { name, report }) => put_report(sheet, name, report),
        Err(refusal) => put(sheet, line::REFUSAL, &[&[refusal as u8]]),
    }
}

fn put_report(sheet: &mut Vec<u8>, name: u16, report: Report) {
    let (kind, value, number): (u8, &[u8], &[u8]) = match &report {
        Report::Challenge(challenge) => (report::CHALLENGE, challenge, &[]),
        Report::Verdict(verdict) => (report::VERDICT, &[*verdict], &[]),
        Report::Failure(cause, number) => (report::FAILURE, &[*cause as u8], &[*number]),
        Report::Response(response) => (report::RESPONSE, response, &[]),
    };
    put(
        sheet,
        line::REPORT,
        &[&[kind], &name.to_be_bytes(), value, number],
    );
}

/// The sheet of a whole tape.
fn run(mut tape: &[u8]) -> Vec<u8> {
    let mut sheet = Vec::new();
    let mut service: Option<Exchange> = None;
    while !tape.is_empty() {
        let Some((tag, value, rest)) = take_record(tape) else {
            put_answer(&mut sheet, Err(Refusal::Garbled));
            break;
        };
        tape = rest;
        match &mut service {
            Some(exchange) => put_answer(&mut sheet, exchange.step(tag, value)),
            None => {
                service = if tag == record::FIT_OUT {
                    Exchange::fit_out(value)
                } else {
                    None
                };
                if service.is_none() {
                    put_answer(&mut sheet, Err(Refusal::FitOut));
                    break;
                }
                put_answer(&mut sheet, Ok(Outcome::Done));
            }
        }
    }
    sheet
}

fn main() -> io::Result<()> {
    let mut tape = Vec::new();
    io::stdin().read_to_end(&mut tape)?;
    let sheet = run(&tape);
    let mut out = io::stdout().lock();
    out.write_all(&sheet)?;
    out.flush()
}
