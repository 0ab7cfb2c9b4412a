//! The calls and replies of the operations that are left, in the order of time, as a doubly linked ring.
//!
//! An operation that takes effect leaves the ring with its call and its reply, and returns to the same
//! places if the search steps back. Operations return in the opposite order to that in which they left,
//! so their neighbours are there again.
use crate::history::Operation;

/// The place of an event, which is its index, or of the knot behind the last event and before the first.
type Place = u32;

#[derive(Clone, Copy)]
pub enum Event {
    /// The call of the operation of this number.
    Call(usize),
    Reply,
}

#[derive(Clone, Copy)]
struct Link {
    before: Place,
    after: Place,
}

/// Where an operation's call and reply are.
#[derive(Clone, Copy)]
struct Span {
    call: Place,
    reply: Option<Place>,
}

pub struct Timeline {
    events: Vec<Event>,
    /// One for each event, and that of the knot.
    links: Vec<Link>,
    spans: Vec<Span>,
    /// How many replies are left.
    replies: usize,
    /// Where the search looks.
    at: Place,
}

impl Timeline {
    pub fn new(operations: &[Operation]) -> Self {
        let mut by_line: Vec<(usize, usize, Event)> = Vec::new();
        for (number, operation) in operations.iter().enumerate() {
            by_line.push((operation.call, number, Event::Call(number)));
            by_line.extend(operation.reply.map(|line| (line, number, Event::Reply)));
        }
        by_line.sort_unstable_by_key(|event| event.0);
        let unknown = Span {
            call: 0,
            reply: None,
        };
        let mut timeline = Self {
            events: Vec::with_capacity(by_line.len()),
            links: ring(by_line.len()),
            spans: vec![unknown; operations.len()],
            replies: 0,
            at: 0,
        };
        for (_, number, event) in by_line {
            timeline.append(number, event);
        }
        timeline
    }

    fn append(&mut self, number: usize, event: Event) {
        let place = self.events.len() as Place;
        match event {
            Event::Call(_) => self.spans[number].call = place,
            Event::Reply => {
                self.spans[number].reply = Some(place);
                self.replies += 1;
            }
        }
        self.events.push(event);
    }

    /// Whether all operations that have a reply took effect.
    pub fn is_explained(&self) -> bool {
        self.replies == 0
    }

    /// The event where the search looks. There is one as long as a reply is left.
    pub fn event(&self) -> Event {
        self.events[self.at as usize]
    }

    pub fn go_on(&mut self) {
        self.at = self.links[self.at as usize].after;
    }

    /// Takes an operation out, and looks at the first event that is left.
    pub fn take_out(&mut self, operation: usize) {
        let span = self.spans[operation];
        self.unlink(span.call);
        if let Some(reply) = span.reply {
            self.unlink(reply);
            self.replies -= 1;
        }
        let knot = self.events.len();
        self.at = self.links[knot].after;
    }

    /// Puts the operation back that was taken out last, and looks at what follows its call.
    pub fn put_back(&mut self, operation: usize) {
        let span = self.spans[operation];
        if let Some(reply) = span.reply {
            self.link(reply);
            self.replies += 1;
        }
        self.link(span.call);
        self.at = self.links[span.call as usize].after;
    }

    fn unlink(&mut self, place: Place) {
        let Link { before, after } = self.links[place as usize];
        self.links[before as usize].after = after;
        self.links[after as usize].before = before;
    }

    fn link(&mut self, place: Place) {
        let Link { before, after } = self.links[place as usize];
        self.links[before as usize].after = place;
        self.links[after as usize].before = place;
    }
}

/// Links for this many events and the knot, each to its neighbours.
fn ring(events: usize) -> Vec<Link> {
    let places = events as Place + 1;
    let link = |place| Link {
        before: (place + places - 1) % places,
        after: (place + 1) % places,
    };
    (0..places).map(link).collect()
}
