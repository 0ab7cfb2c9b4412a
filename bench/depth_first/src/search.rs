//! The search. It puts an operation that may take effect next behind the order so far, and goes on from
//! there; where no operation fits, it takes the last one back and tries the next.
//!
//! An operation may come next if it was called before the first reply that is left. A set of operations
//! that led to a value before leads nowhere again, so the cache cuts such branches off.
use crate::cache::Cache;
use crate::history::{Operation, Value, NULL};
use crate::taken::{Sets, Taken};
use crate::timeline::{Event, Timeline};
use std::fmt;
use std::time::Instant;

/// How many steps pass between two looks at the clock.
const STEPS_BETWEEN_LOOKS: u64 = 1024;

/// Where the search gives up.
pub struct Bounds {
    pub until: Option<Instant>,
    /// Of the cache.
    pub bytes: usize,
}

#[derive(Clone, Copy, Debug, PartialEq)]
pub enum Bound {
    Time,
    Memory,
}

impl fmt::Display for Bound {
    fn fmt(&self, to: &mut fmt::Formatter) -> fmt::Result {
        to.write_str(match self {
            Self::Time => "time",
            Self::Memory => "memory",
        })
    }
}

#[derive(Debug, PartialEq)]
pub enum Answer {
    /// A legal order, by the numbers of operations.
    Yes(Vec<usize>),
    No,
    Unknown(Bound),
}

pub struct Found {
    pub answer: Answer,
    pub steps: u64,
    /// How many keys the cache has, and about how many bytes they take.
    pub cached: usize,
    pub bytes: usize,
}

/// An operation of the order so far.
#[derive(Clone, Copy)]
struct Placed {
    operation: usize,
    /// The value that it met.
    met: Value,
}

struct Search<'a> {
    operations: &'a [Operation],
    sets: Sets,
    timeline: Timeline,
    taken: Taken,
    value: Value,
    order: Vec<Placed>,
    cache: Cache,
    key: Vec<u64>,
    steps: u64,
}

impl<'a> Search<'a> {
    fn new(operations: &'a [Operation], sets: Sets) -> Self {
        Self {
            operations,
            sets,
            timeline: Timeline::new(operations),
            taken: Taken::new(operations.len()),
            value: NULL,
            order: Vec::new(),
            cache: Cache::default(),
            key: Vec::new(),
            steps: 0,
        }
    }

    fn bound_met(&mut self, bounds: &Bounds) -> Option<Bound> {
        self.steps += 1;
        if self.cache.bytes() > bounds.bytes {
            return Some(Bound::Memory);
        }
        if self.steps % STEPS_BETWEEN_LOOKS != 0 {
            return None;
        }
        let until = bounds.until?;
        (Instant::now() > until).then_some(Bound::Time)
    }

    /// Puts the operation behind the order, if it fits there and leads to something new; else looks at
    /// the next event.
    fn try_next(&mut self, operation: usize) {
        let after = match self.operations[operation].after(self.value) {
            Some(after) => after,
            None => return self.timeline.go_on(),
        };
        self.taken.add(operation);
        self.taken.write_key(after, self.sets, &mut self.key);
        if !self.cache.keeps(&self.key) {
            self.taken.remove(operation);
            return self.timeline.go_on();
        }
        let met = std::mem::replace(&mut self.value, after);
        self.order.push(Placed { operation, met });
        self.timeline.take_out(operation);
    }

    /// Takes the last operation back; false if there is none.
    fn step_back(&mut self) -> bool {
        let last = self.order.pop();
        if let Some(Placed { operation, met }) = last {
            self.value = met;
            self.taken.remove(operation);
            self.timeline.put_back(operation);
        }
        last.is_some()
    }

    fn answer(&mut self, bounds: &Bounds) -> Answer {
        while !self.timeline.is_explained() {
            if let Some(bound) = self.bound_met(bounds) {
                return Answer::Unknown(bound);
            }
            match self.timeline.event() {
                Event::Call(operation) => self.try_next(operation),
                Event::Reply => {
                    if !self.step_back() {
                        return Answer::No;
                    }
                }
            }
        }
        Answer::Yes(self.order.iter().map(|placed| placed.operation).collect())
    }
}

pub fn search(operations: &[Operation], bounds: &Bounds, sets: Sets) -> Found {
    let mut search = Search::new(operations, sets);
    let answer = search.answer(bounds);
    Found {
        answer,
        steps: search.steps,
        cached: search.cache.len(),
        bytes: search.cache.bytes(),
    }
}

#[cfg(test)]
mod tests {
    use super::{search, Answer, Bound, Bounds};
    use crate::history::{Asks, Operation, Value, NULL};
    use crate::taken::Sets;
    use std::collections::HashSet;
    use std::time::Instant;

    const ROOMY: Bounds = Bounds {
        until: None,
        bytes: 1 << 30,
    };

    fn read(call: usize, reply: usize, value: Value) -> Operation {
        let (asks, writes) = (Asks::This(value), None);
        Operation {
            call,
            reply: Some(reply),
            asks,
            writes,
        }
    }

    fn write(call: usize, reply: Option<usize>, value: Value) -> Operation {
        let (asks, writes) = (Asks::Anything, Some(value));
        Operation {
            call,
            reply,
            asks,
            writes,
        }
    }

    fn cas(call: usize, reply: Option<usize>, from: Value, to: Value) -> Operation {
        let (asks, writes) = (Asks::This(from), Some(to));
        Operation {
            call,
            reply,
            asks,
            writes,
        }
    }

    fn miss(call: usize, reply: usize, from: Value) -> Operation {
        let (asks, writes) = (Asks::Other(from), None);
        Operation {
            call,
            reply: Some(reply),
            asks,
            writes,
        }
    }

    /// Whether the order has each completed operation and none twice, keeps those apart that don't
    /// overlap, and lets each one meet what it asks for.
    fn is_legal(operations: &[Operation], order: &[usize]) -> bool {
        let mut value = NULL;
        let mut latest_call = 0;
        for &number in order {
            let operation = &operations[number];
            let after = match operation.after(value) {
                Some(after) => after,
                None => return false,
            };
            if operation.reply.map_or(false, |reply| reply < latest_call) {
                return false;
            }
            value = after;
            latest_call = latest_call.max(operation.call);
        }
        let placed: HashSet<usize> = order.iter().copied().collect();
        let has_all =
            (0..operations.len()).all(|it| operations[it].reply.is_none() || placed.contains(&it));
        has_all && placed.len() == order.len()
    }

    /// Tries all orders of the operations that aren't in `done`, which are bits.
    fn has_order(operations: &[Operation], done: u32, value: Value) -> bool {
        let left = |number: &usize| done >> number & 1 == 0;
        let replies = (0..operations.len())
            .filter(left)
            .filter_map(|it| operations[it].reply);
        let first_reply = match replies.min() {
            Some(reply) => reply,
            None => return true,
        };
        (0..operations.len()).filter(left).any(|number| {
            let after = operations[number].after(value);
            operations[number].call < first_reply
                && after.map_or(false, |after| {
                    has_order(operations, done | 1 << number, after)
                })
        })
    }

    #[test]
    fn answers_small_registers() {
        let rows = [
            ("nothing", vec![], true),
            ("the initial value", vec![read(1, 2, NULL)], true),
            ("a value from nowhere", vec![read(1, 2, 1)], false),
            (
                "an overlapping write",
                vec![write(1, Some(4), 1), read(2, 3, 1)],
                true,
            ),
            (
                "a write after the read",
                vec![read(1, 2, 1), write(3, Some(4), 1)],
                false,
            ),
            (
                "an old value",
                vec![write(1, Some(2), 1), write(3, Some(4), 2), read(5, 6, 1)],
                false,
            ),
            (
                "a value again",
                vec![
                    write(1, Some(2), 1),
                    write(3, Some(4), 2),
                    write(5, Some(6), 1),
                    read(7, 8, 1),
                ],
                true,
            ),
            (
                "a pending write that is read",
                vec![write(1, None, 1), read(2, 3, 1)],
                true,
            ),
            (
                "a pending write that took no effect",
                vec![write(1, None, 1), read(2, 3, NULL)],
                true,
            ),
            (
                "a pending write that takes effect twice",
                vec![
                    write(1, None, 1),
                    read(2, 3, 1),
                    write(4, Some(5), 2),
                    read(6, 7, 2),
                    read(8, 9, 1),
                ],
                false,
            ),
            (
                "a pending cas between reads",
                vec![
                    write(1, Some(2), 1),
                    cas(3, None, 1, 2),
                    read(4, 5, 1),
                    read(6, 7, 2),
                ],
                true,
            ),
            (
                "two cas from null",
                vec![cas(1, Some(3), NULL, 1), cas(2, Some(4), NULL, 2)],
                false,
            ),
            (
                "a cas that missed",
                vec![write(1, Some(2), 1), miss(3, 4, 2)],
                true,
            ),
            (
                "a cas that must have found its value",
                vec![write(1, Some(2), 1), miss(3, 4, 1)],
                false,
            ),
        ];
        for (name, operations, expected) in rows {
            for sets in [Sets::Whole, Sets::Windows] {
                match search(&operations, &ROOMY, sets).answer {
                    Answer::Yes(order) => assert!(
                        expected && is_legal(&operations, &order),
                        "{name}: {order:?}"
                    ),
                    answer => assert!(!expected && answer == Answer::No, "{name}: {answer:?}"),
                }
            }
        }
    }

    /// Numbers that look random, the same in each run.
    struct Chance(u64);

    impl Chance {
        fn below(&mut self, bound: usize) -> usize {
            self.0 = self
                .0
                .wrapping_mul(6_364_136_223_846_793_005)
                .wrapping_add(1_442_695_040_888_963_407);
            (self.0 >> 33) as usize % bound
        }
    }

    /// Up to nine operations, with calls and replies at random moments.
    fn random_operations(chance: &mut Chance) -> Vec<Operation> {
        let count = 1 + chance.below(9);
        let length = 1 + chance.below(8);
        let mut operations = Vec::new();
        for number in 0..count {
            let call = 100 * number + number;
            let reply = 100 * (number + chance.below(length)) + 20 + number;
            let (value, other) = (chance.below(3) as Value, 1 + chance.below(2) as Value);
            operations.push(match chance.below(8) {
                0 => write(call, None, other),
                1 => cas(call, None, value, other),
                2 => miss(call, reply, value),
                3 | 4 => cas(call, Some(reply), value, other),
                5 => write(call, Some(reply), other),
                _ => read(call, reply, value),
            });
        }
        operations
    }

    #[test]
    fn answers_as_trying_all_orders_does() {
        let mut chance = Chance(7);
        let mut counts = [0, 0];
        for _ in 0..5_000 {
            let operations = random_operations(&mut chance);
            let expected = has_order(&operations, 0, NULL);
            counts[usize::from(expected)] += 1;
            for sets in [Sets::Whole, Sets::Windows] {
                match search(&operations, &ROOMY, sets).answer {
                    Answer::Yes(order) => {
                        assert!(expected && is_legal(&operations, &order), "{operations:?}")
                    }
                    answer => assert!(
                        !expected && answer == Answer::No,
                        "{operations:?} {answer:?}"
                    ),
                }
            }
        }
        assert!(counts.iter().all(|&count| count > 500), "{counts:?}");
    }

    /// Many writes at once, then a value that none of them wrote: all their sets are met.
    #[test]
    fn gives_up_at_a_bound() {
        let mut operations: Vec<Operation> = (0..20)
            .map(|it| write(it, Some(100 + it), it as Value % 4))
            .collect();
        operations.push(read(200, 201, 9));
        let bounds = Bounds {
            bytes: 1 << 20,
            ..ROOMY
        };
        assert_eq!(
            search(&operations, &bounds, Sets::Windows).answer,
            Answer::Unknown(Bound::Memory)
        );
        let bounds = Bounds {
            until: Some(Instant::now()),
            ..ROOMY
        };
        assert_eq!(
            search(&operations, &bounds, Sets::Windows).answer,
            Answer::Unknown(Bound::Time)
        );
    }
}
