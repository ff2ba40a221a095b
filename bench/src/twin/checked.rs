//! The order of any history: fast where the history keeps the rules, and else by its definition.

use super::core::Event;
use super::defined;
use super::order::{Placer, NOBODY};
use super::tree::Shape;

/// Whether a call was admitted and isn't done, and how many nodes it holds.
#[derive(Clone, Copy, Default)]
struct Course {
    is_open: bool,
    holding: u32,
}

/// The order of a history of so many calls.
pub fn order_of(events: &[Event], calls: usize, shape: &Shape) -> Vec<u32> {
    kept_order(events, calls, shape).unwrap_or_else(|| defined::order_of(events, shape))
}

/// The same, where the history keeps the rules. A call that holds a node is open, so that is asked only where it holds none.
fn kept_order(events: &[Event], calls: usize, shape: &Shape) -> Option<Vec<u32>> {
    let mut placer = Placer::new(shape.node_count(), calls);
    let mut courses = vec![Course::default(); calls];
    let mut admitted = 0;
    for event in events {
        let course = courses.get_mut(event.call() as usize)?;
        match *event {
            Event::Admit { call } => {
                keeps(call == admitted)?;
                admitted += 1;
                course.is_open = true;
            }
            Event::Lock { call, node, .. } => {
                keeps(placer.holder(node) == NOBODY && may_lock(&placer, *course, call, node, shape))?;
                placer.lock(call, node, shape);
                course.holding += 1;
            }
            Event::Free { call, node, .. } => {
                keeps(placer.holder(node) == call)?;
                placer.free(node);
                course.holding -= 1;
            }
            Event::Done { call } => {
                keeps(course.is_open && course.holding == 0)?;
                placer.end(call);
                course.is_open = false;
            }
        }
    }
    Some(placer.into_order())
}

#[inline(always)]
fn keeps(rule: bool) -> Option<()> {
    rule.then_some(())
}

/// Whether the call locks its first node, or one below a node that it holds, for the first time.
#[inline(always)]
fn may_lock(placer: &Placer, course: Course, call: u32, node: u32, shape: &Shape) -> bool {
    if !placer.stands(call) {
        return course.is_open;
    }
    node != 0 && placer.holder(shape.parent(node)) == call && placer.under(node) != call
}
