//! The outcome of a text, the renderings held together.

use super::derive::derive;
use super::node::{Limits, Outcome, LIMITS};
use super::onward::longest;
use super::spans::Spans;

/// Up to this many bytes the literal rendering runs too.
pub const LITERAL_UP_TO: usize = 24;

/// The outcome by search: how far some text of the profile goes on, and which
/// nodes that text has by then.
pub fn literal(text: &[u8], limits: Limits) -> Outcome {
    let way = longest(text);
    let known = &text[..way.length];
    let finished = [known, &way.finish].concat();
    assert!(Spans::new(&finished).is_document(), "{finished:?} is none");
    assert_eq!(Spans::new(known).is_document(), way.whole, "{known:?}");
    let whole = way.whole && known == text;
    let nodes = Spans::new(if whole { text } else { &finished }).nodes();
    let beyond = nodes
        .iter()
        .enumerate()
        .find(|(number, node)| node.met < way.length && !limits.keep(*number, node.level));
    match beyond {
        Some((number, _)) => Outcome::Beyond(number),
        None if whole => Outcome::Whole(nodes),
        None => Outcome::Markup(way.length),
    }
}

/// The outcome of a text. On small texts it panics if the literal one differs.
pub fn read(text: &[u8]) -> Outcome {
    let outcome = derive(text, LIMITS);
    if text.len() <= LITERAL_UP_TO {
        let literal = literal(text, LIMITS);
        assert!(
            outcome == literal,
            "{text:?}: derived {outcome:?}, literal {literal:?}"
        );
    }
    outcome
}
