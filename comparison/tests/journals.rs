//! The journals for timing do what their rows say.

use comparison::journals::{replay, FULL_SIZE, ORDINARY};
use reference::journal::{self, LONGEST_JOURNAL};
use reference::LONGEST_BOOK;

/// The replies of a journal, without `call K`.
fn replies(journal: &[u8]) -> Vec<String> {
    let printed = String::from_utf8(journal::run(journal)).expect("what is printed is text");
    let lines = printed
        .lines()
        .filter_map(|line| line.strip_prefix("call "));
    lines
        .map(|line| line.split_once(' ').expect("a reply").1.to_string())
        .collect()
}

fn is_one_of(reply: &str, wanted: &[&str]) -> bool {
    wanted.iter().any(|wanted| reply.starts_with(wanted))
}

fn share(replies: &[String], wanted: &[&str]) -> f64 {
    let count = replies.iter().filter(|reply| is_one_of(reply, wanted));
    count.count() as f64 / replies.len() as f64
}

#[test]
fn replays_have_grants_cancellations_and_refusals() {
    for calls in [1_000, 10_000, 100_000] {
        let journal = replay(calls);
        assert!(journal.len() <= LONGEST_JOURNAL);
        let replies = replies(&journal);
        assert_eq!(replies.len(), calls);
        let [given, cancelled, refused] =
            ["given", "cancelled", "refused"].map(|word| share(&replies, &[word]));
        assert!(
            given > 0.3 && cancelled > 0.2 && refused > 0.2,
            "{given} {cancelled} {refused}"
        );
    }
}

#[test]
fn ordinary_calls_have_their_replies_and_fit_into_a_book() {
    for row in &ORDINARY {
        for calls in [row.calls.0, row.calls.1] {
            let journal = (row.journal)(calls);
            assert!(
                journal.len() <= LONGEST_BOOK,
                "{} {}",
                row.name,
                journal.len()
            );
            let replies = replies(&journal);
            let counted = &replies[replies.len() - calls..];
            assert_eq!(share(counted, row.replies), 1.0, "{}", row.name);
        }
    }
}

#[test]
fn journals_of_full_size_have_their_replies() {
    for row in &FULL_SIZE {
        let journal = (row.journal)();
        let range = LONGEST_JOURNAL - 100..=LONGEST_JOURNAL;
        assert!(
            range.contains(&journal.len()),
            "{} {}",
            row.name,
            journal.len()
        );
        let share = share(&replies(&journal), row.replies);
        assert!(share > 0.99, "{} {share}", row.name);
    }
}
