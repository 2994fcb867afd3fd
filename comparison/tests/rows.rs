//! The books for timing do what their rows say.

use comparison::programs::Program;
use comparison::rows::{self, Row, Work, CONTESTANTS};
use comparison::{journals, plain, proved, states, windows};
use reference::register::{in_force, Title};
use reference::{fast, LONGEST_BOOK};

fn all() -> Vec<Row> {
    rows::tables()
        .into_iter()
        .flat_map(|(_, table)| table)
        .map(|planned| (planned.make)())
        .collect()
}

fn printed(book: &[u8]) -> String {
    String::from_utf8(reference::run(book)).expect("what is printed is text")
}

#[test]
fn every_description_is_accepted_and_no_book_is_too_long() {
    for row in all() {
        if matches!(row.work, Work::Windows(_)) {
            continue;
        }
        assert!(row.book.len() <= LONGEST_BOOK, "{}", row.name);
        assert!(reference::book::open(&row.book).is_ok(), "{}", row.name);
    }
}

#[test]
fn the_largest_books_are_near_the_limit() {
    let rows = rows::openings();
    let lengths: Vec<usize> = rows.iter().map(|row| (row.make)().book.len()).collect();
    assert_eq!(lengths[0], 64 * (31 + 16 * 8 + 50 * 4) + 32 * 22);
    assert_eq!(lengths[1], lengths[0]);
    assert!(lengths[2] > LONGEST_BOOK - 34 && lengths[3] > LONGEST_BOOK - 34);
}

#[test]
fn the_counted_calls_have_the_replies_that_the_rows_name() {
    for row in all() {
        let Work::Calls {
            before,
            lengths,
            replies,
        } = &row.work
        else {
            continue;
        };
        let text = printed(&row.book);
        let calls: Vec<&str> = text.lines().filter(|l| l.starts_with("call ")).collect();
        assert_eq!(calls.len(), before + lengths.len() - 1, "{}", row.name);
        for (line, reply) in calls[*before..].iter().zip(replies.iter().cycle()) {
            assert!(line.contains(reply), "{}: {line}", row.name);
        }
    }
}

#[test]
fn the_mixed_book_has_every_kind_of_reply() {
    let text = printed(&(rows::calls()[0].make)().book);
    for reply in [
        "given 256\n",
        "cancelled",
        "refused 15\n",
        "refused 17\n",
        "refused 19\n",
        "refused 20\n",
    ] {
        assert!(text.contains(reply), "{reply}");
    }
}

#[test]
fn the_returning_rows_have_such_titles_but_one() {
    let rows: Vec<Row> = all()
        .into_iter()
        .filter(|row| row.name.ends_with("-returning"))
        .collect();
    assert_eq!(rows.len(), 4);
    for row in rows {
        let Ok(ran) = plain::run(&row.book) else {
            panic!("{}", row.name);
        };
        let others = ran.balance.titles.iter();
        let others = others.filter(|r| !matches!(r.title, Title::ReturningWithdrawal { .. }));
        assert_eq!(others.count(), 1, "{}", row.name);
    }
}

#[test]
fn the_rows_of_states_have_so_many_titles_in_force() {
    let rows = rows::planning_states();
    assert_eq!(rows.len(), 8);
    for (planned, titles) in rows.iter().zip([16, 255].into_iter().cycle()) {
        let Ok(ran) = plain::run(&(planned.make)().book) else {
            panic!("{}", planned.name);
        };
        assert_eq!(in_force(&ran.balance).count(), titles, "{}", planned.name);
        assert_eq!(ran.balance.units.len(), 64, "{}", planned.name);
        assert!(planned.name.ends_with(&format!("-{titles}-titles")));
    }
}

#[test]
fn every_operation_on_a_state_is_done() {
    let refused = b"UN".to_vec();
    let books = rows::planning_states().into_iter();
    let books = books.map(|planned| (planned.make)().book).chain([refused]);
    for book in books {
        for operation in states::OPERATIONS {
            assert_eq!(states::proved(operation, &book, 9), 9, "{operation:?}");
            assert_eq!(states::plain(operation, &book, 9), 9, "{operation:?}");
            assert_eq!(states::fast(operation, &book, 9), 9, "{operation:?}");
        }
    }
}

#[test]
fn every_way_gives_the_same_windows() {
    for (planned, count) in rows::moving_windows().iter().zip([151, 181]) {
        let row = (planned.make)();
        let Work::Windows(request) = &row.work else {
            panic!("{}", row.name);
        };
        let reply = reference::windows::reply(request);
        assert_eq!((reply.refused, reply.windows), (None, count));
        assert_eq!(windows::fast_reply(request), reply);
        assert_eq!(windows::afresh_reply(request), reply);
        let width = usize::from(request.width);
        let anew = fast::windows_anew(width, &request.areas, &request.years);
        assert_eq!(anew, reply);
        let journal = [journals::sample(), row.book].concat();
        let printed = Program::built("journal").printed(&journal);
        let printed = printed.expect("the program is built");
        assert_eq!(printed, reference::journal::run(&journal));
    }
}

#[test]
fn only_a_whole_moving_window_is_given_windows() {
    for planned in rows::moving_windows() {
        let record = (planned.make)().book;
        assert!(proved::rewatch(&record, 3) > 0);
        assert_eq!(proved::rewatch(&record, 0), 0);
        assert_eq!(proved::rewatch(&record[..record.len() - 1], 3), 0);
        assert_eq!(proved::rewatch(&record[1..], 3), 0);
    }
    assert_eq!(proved::rewatch(b"CA\0\0", 3), 0);
    assert_eq!(proved::rewatch(b"", 3), 0);
}

#[test]
fn the_contestants_do_the_same() {
    for row in all() {
        if matches!(row.work, Work::Open) {
            continue;
        }
        let (few, more) = row.counted;
        for times in [few, more] {
            let results = CONTESTANTS.map(|who| row.perform(who, times));
            assert!(
                results.iter().all(|r| *r == results[0]),
                "{}: {results:?}",
                row.name
            );
        }
    }
}
