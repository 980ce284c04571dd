//! Document 01's cases: the run in full, both sides of each limit, and the readings of its open points.

use crate::bench;
use crate::board::{answer::*, Board, List, Message, Mode, Process, Wait};
use crate::make::{self, Kind};
use crate::random::Random;
use crate::sheet::{commands_part, print, run, Command, MOST_COMMANDS};
use crate::walk;
use Mode::{Exclusive, Shared};

const RUN: &str = "12 22 04 10 40 00 C0 00 C0 00 44 40 C0 00 C0 00 40 40 44 00 C0 00 C1 00 C0 00 \
                   C0 00 C1 00 C0 00 C0 00";

fn bytes(hex: &str) -> Vec<u8> {
    hex.split_whitespace().map(|pair| u8::from_str_radix(pair, 16).unwrap()).collect()
}

fn opening(processes: u8, objects: u8) -> Board {
    Board::open(8, processes, objects, &[7; 16], &[0; 16]).unwrap()
}

/// Asks and delivers the request, and the grant or the whole list after it.
fn ask(board: &mut Board, process: u8, object: u8, mode: Mode) {
    assert_eq!(board.request(process, object, mode as u8), DONE);
    assert_eq!(board.drain(1920).0, DONE);
}

fn holders(board: &Board, object: u8) -> Vec<(u8, Mode)> {
    board.holders(object).collect()
}

fn line(board: &Board, object: u8) -> Vec<(u8, Mode)> {
    board.line(object).collect()
}

fn ring(board: &Board, starter: usize) -> Vec<u8> {
    board.rings[starter].iter().collect()
}

/// The entries of the list with this number.
fn entries(board: &Board, number: usize) -> Vec<u8> {
    let list = &board.lists[number];
    list.entries.first(list.length).collect()
}

fn refusal(hex: &str) -> String {
    print(&bytes(hex))
}

#[test]
fn the_run_in_full() {
    let mut expected: String = (1..=14).map(|number| format!("{number} 0\n")).collect();
    expected += "15 11\no0 0X / 1X\no1 1X / 0X\nring 0 1\nring 1 0\nmessages 0 rings 2\n";
    assert_eq!(print(&bytes(RUN)), expected);
    assert_eq!(expected.lines().count(), 20);
}

#[test]
fn an_exclusive_waits_for_both_shared_holders() {
    let mut board = opening(3, 1);
    ask(&mut board, 0, 0, Shared);
    ask(&mut board, 1, 0, Shared);
    assert_eq!(holders(&board, 0), [(0, Shared), (1, Shared)]);
    assert_eq!(board.request(2, 0, 1), DONE);
    assert_eq!(board.deliver(0), DONE);
    assert_eq!(line(&board, 0), [(2, Exclusive)]);
    assert_eq!(entries(&board, 0), [2, 0, 1]);
}

/// p0 shared on a, p1 exclusive in line, p2 shared in line, its list just started.
fn reader_behind_writer() -> Board {
    let mut board = opening(3, 1);
    ask(&mut board, 0, 0, Shared);
    ask(&mut board, 1, 0, Exclusive);
    assert_eq!(board.request(2, 0, 0), DONE);
    assert_eq!(board.deliver(0), DONE);
    board
}

#[test]
fn a_reader_behind_a_writer_waits_for_the_writer_only() {
    let board = reader_behind_writer();
    assert_eq!(line(&board, 0), [(1, Exclusive), (2, Shared)]);
    assert_eq!(entries(&board, 0), [2, 1]);
}

#[test]
fn then_p0_releases_and_the_reader_stays_in_line() {
    let mut board = reader_behind_writer();
    board.drain(1920);
    assert_eq!(board.release(0, 0), DONE);
    assert_eq!(holders(&board, 0), [(0, Shared)], "not freed when the release is sent");
    board.drain(1920);
    assert_eq!(holders(&board, 0), [(1, Exclusive)]);
    assert_eq!(line(&board, 0), [(2, Shared)]);
    assert_eq!(board.processes[1].wait, None);
}

#[test]
fn the_ring_through_a_waiting_writer() {
    let mut board = opening(3, 2);
    ask(&mut board, 0, 0, Shared);
    ask(&mut board, 2, 1, Exclusive);
    ask(&mut board, 1, 0, Exclusive);
    ask(&mut board, 2, 0, Shared);
    assert_eq!(board.tally(), 0);
    ask(&mut board, 0, 1, Exclusive);
    assert_eq!(ring(&board, 0), [0, 2, 1]);
    assert_eq!(board.tally(), 1);
}

#[test]
fn held_not_held_and_released() {
    let mut board = opening(1, 2);
    ask(&mut board, 0, 0, Exclusive);
    assert_eq!(board.request(0, 0, 0), HOLDING);
    assert_eq!(board.release(0, 1), NOT_HOLDING);
    assert_eq!(board.release(0, 0), DONE);
    assert_eq!(board.request(0, 1, 0), HAS_RELEASED);
}

#[test]
fn deliveries_of_nothing() {
    let mut board = opening(1, 1);
    for number in [0, 63, 64, 255] {
        assert_eq!(board.deliver(number), NO_MESSAGE);
    }
}

#[test]
fn refusals_of_a_request_and_a_release_in_order() {
    let mut board = opening(2, 2);
    assert_eq!(board.request(2, 2, 2), NO_PROCESS);
    assert_eq!(board.request(1, 2, 2), NO_OBJECT);
    assert_eq!(board.request(1, 1, 2), NO_MODE);
    assert_eq!(board.release(2, 2), NO_PROCESS);
    assert_eq!(board.release(1, 2), NO_OBJECT);
    assert_eq!(board.request(1, 1, 0), DONE);
    assert_eq!(board.request(1, 1, 2), NO_MODE);
    assert_eq!(board.request(1, 0, 0), WAITING);
    assert_eq!(board.release(1, 0), WAITING);
    board.drain(2);
    assert_eq!(board.release(1, 1), DONE);
    assert_eq!(board.request(1, 1, 0), HAS_RELEASED);
    assert_eq!(board.release(1, 1), NOT_HOLDING);
}

#[test]
fn openings() {
    let (nought, eight) = ([0; 16], [8; 16]);
    for (nodes, processes, objects) in [(0, 1, 1), (9, 1, 1), (1, 0, 1), (1, 17, 1), (1, 1, 0), (1, 1, 17)] {
        assert_eq!(Board::open(nodes, processes, objects, &eight, &eight), Err(BAD_COUNT));
    }
    assert_eq!(Board::open(8, 1, 1, &eight, &nought), Err(BAD_HOME));
    assert_eq!(Board::open(8, 1, 1, &nought, &eight), Err(BAD_HOME));
    let mut past = [9; 16];
    past[0] = 7;
    let board = Board::open(8, 1, 1, &past, &past).unwrap();
    assert_eq!(board.process_homes[1], 0);
    assert!(board.in_shape());
    assert!(Board::open(8, 16, 16, &[7; 16], &[7; 16]).unwrap().in_shape());
    assert!(!Board::zeros().in_shape());
}

#[test]
fn refused_sheets() {
    for (sheet, expected) in [
        ("", "sheet 12\n"),
        ("22", "sheet 12\n"),
        ("12 22 04", "sheet 12\n"),
        ("22 22", "sheet 13\n"),
        ("22 23", "sheet 13\n"),
        ("12 23 04 10", "sheet 14\n"),
        ("12 23", "sheet 14\n"),
        ("12 22 E4 10", "sheet 2\n"),
        ("12 22 E4 11 40", "sheet 2\n"),
        ("12 22 04 11", "sheet 14\n"),
        ("12 22 04 11 40", "sheet 14\n"),
        ("12 22 04 10 40", "sheet 15\n"),
        ("12 22 04 10 40 01 40", "sheet 15\n"),
        ("12 22 04 10 40 01", "sheet 14\n"),
        ("12 22 04 10 40 20", "sheet 14\n"),
        ("12 22 04 10 C0 80", "sheet 14\n"),
    ] {
        assert_eq!(refusal(sheet), expected, "{sheet}");
    }
    assert_eq!(refusal("12 22 04 10"), "o0 /\no1 /\nmessages 0 rings 0\n");
}

#[test]
fn numbers_past_the_counts_are_answered() {
    let printed = refusal("12 22 04 10 08 00 00 80 FF 00");
    assert_eq!(printed, "1 3\n2 4\n3 11\no0 /\no1 /\nmessages 0 rings 0\n");
}

#[test]
fn sides_of_an_object_line() {
    assert_eq!(refusal("12 22 04 10 40 00 C0 00"), "1 0\n2 0\no0 0X /\no1 /\nmessages 1 rings 0\n");
    let mut board = opening(2, 1);
    ask(&mut board, 0, 0, Exclusive);
    assert_eq!(board.release(0, 0), DONE);
    assert_eq!(board.request(1, 0, 0), DONE);
    assert_eq!(board.deliver(1), DONE);
    assert_eq!(line(&board, 0), [(1, Shared)]);
}

/// Sixteen processes that share five objects: 80 holds.
fn all_share_five() -> Board {
    let mut board = opening(16, 6);
    for process in 0..16 {
        (0..5).for_each(|object| ask(&mut board, process, object, Shared));
    }
    board
}

#[test]
fn sixty_four_releases_in_flight() {
    let mut board = all_share_five();
    for process in 1..13 {
        (0..5).for_each(|object| assert_eq!(board.release(process, object), DONE));
    }
    (0..2).for_each(|object| assert_eq!(board.release(13, object), DONE));
    assert_eq!(board.load(), 62);
    let mut asked = board.clone();
    assert_eq!(asked.request(0, 5, 0), DONE);
    assert_eq!((asked.load(), asked.release(13, 2)), (64, LOADED));
    assert_eq!(board.release(13, 2), DONE);
    assert_eq!(board.request(0, 5, 0), LOADED);
    assert_eq!(board.release(13, 3), DONE);
    assert_eq!(board.in_flight, u64::MAX);
    assert_eq!(board.release(13, 4), LOADED);
    assert_eq!(board.deliver(63), DONE);
    assert_eq!(board.release(13, 4), DONE);
}

/// A sheet of 1 node, 1 process and 1 object with so many commands `C0 00`.
fn deliveries_sheet(count: usize) -> Vec<u8> {
    let mut sheet = vec![0x10, 0x00, 0x00];
    (0..count).for_each(|_| sheet.extend([0xC0, 0x00]));
    sheet
}

#[test]
fn the_limit_of_commands() {
    assert_eq!(print(&deliveries_sheet(4096)).lines().count(), 4096 + 2);
    assert_eq!(print(&deliveries_sheet(4097)), "sheet 16\n");
    let mut bad_past_the_limit = deliveries_sheet(4097);
    *bad_past_the_limit.last_mut().unwrap() = 1;
    assert_eq!(print(&bad_past_the_limit), "sheet 16\n");
    let mut long = bytes("12 22 04 10");
    long.resize(4 + 20_001, 0xFF);
    assert_eq!(print(&long), "sheet 15\n");
    long.pop();
    assert_eq!(print(&long), "sheet 16\n");
}

#[test]
fn the_answer_room() {
    let sheet = bytes(RUN);
    let mut room = [99; 17];
    assert_eq!(run(&sheet, &mut room[..14]), Err(SHORT_ROOM));
    assert_eq!(room, [99; 17]);
    assert!(run(&sheet, &mut room).is_ok());
    assert_eq!(room[13..], [0, 11, 99, 99]);
    assert!(run(&sheet, &mut room[..15]).is_ok());
    let mut spare = bytes("12 22 04 10 40 01");
    assert_eq!(run(&spare, &mut []), Err(SPARE_BIT));
    assert_eq!(commands_part(&spare), &[0u8; 0][..]);
    spare[5] = 0;
    assert_eq!(commands_part(&spare), [0x40, 0x00]);
    assert_eq!(commands_part(&bytes("12 22 04 10")), &[0u8; 0][..]);
}

#[test]
fn every_command_packs_and_unpacks() {
    for word in 0..=u16::MAX {
        let packed = Command::of_word(word).word();
        assert_eq!(Command::of_word(packed), Command::of_word(word));
        let spare = if word >> 14 == 3 { 0x00FF } else { 0x003F };
        assert_eq!(packed, word & !spare);
    }
}

#[test]
fn the_longest_drain_of_a_board_in_shape() {
    let mut board = opening(16, 1);
    let wait = Some(Wait { object: 0, mode: Shared });
    board.processes = [Process { wait, ..Process::default() }; 16];
    let mut list = List::started_by(0);
    (1..16).for_each(|process| list.add(process, 0));
    board.messages = [Message::ListToHome; 64];
    board.lists = [list; 64];
    board.in_flight = u64::MAX;
    assert!(board.in_shape());
    let mut short = board.clone();
    assert_eq!(short.drain(1919), (DONE, 1919));
    assert_eq!(short.in_flight.count_ones(), 1);
    assert_eq!(board.drain(u64::MAX), (DONE, 1920));
    assert_eq!(board.in_flight, 0);
    assert_eq!(board.drain(5), (DONE, 0));
    assert_eq!(Board::zeros().drain(5), (OUT_OF_SHAPE, 0));
}

#[test]
fn a_request_that_puts_its_process_in_twice() {
    let mut board = opening(2, 2);
    ask(&mut board, 0, 0, Exclusive);
    ask(&mut board, 1, 0, Exclusive);
    board.processes[1].wait = None;
    assert!(board.in_shape());
    assert_eq!(board.request(1, 1, 0), DONE);
    let twice = board.clone();
    assert_eq!(board.deliver(0), OUT_OF_SHAPE);
    assert_eq!(board.request(9, 9, 9), OUT_OF_SHAPE);
    assert_eq!(board.release(9, 9), OUT_OF_SHAPE);
    assert_eq!(board.drain(0), (OUT_OF_SHAPE, 0));
    assert_eq!(board, twice);
}

// Boards that no commands reach, by the readings of the open points.

/// A board of four processes and one object with these holders and this line, its homes' books empty.
fn with_book(holding: &[(u8, Mode)], standing: &[(u8, Mode)]) -> Board {
    let mut board = opening(4, 1);
    let book = &mut board.objects[0];
    holding.iter().for_each(|&(process, mode)| book.holders.put(process, mode));
    for (place, &(process, mode)) in (0u8..).zip(standing) {
        book.line.put(place, process);
        book.standing.put(process, mode);
    }
    board.standing = standing.len() as u8;
    assert!(board.in_shape());
    board
}

#[test]
fn a_holder_that_also_stands_ahead_is_one_entry_among_the_holders() {
    let mut board = with_book(&[(0, Shared), (3, Shared)], &[(2, Exclusive), (3, Exclusive)]);
    assert_eq!(board.request(1, 0, 1), DONE);
    assert_eq!(board.deliver(0), DONE);
    assert_eq!(entries(&board, 0), [1, 0, 3, 2]);
}

#[test]
fn its_own_hold_never_conflicts_and_is_replaced() {
    let mut board = with_book(&[(0, Shared)], &[]);
    assert_eq!(board.request(0, 0, 1), DONE);
    assert_eq!(board.deliver(0), DONE);
    assert_eq!(holders(&board, 0), [(0, Exclusive)]);
    let mut board = with_book(&[(0, Shared), (1, Shared)], &[(0, Exclusive), (2, Shared)]);
    board.processes[1].holds.put(0, Shared);
    assert_eq!(board.release(1, 0), DONE);
    assert_eq!(board.deliver(0), DONE);
    assert_eq!(holders(&board, 0), [(0, Exclusive)]);
    assert_eq!(line(&board, 0), [(2, Shared)]);
}

#[test]
fn no_list_where_it_waits_for_nobody() {
    let mut board = with_book(&[(0, Shared)], &[(1, Shared)]);
    assert_eq!(board.request(2, 0, 0), DONE);
    assert_eq!(board.deliver(0), DONE);
    assert_eq!(line(&board, 0), [(1, Shared), (2, Shared)]);
    assert_eq!(board.in_flight, 0);
}

#[test]
fn a_grant_ends_any_wait() {
    let mut board = opening(1, 2);
    assert_eq!(board.request(0, 1, 1), DONE);
    board.processes[0].wait = Some(Wait { object: 0, mode: Shared });
    assert_eq!(board.drain(2), (DONE, 2));
    assert_eq!(board.processes[0].wait, None);
    assert_eq!(board.processes[0].holds.mode_of(1), Some(Exclusive));
}

#[test]
fn a_filled_place_is_kept() {
    let mut board = opening(3, 2);
    ask(&mut board, 0, 0, Exclusive);
    ask(&mut board, 1, 1, Exclusive);
    ask(&mut board, 0, 1, Exclusive);
    let mut other = board.clone();
    ask(&mut other, 1, 0, Exclusive);
    assert_eq!(ring(&other, 1), [1, 0]);
    board.rings[1].processes.put(0, 1);
    board.rings[1].processes.put(1, 2);
    board.rings[1].length = 2;
    ask(&mut board, 1, 0, Exclusive);
    assert_eq!(ring(&board, 1), [1, 2]);
    assert_eq!(board.in_flight, 0);
}

#[test]
fn damage_puts_a_board_out_of_shape() {
    let mut good = opening(3, 2);
    ask(&mut good, 0, 0, Shared);
    ask(&mut good, 1, 0, Exclusive);
    assert_eq!(good.request(2, 0, 0), DONE);
    assert_eq!(good.deliver(0), DONE);
    assert!(good.in_shape());
    let damages: [fn(&mut Board); 16] = [
        |board| board.node_count = 9,
        |board| board.process_homes[0] = 8,
        |board| board.object_homes[2] = 1,
        |board| board.processes[3].released = true,
        |board| board.processes[0].holds.shared = 4,
        |board| board.processes[0].holds.exclusive = 1,
        |board| board.processes[2].wait = Some(Wait { object: 2, mode: Shared }),
        |board| board.objects[0].holders.shared |= 8,
        |board| board.objects[0].line.put(2, 1),
        |board| board.messages[5] = Message::ListToHome,
        |board| board.lists[7].length = 2,
        |board| board.lists[0].next = 0,
        |board| board.lists[0].next = 2,
        |board| board.lists[0].leads.put(1, 1),
        |board| board.messages[0] = Message::ListToObject { object: 2 },
        |board| board.rings[1].length = 1,
    ];
    for (place, damage) in damages.iter().enumerate() {
        let mut board = good.clone();
        damage(&mut board);
        assert!(!board.in_shape(), "damage {place}");
    }
}

#[test]
fn made_sheets_are_of_their_kinds() {
    let mut random = Random::new(5);
    let mut room = [0; MOST_COMMANDS];
    // Two rings a sheet and more on contended ones.
    for (name, kind) in make::KINDS {
        let mut seen = [0; 19];
        let mut rings = 0;
        let sheets: Vec<_> = (0..300).map(|_| make::sheet(&mut random, kind)).collect();
        for sheet in &sheets {
            match run(sheet, &mut room) {
                Ok(board) => rings += board.tally(),
                Err(refusal) => seen[refusal as usize] += 1,
            }
            let answers = &room[..commands_part(sheet).len() / 2];
            answers.iter().for_each(|&answer| seen[answer as usize] += 1);
        }
        let contents = bench::contents(&sheets);
        let refused: usize = seen[1..].iter().sum();
        match kind {
            Kind::Accepted => assert_eq!(refused, 0),
            Kind::Contended => assert!(refused == 0 && rings > 600, "{name} {rings}"),
            Kind::Lists => assert!(refused == 0 && 2 * contents.long > contents.commands, "{contents:?}"),
            Kind::Refused => assert!(refused > 9 * seen[0], "{name} {seen:?}"),
            Kind::Flooded => assert!(seen[10] > 100, "{name} {seen:?}"),
            Kind::Mixed => assert!([3, 4, 6, 7, 8, 9, 11].iter().all(|&n| seen[n] > 0), "{seen:?}"),
            Kind::Damaged => {
                assert!([2, 12, 13, 14, 15, 16].iter().all(|&n| seen[n] > 0), "{name} {seen:?}")
            }
        }
    }
}

#[test]
fn a_short_walk_finds_nothing_wrong() {
    let counts = walk::walk(20_000, 1).expect("nothing wrong");
    assert!(counts.drained_with_ring > 0 && counts.rings_recorded > 0);
}
