//! The state file: its bytes, what is refused and in which order, by the model and in place.

use compare::call::{Answer, Call, Manager};
use compare::inplace::agreement::Tested;
use compare::inplace::state::file_of;
use compare::layout::{self, set_word, word, Model, LENGTH};
use compare::state::read::{read, Fault};
use compare::state::sheet::{wrapped, Sheet};
use compare::state::write::write;
use compare::state::{Keeper, LONGEST};

fn made_by(calls: &[Call]) -> Vec<u8> {
    let mut tables = vec![0; LENGTH];
    for call in calls {
        let status = Model.call(&mut tables, call).status;
        assert!(status == 0 || status == 100, "{call:?} answered {status}");
    }
    tables
}

/// Two tasks and one counting semaphore of maximum 12, for which task 2 waits 3 ticks.
fn small() -> Vec<u8> {
    made_by(&[
        Call::Start { slots: 1, priorities: vec![10, 20] },
        Call::Create { caller: 1, name: 77, count: 0, attributes: 0, maximum: 12 },
        Call::Obtain { caller: 2, id: 65537, options: 0, timeout: 3 },
    ])
}

/// The same as a file, each byte by hand.
#[rustfmt::skip]
const SMALL: [u8; 132] = [
    // edition, number of bodies
    0, 0, 0, 2,  0, 0, 0, 4,
    // kind, offset and length of each body
    0, 0, 0, 1,  0, 0, 0, 56,  0, 0, 0, 32,
    0, 0, 0, 2,  0, 0, 0, 88,  0, 0, 0, 32,
    0, 0, 0, 3,  0, 0, 0, 120, 0, 0, 0, 8,
    0, 0, 0, 4,  0, 0, 0, 128, 0, 0, 0, 4,
    // tasks: priority, answer, identifier waited on, ticks left
    0, 0, 0, 10, 0, 0, 0, 0,   0, 0, 0, 0,  0, 0, 0, 0,
    0, 0, 0, 20, 0, 0, 0, 100, 0, 1, 0, 1,  0, 0, 0, 3,
    // slot: generation, live, name, attributes, count, owner, nest, maximum
    0, 0, 0, 1,  0, 0, 0, 1,  0, 0, 0, 77,  0, 0, 0, 0,  0, 0, 0, 0,  0, 0, 0, 0,  0, 0, 0, 0,  0, 0, 0, 12,
    // queue: length, tasks
    0, 0, 0, 1,  0, 0, 0, 2,
    // ready sequence
    0, 0, 0, 1,
];

/// Six tasks and four slots of every kind of state: an owner who waits, a freed slot, an answer 6, equals.
fn mixed() -> Vec<u8> {
    let wait = |caller, id, timeout| Call::Obtain { caller, id, options: 0, timeout };
    made_by(&[
        Call::Start { slots: 4, priorities: vec![5, 6, 6, 7, 7, 255] },
        Call::create(1, 1, 0, 20),
        Call::create(1, 0xffff_ffff, 0, 0),
        Call::create(1, 3, 0xffff_ffff, 4),
        wait(3, 65537, 0xffff_ffff),
        wait(2, 65537, 0xffff_fffe),
        wait(4, 65538, 1),
        wait(5, 65538, 2),
        wait(1, 65538, 9),
        Call::Tick,
        Call::Delete { caller: 4, id: 65539 },
        Call::Release { caller: 0, id: 65538 },
    ])
}

fn file_from(tables: &[u8]) -> Vec<u8> {
    let mut file = vec![0; LONGEST];
    let answer = Model.save(tables, &mut file);
    assert_eq!(answer.status, 0);
    file.truncate(answer.value as usize);
    file
}

/// Both keepers' save, which have to agree on all that they leave.
fn save(tables: &[u8], file: &mut [u8]) -> Answer {
    let mut in_place = file.to_vec();
    let answers = [Model.save(tables, file), Tested.save(tables, &mut in_place)];
    assert_eq!(answers[0], answers[1]);
    assert!(file == in_place, "the buffers are the same");
    answers[0]
}

/// Both keepers' load, likewise.
fn load(tables: &mut [u8], file: &[u8]) -> Answer {
    let mut in_place = tables.to_vec();
    let answers = [Model.load(tables, file), Tested.load(&mut in_place, file)];
    assert_eq!(answers[0], answers[1]);
    assert!(tables == in_place, "the tables are the same");
    answers[0]
}

/// The file is refused with 8 for this fault, on an unstarted machine that stays so.
fn refused(file: &[u8], fault: Fault) {
    assert_eq!(read(file).unwrap_err(), fault);
    let mut tables = vec![0; LENGTH];
    assert_eq!(load(&mut tables, file), Answer::new(8, 0, 0));
    assert!(tables.iter().all(|&byte| byte == 0), "a refusal changes nothing");
}

/// The small file with words set.
fn edited(edits: &[(usize, u32)]) -> Vec<u8> {
    let mut file = SMALL.to_vec();
    edits.iter().for_each(|&(at, number)| set_word(&mut file, at, number));
    file
}

/// The file loads, and what it gives is saved as the same bytes.
fn accepted(file: &[u8]) {
    let mut tables = vec![0; LENGTH];
    let answer = load(&mut tables, file);
    assert_eq!((answer.status, answer.value), (0, 0));
    assert_eq!(file_from(&tables), file);
}

#[test]
fn a_file_by_hand() {
    assert_eq!(LONGEST, 3000);
    let mut file = [0; 132];
    assert_eq!(save(&small(), &mut file), Answer::new(0, 132, 1));
    assert_eq!(file, SMALL);
    let mut tables = vec![0; LENGTH];
    assert_eq!(load(&mut tables, &SMALL), Answer::new(0, 0, 1));
    assert!(tables == small(), "every byte of the tables comes back");
}

#[test]
fn what_is_written_reads_back() {
    for tables in [small(), mixed()] {
        let file = file_from(&tables);
        let machine = layout::read(&tables).expect("tables that calls made agree");
        assert_eq!(read(&file), Ok(machine.clone()));
        assert_eq!((write(&machine), file_of(&tables, 2)), (file.clone(), Some(file.clone())));
        let mut loaded = vec![0; LENGTH];
        assert_eq!(load(&mut loaded, &file), Answer::new(0, 0, machine.next_task()));
        assert!(loaded == tables, "every byte of the tables comes back");
    }
}

#[test]
fn the_mixed_bodies() {
    let machine = layout::read(&mixed()).expect("tables that calls made agree");
    let [tasks, slots, queues, ready] = compare::state::write::bodies(&machine);
    let waits = |priority, id, ticks| [priority, 100, id, ticks];
    let wanted = [
        waits(5, 65538, 8),
        waits(6, 65537, 0xffff_fffd),
        waits(6, 65537, 0),
        [7, 6, 0, 0],
        [7, 0, 0, 0],
        [255, 0, 0, 0],
    ];
    assert_eq!(tasks, wanted.as_flattened());
    let wanted = [
        [1, 1, 1, 20, 0, 1, 1, 1],
        [1, 1, 0xffff_ffff, 0, 0, 0, 0, 0xffff_ffff],
        [1, 0, 0, 0, 0, 0, 0, 0],
        [0, 0, 0, 0, 0, 0, 0, 0],
    ];
    assert_eq!(slots, wanted.as_flattened());
    assert_eq!(queues, [2, 3, 2, 1, 1, 0, 0]);
    assert_eq!(ready, [6, 4, 5]);
}

/// A file's ticks left are no timeout: 0 is for ever, and every other number counts down.
#[test]
fn ticks_left_of_a_file() {
    for (ticks, after) in [(0, 0), (2, 1), (500, 499), (0xffff_ffff, 0xffff_fffe)] {
        for subject in [&mut Model as &mut dyn Manager, &mut Tested] {
            let mut tables = vec![0; LENGTH];
            assert_eq!(load(&mut tables, &edited(&[(21, ticks)])), Answer::new(0, 0, 1));
            assert_eq!(subject.call(&mut tables, &Call::Tick), Answer::new(0, 0, 1));
            assert_eq!(word(&tables, layout::task_at(2) + layout::TICKS), after);
        }
    }
}

#[test]
fn the_longest_and_the_shortest() {
    let start = |slots, tasks| made_by(&[Call::Start { slots, priorities: vec![7; tasks] }]);
    assert_eq!(file_from(&start(64, 32)).len(), LONGEST);
    assert_eq!(file_from(&start(1, 1)).len(), 56 + 20 + 36);
    accepted(&file_from(&start(64, 32)));
    accepted(&file_from(&start(1, 1)));
}

#[test]
fn room_for_the_file() {
    let mut exact = [0xee; 132];
    assert_eq!(save(&small(), &mut exact), Answer::new(0, 132, 1));
    let mut short = [0xee; 131];
    assert_eq!(save(&small(), &mut short), Answer::new(8, 0, 1));
    assert_eq!(short, [0xee; 131]);
    assert_eq!(save(&small(), &mut []), Answer::new(8, 0, 1));
    let mut long = [0xee; 200];
    assert_eq!(save(&small(), &mut long), Answer::new(0, 132, 1));
    assert_eq!((&long[..132], &long[132..]), (&SMALL[..], &[0xee; 68][..]));
}

#[test]
fn a_save_is_refused_in_order() {
    let mut damaged = small();
    set_word(&mut damaged, 0, 3);
    let mut half = vec![0; LENGTH];
    half[LENGTH - 1] = 1;
    for tables in [&damaged[..], &half, &[], &small()[1..], &[small(), vec![0]].concat()] {
        for room in [0, 131, 132, LONGEST] {
            let mut file = vec![0xee; room];
            assert_eq!(save(tables, &mut file), Answer::new(25, 0, 0));
            assert!(file.iter().all(|&byte| byte == 0xee));
        }
    }
    for room in [0, 55, 56, LONGEST] {
        let mut file = vec![0xee; room];
        assert_eq!(save(&[0; LENGTH], &mut file), Answer::new(14, 0, 0));
        assert!(file.iter().all(|&byte| byte == 0xee));
    }
}

#[test]
fn a_load_is_refused_in_order() {
    let mut damaged = small();
    set_word(&mut damaged, 0, 3);
    let mut half = vec![0; LENGTH];
    half[LENGTH - 1] = 1;
    let blank = vec![0; LENGTH];
    let longer = vec![0; LENGTH + 4];
    for tables in [&damaged[..], &half, &[], &blank[1..], &longer] {
        for file in [&SMALL[..], &SMALL[1..], &[]] {
            let mut lent = tables.to_vec();
            assert_eq!(load(&mut lent, file), Answer::new(25, 0, 0));
            assert!(lent == tables);
        }
    }
    // A machine that is started keeps its own next task.
    for (tables, next) in [(small(), 1), (mixed(), 4)] {
        for file in [&SMALL[..], &SMALL[1..], &[]] {
            let mut lent = tables.clone();
            assert_eq!(load(&mut lent, file), Answer::new(14, 0, next));
            assert!(lent == tables);
        }
    }
}

#[test]
fn every_cut_and_bytes_behind() {
    for length in 0..SMALL.len() {
        let fault = if length < 56 { Fault::Contents } else { Fault::Length };
        refused(&SMALL[..length], fault);
    }
    for behind in 1..=8 {
        refused(&[&SMALL[..], &vec![0; behind]].concat(), Fault::Behind);
    }
}

#[test]
fn the_table_of_contents() {
    refused(&edited(&[(0, 0)]), Fault::Edition);
    refused(&edited(&[(0, 3)]), Fault::Edition);
    refused(&edited(&[(0, 0x0100_0002)]), Fault::Edition);
    // Eight numbers are no record of edition 1.
    refused(&edited(&[(0, 1)]), Fault::Slots);
    refused(&edited(&[(1, 3)]), Fault::Bodies);
    refused(&edited(&[(1, 5)]), Fault::Bodies);
    for (at, kind) in [(2, 0), (2, 2), (5, 1), (8, 4), (11, 5), (11, 0x0100_0004)] {
        refused(&edited(&[(at, kind)]), Fault::Kind);
    }
    for (at, offset) in [(3, 0), (3, 52), (6, 84), (6, 56), (9, 116), (12, 124), (12, 132)] {
        refused(&edited(&[(at, offset)]), Fault::Offset);
    }
    // Lengths past the end, and with the next offset to match.
    refused(&edited(&[(13, 8)]), Fault::Length);
    refused(&edited(&[(4, 0xffff_fff0)]), Fault::Length);
    refused(&edited(&[(4, 0xffff_fff0), (6, 40)]), Fault::Length);
    for index in 0..4 {
        for back in [1, 4, 8, 16, 28, 32] {
            assert_ne!(wrapped(&SMALL, index, back), SMALL);
            refused(&wrapped(&SMALL, index, back), Fault::Length);
        }
    }
    // Lengths that are no whole numbers.
    refused(&edited(&[(4, 31), (6, 87)]), Fault::Words);
    refused(&edited(&[(10, 9), (12, 129), (13, 3)]), Fault::Words);
    refused(&edited(&[(13, 3)]), Fault::Words);
    refused(&edited(&[(13, 0)]), Fault::Behind);
    // One body's numbers counted to the next.
    refused(&edited(&[(4, 28), (6, 84), (7, 36)]), Fault::Tasks);
    refused(&edited(&[(7, 28), (9, 116), (10, 12)]), Fault::Slots);
    refused(&edited(&[(10, 4), (12, 124), (13, 8)]), Fault::Queues);
    refused(&edited(&[(10, 12), (12, 132), (13, 0)]), Fault::Queues);
}

#[test]
fn bodies_put_together_wrongly() {
    let sheet = Sheet::of(2, &layout::read(&mixed()).expect("tables that calls made agree"));
    accepted(&sheet.file());
    assert_eq!(sheet.file(), file_from(&mixed()));
    for (name, misplaced) in sheet.misplaced() {
        let mut tables = vec![0; LENGTH];
        assert_eq!(load(&mut tables, &misplaced.file()), Answer::new(8, 0, 0), "{name}");
    }
}

#[test]
fn counts_of_tasks_and_slots() {
    let sheet = Sheet::of(2, &layout::read(&small()).expect("tables that calls made agree"));
    accepted(&sheet.clone().with_tasks(3).file());
    accepted(&sheet.clone().with_tasks(32).file());
    accepted(&sheet.clone().with_slots(2).file());
    accepted(&sheet.clone().with_slots(64).file());
    refused(&sheet.clone().with_tasks(0).file(), Fault::Tasks);
    refused(&sheet.clone().with_tasks(1).file(), Fault::Agreement);
    refused(&sheet.clone().with_tasks(33).file(), Fault::Tasks);
    refused(&sheet.clone().with_slots(0).file(), Fault::Slots);
    refused(&sheet.clone().with_slots(65).file(), Fault::Slots);
    refused(&Sheet::new(2, [const { Vec::new() }; 4]).file(), Fault::Tasks);
}

#[test]
fn queues_and_the_ready_sequence() {
    let sheet = Sheet::of(2, &layout::read(&small()).expect("tables that calls made agree"));
    let with = |index: usize, numbers: &[u32]| {
        let mut sheet = sheet.clone();
        *sheet.body(index) = numbers.to_vec();
        sheet.file()
    };
    assert_eq!(with(2, &[1, 2]), SMALL);
    for queues in [&[][..], &[2, 2], &[0, 2], &[1, 2, 0], &[0xffff_ffff, 2], &[0x4000_0001, 2], &[33, 2]]
    {
        refused(&with(2, queues), Fault::Queues);
    }
    for queues in [&[0][..], &[1, 1], &[1, 3], &[2, 2, 2], &[2, 2, 1]] {
        refused(&with(2, queues), Fault::Agreement);
    }
    for ready in [&[][..], &[2], &[1, 1], &[1, 2], &[2, 1], &[0], &[1, 0], &[3], &[1; 33], &[1; 64]] {
        refused(&with(3, ready), Fault::Agreement);
    }
    // The queue of a free slot.
    let mut free = sheet.with_slots(2);
    accepted(&free.file());
    *free.body(2) = vec![0, 1, 2];
    refused(&free.file(), Fault::Agreement);
    *free.body(2) = vec![1, 2, 1, 2];
    refused(&free.file(), Fault::Rewritten);
}

#[test]
fn numbers_of_tasks_and_slots() {
    let (ready, waiting, slot) = (14, 18, 22);
    for edit in [(ready, 255), (ready + 1, 13), (slot + 2, 1), (slot + 3, 4)] {
        accepted(&edited(&[edit]));
    }
    for ticks in [0, 1, 499, 500, 501, 0xffff_fffe, 0xffff_ffff] {
        accepted(&edited(&[(waiting + 3, ticks)]));
    }
    for maximum in [1, 2, 0xffff_ffff] {
        accepted(&edited(&[(slot + 7, maximum)]));
    }
    accepted(&edited(&[(slot + 3, 36), (slot + 7, 1)]));
    for edits in [&[(slot + 7, 0)][..], &[(slot + 3, 36)], &[(slot + 3, 36), (slot + 7, 2)]] {
        refused(&edited(edits), Fault::Agreement);
    }
    for edit in [(ready, 0), (ready, 256), (ready + 1, 5), (ready + 1, 100), (waiting + 2, 65538)] {
        refused(&edited(&[edit]), Fault::Agreement);
    }
    for edit in [(slot, 0), (slot, 65536), (slot + 2, 0), (slot + 4, 1), (slot + 5, 1), (slot + 6, 1)] {
        refused(&edited(&[edit]), Fault::Agreement);
    }
    for edit in [(ready + 2, 65537), (ready + 3, 1)] {
        refused(&edited(&[edit]), Fault::Rewritten);
    }
    refused(&edited(&[(slot + 1, 2)]), Fault::Live);
    refused(&edited(&[(slot + 3, 48)]), Fault::Attributes);
    // What a freed slot still has, all else being right.
    let mut freed = small();
    Model.call(&mut freed, &Call::Delete { caller: 1, id: 65537 });
    let file = file_from(&freed);
    assert_eq!((word(&file, slot), file.len()), (1, 132));
    for field in 2..8 {
        let mut stray = file.clone();
        set_word(&mut stray, slot + field, 1);
        refused(&stray, Fault::Rewritten);
    }
}
