//! The count accounts for every grant, and waiters are served in turn: worked cases, with the history's numbers.

mod runs;

use compare::call::{Answer, Call, Manager};
use compare::fuzz::comparison::{Comparison, Place};
use compare::history::accounts::Accounts;
use compare::history::{Event, Fact, History};
use compare::inplace::agreement::Tested;
use compare::layout::{set_word, slot_at, Model, COUNT, LENGTH, QUEUE};
use compare::state::{Keeper, LONGEST};
use runs::Run;

const ID: u32 = 65537;

fn event(call: Call, status: u32, value: u32, ended: &[(u32, u32)]) -> Event {
    Event { call, answer: Answer::new(status, value, 1), ended: ended.to_vec() }
}

fn obtain(caller: u32) -> Call {
    Call::Obtain { caller, id: ID, options: 0, timeout: 0 }
}

#[test]
fn an_account_is_made_of_events_alone() {
    let release = Call::Release { caller: 0, id: ID };
    let events = [
        event(Call::create(1, 9, 1, 0), 0, ID, &[]),
        event(obtain(4), 0, 0, &[]),
        event(obtain(1), 100, 0, &[]),
        event(obtain(2), 100, 0, &[]),
        event(obtain(3), 4, 0, &[]),
        event(release.clone(), 0, 0, &[(1, 0)]),
        event(release.clone(), 13, 0, &[]),
        event(Call::Tick, 0, 0, &[(2, 6)]),
        event(release, 0, 0, &[]),
    ];
    let mut accounts = Accounts::default();
    events.iter().for_each(|event| accounts.take(event));
    let account = accounts.of(ID).expect("the create opened it");
    // 1 + 2 on one side: grants of tasks 4 and 1, so the count has to be 1.
    assert_eq!((account.initial, account.releases, account.grants), (1, 2, 2));
    assert_eq!([0, 1, 2].map(|count| account.balances(count)), [false, true, false]);
    assert_eq!(account.waiters(), []);
}

#[test]
fn as_many_releases_as_tasks_ahead_are_not_enough() {
    for attributes in [0, 32] {
        let mut run = Run::started(Tested, 4, &[[1, attributes]]);
        run.obtain(4, ID, 0);
        (1..=3).for_each(|task| run.obtain(task, ID, 100));
        assert_eq!(run.waiters(ID), [(1, 0), (2, 1), (3, 2)]);
        assert_eq!(run.account(ID), [0, 1, 1, 0]);
        run.release(ID, 0);
        run.release(ID, 0);
        assert_eq!(run.waiters(ID), [(3, 2)], "two releases, and two were ahead");
        assert_eq!(run.account(ID), [0, 3, 1, 2]);
        run.release(ID, 0);
        assert_eq!(run.waiters(ID), []);
        assert_eq!(run.account(ID), [0, 4, 1, 3]);
        run.release(ID, 0);
        assert_eq!(run.account(ID), [1, 4, 1, 4]);
    }
}

#[test]
fn a_tick_that_ends_a_wait_ahead_makes_it_earlier() {
    let mut run = Run::started(Tested, 4, &[[0, 0]]);
    run.obtain(1, ID, 100);
    run.obtain_for(2, ID, 1, 100);
    run.obtain(3, ID, 100);
    run.done(Call::Tick, 0);
    assert_eq!(run.waiters(ID), [(1, 0), (3, 2)], "what was ahead when it joined stays noted");
    run.release(ID, 0);
    run.release(ID, 0);
    assert_eq!(run.waiters(ID), []);
    assert_eq!(run.account(ID), [0, 2, 0, 2]);
}

#[test]
fn a_flush_ends_waits_without_a_grant() {
    let mut run = Run::started(Tested, 4, &[[0, 32]]);
    (1..=3).for_each(|task| run.obtain(task, ID, 100));
    run.release(ID, 0);
    run.done(Call::Flush { caller: 4, id: ID }, 0);
    assert_eq!((run.waiters(ID), run.account(ID)), (vec![], [0, 1, 0, 1]));
    run.release(ID, 0);
    run.release(ID, 13);
    assert_eq!(run.account(ID), [1, 1, 0, 2], "the release that is refused is not counted");
    run.obtain(2, ID, 0);
    run.obtain(3, ID, 100);
    assert_eq!((run.waiters(ID), run.account(ID)), (vec![(3, 0)], [0, 2, 0, 2]));
}

#[test]
fn a_delete_closes_the_account_and_the_next_one_begins_anew() {
    let mut run = Run::started(Tested, 4, &[[2, 0]]);
    (1..=2).for_each(|task| run.obtain(task, ID, 0));
    (1..=2).for_each(|task| run.obtain(task, ID, 100));
    run.release(ID, 0);
    assert_eq!(run.account(ID), [0, 3, 2, 1]);
    run.done(Call::Delete { caller: 4, id: ID }, 0);
    assert!(run.history.accounts().of(ID).is_none());
    run.done(Call::create(4, 9, 7, 4), 0);
    let id = 2 * 65536 + 1;
    assert_eq!(run.account(id), [7, 0, 7, 0]);
    run.obtain(2, id, 0);
    assert_eq!(run.account(id), [6, 1, 7, 0]);
}

#[test]
fn waits_on_two_semaphores_are_told_apart() {
    let mut run = Run::started(Tested, 5, &[[0, 0], [0, 0]]);
    for (task, id) in [(1, ID), (2, ID + 1), (3, ID), (4, ID + 1)] {
        run.obtain(task, id, 100);
    }
    run.release(ID + 1, 0);
    run.release(ID + 1, 0);
    assert_eq!((run.account(ID), run.account(ID + 1)), ([0, 0, 0, 0], [0, 2, 0, 2]));
    assert_eq!(run.waiters(ID), [(1, 0), (3, 1)], "releases of the other one do not count");
}

#[test]
fn sums_go_beyond_32_bits() {
    let mut run = Run::started(Tested, 1, &[[u32::MAX, 0]]);
    for round in 1..=3 {
        run.obtain(1, ID, 0);
        run.release(ID, 0);
        run.release(ID, 13);
        assert_eq!(run.account(ID), [4_294_967_295, round, 4_294_967_295, round]);
    }
}

#[test]
fn a_priority_queue_has_an_account_and_no_turns() {
    let mut run = Run::on(Tested, vec![0; LENGTH]);
    run.done(Call::Start { slots: 1, priorities: vec![9, 1, 1, 5] }, 0);
    run.done(Call::create(4, 9, 0, 4), 0);
    (1..=3).for_each(|task| run.obtain(task, ID, 100));
    run.release(ID, 0);
    run.release(ID, 0);
    assert_eq!(run.waiters(ID), [(1, 0)], "nobody was ahead of task 1 when it joined");
    assert_eq!(run.account(ID), [0, 2, 0, 2]);
}

#[test]
fn a_binary_semaphore_with_an_owner_has_no_account() {
    let mut run = Run::started(Tested, 2, &[[0, 16]]);
    run.obtain(1, ID, 0);
    run.obtain(2, ID, 100);
    run.done(Call::Release { caller: 1, id: ID }, 0);
    run.done(Call::Release { caller: 1, id: ID }, 0);
    assert_eq!(run.history.accounts().live().count(), 0);
}

/// Tables with 1 of 3 in use and, at the second semaphore, tasks 3, 1 and 2 waiting in this order, 1 for two ticks.
fn saved_and_loaded() -> Vec<u8> {
    let mut run = Run::started(Model, 4, &[[3, 0], [0, 0]]);
    run.obtain(1, ID, 0);
    run.obtain(3, ID + 1, 100);
    run.obtain_for(1, ID + 1, 2, 100);
    run.obtain(2, ID + 1, 100);
    let (mut file, mut loaded) = (vec![0; LONGEST], vec![0; LENGTH]);
    let saved = Model.save(&run.tables, &mut file);
    let answer = Model.load(&mut loaded, &file[..saved.value as usize]);
    assert_eq!((saved.status, answer.status), (0, 0));
    loaded
}

#[test]
fn after_a_load_the_history_begins_with_what_is_found() {
    let loaded = saved_and_loaded();
    let mut run = Run::on(Tested, loaded.clone());
    assert_eq!(run.account(ID), [2, 0, 2, 0], "the grant before the load is not in the history");
    assert_eq!(run.waiters(ID + 1), [(3, 0), (1, 1), (2, 2)]);
    run.release(ID + 1, 0);
    run.release(ID + 1, 0);
    assert_eq!(run.waiters(ID + 1), [(2, 2)]);
    run.obtain(3, ID + 1, 100);
    run.release(ID + 1, 0);
    assert_eq!(run.waiters(ID + 1), [(3, 1)]);
    assert_eq!(run.account(ID + 1), [0, 3, 0, 3]);
    // From the same file once more, with a tick that ends the wait in the middle.
    let mut run = Run::on(Tested, loaded);
    (0..2).for_each(|_| run.done(Call::Tick, 0));
    (0..2).for_each(|_| run.release(ID + 1, 0));
    assert_eq!((run.waiters(ID + 1), run.account(ID + 1)), (vec![], [0, 2, 0, 2]));
}

#[test]
fn a_count_that_does_not_account_is_told_with_its_numbers() {
    let mut run = Run::started(Tested, 2, &[[3, 0]]);
    run.obtain(1, ID, 0);
    run.release(ID, 0);
    run.obtain(1, ID, 0);
    set_word(&mut run.tables, slot_at(0) + COUNT, 3);
    let broken = run.call(&Call::Tick).1.expect_err("3 + 2 is not 3 + 1");
    assert_eq!(broken.fact, Fact::Account);
    let said = "semaphore 65537, counting, FIFO, initial count 3, 1 releases, 2 grants: the count is 3";
    assert_eq!(broken.to_string(), said);
}

#[test]
fn a_grant_one_release_late_is_told_at_that_release() {
    let mut run = Run::started(Tested, 5, &[[0, 0]]);
    (1..=4).for_each(|task| run.obtain(task, ID, 100));
    (0..2).for_each(|_| run.release(ID, 0));
    // Tasks 3 and 4 change places in the queue, so that the third release is not for task 3.
    [4, 3].iter().zip(QUEUE..).for_each(|(&task, at)| set_word(&mut run.tables, slot_at(0) + at, task));
    let release = Call::Release { caller: 0, id: ID };
    let broken = run.call(&release).1.expect_err("two were ahead of task 3");
    assert_eq!(broken.fact, Fact::Turn);
    let late = ": task 3 had 2 ahead, still waits after 3 releases";
    assert!(broken.to_string().ends_with(late), "{broken}");
}

#[test]
fn a_flush_that_is_refused_ends_no_wait() {
    let mut run = Run::started(Tested, 3, &[[0, 0]]);
    (1..=2).for_each(|task| run.obtain(task, ID, 100));
    // What a flush leaves, with the answer of one by a task that waits.
    let flush = Call::Flush { caller: 1, id: ID };
    Tested.call(&mut run.tables, &Call::Flush { caller: 0, id: ID });
    let refused = Answer::new(14, 0, 1);
    let broken =
        run.history.saw(&flush, refused, &run.tables, &mut run.seen).expect_err("it was refused");
    assert_eq!(broken.fact, Fact::Turn);
    assert!(broken.to_string().ends_with(": the wait of task 1 ended with 13"), "{broken}");
}

#[test]
fn a_broken_fact_fails_a_comparison_as_a_difference_does() {
    let mut run = Run::started(Tested, 1, &[[1, 0]]);
    let mut history = History::begin(&run.tables);
    set_word(&mut run.tables, slot_at(0) + COUNT, 2);
    let mut subject = Tested;
    let mut comparison = Comparison::new(&mut subject);
    let place = Place { part: "grants", seed: 7, step: 3 };
    let answer = Answer::new(0, 0, 1);
    let compared = comparison.account(&mut history, place, &Call::Tick, answer, &run.tables);
    let said = compared.expect_err("the count is another").to_string();
    let lines: Vec<&str> = said.lines().collect();
    assert_eq!(lines[..2], ["broken fact in grants: seed 7, step 3", "  call:        Tick"]);
    let numbers = "counting, FIFO, initial count 1, 0 releases, 0 grants: the count is 2";
    assert_eq!(lines[5], format!("  history:     semaphore 65537, {numbers}"));
}
