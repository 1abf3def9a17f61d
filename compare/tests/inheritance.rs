//! Priority inheritance: the request's story worked out, and working priorities by the words of the request.

mod links;

use compare::call::Call;
use compare::fuzz::generate::Plan;
use compare::fuzz::rng::Rng;
use compare::fuzz::workload::{self, Workload};
use compare::layout::read;
use compare::model::Machine;
use links::{all_by_links, INHERITS};

const A: u32 = 65537;
const B: u32 = 65538;

fn wait(caller: u32, id: u32) -> Call {
    Call::Obtain { caller, id, options: 0, timeout: u32::MAX }
}

fn made_by(priorities: &[u32], calls: &[Call]) -> Machine {
    let mut machine = Machine::default();
    machine.call(&Call::Start { slots: 4, priorities: priorities.to_vec() });
    calls.iter().for_each(|call| assert!(matches!(machine.call(call).status, 0 | 100), "{call:?}"));
    assert!(machine.agrees());
    machine
}

/// "The radio waits for the display, and a logger of middling priority runs instead."
#[test]
fn the_display_works_for_the_radio() {
    for (attributes, working, next) in [(84, [10, 20, 10], 3), (20, [10, 20, 30], 2)] {
        let mut made = made_by(&[10, 20, 30], &[Call::create(3, 1, 0, attributes), wait(1, A)]);
        assert_eq!((made.working(), made.next_task()), (working.to_vec(), next), "{attributes}");
        made.call(&Call::Release { caller: 3, id: A });
        assert_eq!((made.working(), made.next_task()), (vec![10, 20, 30], 1), "{attributes}");
    }
}

#[test]
fn a_chain_is_followed_owner_by_owner() {
    let calls = [Call::create(3, 1, 0, 84), Call::create(2, 1, 0, 84), wait(2, A), wait(1, B)];
    let made = made_by(&[5, 20, 30, 10], &calls);
    assert_eq!(made.working(), [5, 5, 5, 10]);
    assert_eq!(made.working_with(1), [5, 5, 20, 10]);
    // The first semaphore is a 20, and the second.
    let mut cut = calls.clone();
    cut[0] = Call::create(3, 1, 0, 20);
    assert_eq!(made_by(&[5, 20, 30, 10], &cut).working(), [5, 5, 30, 10]);
    let mut cut = calls;
    cut[1] = Call::create(2, 1, 0, 20);
    assert_eq!(made_by(&[5, 20, 30, 10], &cut).working(), [5, 20, 20, 10]);
}

#[test]
fn a_cycle_has_the_least_of_all_that_wait_in_it() {
    let calls =
        [Call::create(1, 1, 0, 84), Call::create(2, 1, 0, 84), wait(1, B), wait(2, A), wait(3, B)];
    let mut made = made_by(&[20, 30, 5, 40], &calls);
    assert_eq!(made.working(), [5, 5, 5, 40]);
    assert_eq!(made.in_turn(B), [1, 3], "a tie by inheritance, by arrival");
    made.call(&Call::Flush { caller: 4, id: B });
    assert_eq!(made.working(), [20, 30, 5, 40]);
    assert_eq!(made.ready, [4, 1, 3], "in the order before the flush");
}

#[test]
fn an_outermost_release_restores_and_an_inner_one_does_not() {
    let calls = [Call::create(2, 1, 0, 84), wait(2, A), wait(1, A)];
    let mut made = made_by(&[5, 20], &calls);
    assert_eq!(made.working(), [5, 5]);
    made.call(&Call::Release { caller: 2, id: A });
    assert_eq!(made.working(), [5, 5]);
    made.call(&Call::Release { caller: 2, id: A });
    assert_eq!(made.working(), [5, 20]);
}

#[test]
fn two_semaphores_of_one_owner_lend_apart() {
    let calls = [Call::create(3, 1, 0, 84), Call::create(3, 1, 0, 84), wait(1, A), wait(2, B)];
    let mut made = made_by(&[5, 20, 30], &calls);
    assert_eq!(made.working(), [5, 20, 5]);
    made.call(&Call::Release { caller: 3, id: A });
    assert_eq!(made.working(), [5, 20, 20]);
    made.call(&Call::Release { caller: 3, id: B });
    assert_eq!(made.working(), [5, 20, 30]);
}

#[test]
fn working_priorities_are_the_requests() {
    let mut boosted = 0;
    for seed in 0..60 {
        let mut rng = Rng::new(seed);
        let plan = Plan::chaining(&mut rng);
        let mut machine = Machine::default();
        for _ in 0..plan.steps {
            machine.call(&plan.draw_call(&mut rng, &machine));
            let (working, tasks) = (machine.working(), machine.tasks.len());
            assert_eq!(working, all_by_links(&machine, INHERITS, tasks), "seed {seed}");
            // N links cut nothing off.
            assert_eq!(working, machine.working_with(2 * tasks + 1), "seed {seed}");
            boosted += usize::from(working != machine.working_with(0));
        }
    }
    assert!(boosted > 1000, "{boosted} tables in which somebody lends");
}

/// How many calls of a measured sequence leave somebody lending, and how many leave next another than by own priorities.
fn in_use(workload: &Workload) -> (usize, usize) {
    let mut machine = read(&workload.tables).expect("recorded tables agree");
    let (mut lends, mut decides) = (0, 0);
    for call in &workload.calls {
        let answer = machine.call(call);
        lends += usize::from(machine.lenders().next().is_some());
        decides += usize::from(answer.next != machine.next_by(&machine.working_with(0)));
    }
    (lends, decides)
}

#[test]
fn one_measured_sequence_has_chains_and_the_others_have_none() {
    let measured = workload::all(2000);
    let (last, others) = measured.split_last().expect("some are measured");
    others.iter().for_each(|plain| assert_eq!(in_use(plain), (0, 0), "{}", plain.name));
    let (lends, decides) = in_use(last);
    assert!(lends > 1000 && decides > 100, "{}: {lends} {decides}", last.name);
}
