//! Withdrawing a job, request (ii) of document 02.

mod common;

use common::{check, tabs, waiting};
use second::days::{day, tiny_day};
use second::exhaustive::Exhaustive;
use second::farm::{Farm, Offer};
use second::job::{Begun, Plan, Queue, Record, Walk, Walked};
use second::limits::*;
use second::program::{answers_by, Session};
use second::quick::{Quick, Whole};
use second::random::Random;
use second::refusal::Refusal;
use second::share::Costs;
use std::cell::Cell;

/// The paper's listing with job 1 withdrawn. 2 units by 12 were refused since
/// job 1 needs its two nodes from 0 on. Without it they take node 1 from 0 to 6,
/// and job 2 follows on node 2 once their send ends at 2: it ends at 2 + 9 = 11.
/// Show 1 is issued nothing; show 2 holds 6 + 9.
const FREED: &str = "farm 3 1 2 0 0 0 30 0\n\
    job 1 10 18\n\
    job 2 3 20\n\
    job 2 2 12\n\
    withdraw 1\n\
    withdraw 1\n\
    job 2 2 12\n\
    clock 10\n\
    withdraw 3\n\
    withdraw 2\n\
    account 1\n\
    account 2\n";

const FREED_ANSWERS: &str = "open 3 2\n\
    yes 1 0 18 2\n\
    yes 2 10 19 1\n\
    no 8\n\
    gone 1\n\
    no 12\n\
    yes 3 0 6 1\n\
    chunk 3 2 1 2 0 2 6 6\n\
    chunk 2 2 2 3 2 5 11 11\n\
    clock 10 2\n\
    no 12\n\
    no 12\n\
    account 1 0 0\n\
    account 2 15 15\n";

#[test]
fn a_withdrawal_frees_nodes_for_the_next_offer() {
    check(FREED, FREED_ANSWERS);
}

/// Window M, 2 units by 21 behind jobs 1 and 2, is refused. Without job 2 node 3
/// takes it as soon as job 1's sends end at 10.
#[test]
fn window_m_fits_once_job_2_is_gone() {
    check(
        "farm 3 1 2 0 0 0 30 0\njob 1 10 18\njob 2 3 20\njob 2 2 21\n\
         withdraw 2\njob 2 2 21\nclock 10\n",
        "open 3 2\nyes 1 0 18 2\nyes 2 10 19 1\nno 8\n\
         gone 2\nyes 3 10 16 1\nchunk 1 1 1 6 0 6 18 18\nchunk 1 1 2 4 6 10 18 18\n\
         chunk 3 2 3 2 10 12 16 16\nclock 10 3\n",
    );
}

/// Job 2 could start at 0 on node 1 now, but nothing is walked: it is issued
/// from 10 on node 3 as booked. The same if a refused offer comes between.
#[test]
fn the_others_keep_start_nodes_and_shares() {
    check(
        "farm 3 1 2 0 0 0 30 0\njob 1 10 18\njob 2 3 20\nwithdraw 1\n\
         job 2 1000 20\nclock 9\nclock 10\naccount 1\naccount 2\n",
        "open 3 2\nyes 1 0 18 2\nyes 2 10 19 1\ngone 1\nno 8\n\
         clock 9 0\nchunk 2 2 3 3 10 13 19 19\nclock 10 1\n\
         account 1 0 0\naccount 2 9 9\n",
    );
}

/// Job 2 lies between the others. The chunks on both sides of it stay.
#[test]
fn a_job_amid_the_plan_is_withdrawn() {
    check(
        "farm 3 1 2 0 0 0 30 0\njob 1 10 18\njob 2 3 20\njob 2 2 22\n\
         withdraw 2\nclock 18\n",
        "open 3 2\nyes 1 0 18 2\nyes 2 10 19 1\nyes 3 18 22 2\n\
         gone 2\nchunk 1 1 1 6 0 6 18 18\nchunk 1 1 2 4 6 10 18 18\n\
         chunk 3 2 1 1 18 19 21 21\nchunk 3 2 2 1 19 20 22 22\nclock 18 4\n",
    );
}

/// The farm's m and p are 1, and it has no setups.
const NEEDED: &str = "farm 2 1 1 0 0 0 0\njob 1 1 2\njob 1 5 10\njob 1 8 20\n";

const NEEDED_ANSWERS: &str = "open 2 1\nyes 1 0 2 1\nyes 2 2 9 2\nyes 3 9 20 2\n";

/// An old job can fail in the next walk. Of all examples with three offers on two
/// nodes, without setups and own p, this has the smallest sum of m, p, sizes and
/// deadlines. Two are too few: the one left fits at least where it is booked.
///
/// Job 1 takes node 1 from 0 to 2. Behind it job 2, 5 units by 10, no longer
/// fits on one node, so it takes both from 2: 7 ticks hold 3 + 2, and the nodes
/// are free at 8 and 9. Job 3, 8 units by 20, takes both from 9: 11 ticks hold
/// 5 + 3.
///
/// Without job 1 a walk books job 2 on node 1 from 0 to 10. Job 3 then has node 2
/// from 5, where 15 ticks hold 7, or both from 10, where 10 ticks hold 5 + 2. It
/// fails, so one unit by the last tick is refused as well. Jobs 2 and 3 are
/// issued as they were booked with job 1, and hold 6 + 4 and 10 + 6.
#[test]
fn an_old_job_fails_in_the_next_walk() {
    check(
        &format!("{NEEDED}withdraw 1\njob 1 1 1000000000000\nclock 9\naccount 1\n"),
        &format!(
            "{NEEDED_ANSWERS}gone 1\nno 8\n\
             chunk 2 1 2 3 2 5 8 8\nchunk 2 1 1 2 5 7 9 9\n\
             chunk 3 1 2 5 9 14 19 19\nchunk 3 1 1 3 14 17 20 20\nclock 9 4\n\
             account 1 26 26\n"
        ),
    );
}

/// Once job 2 has begun on two nodes job 3 can be walked again, and the offer
/// refused before is taken. Had job 1 stayed, it would have been taken at once.
#[test]
fn offers_are_taken_again_once_the_old_job_fits() {
    check(
        &format!("{NEEDED}withdraw 1\njob 1 1 1000\nclock 2\njob 1 1 1000\nclock 19\n"),
        &format!(
            "{NEEDED_ANSWERS}gone 1\nno 8\n\
             chunk 2 1 2 3 2 5 8 8\nchunk 2 1 1 2 5 7 9 9\nclock 2 2\n\
             yes 4 19 21 1\n\
             chunk 3 1 2 5 9 14 19 19\nchunk 3 1 1 3 14 17 20 20\n\
             chunk 4 1 2 1 19 20 21 21\nclock 19 3\n"
        ),
    );
    check(
        &format!("{NEEDED}job 1 1 1000\n"),
        &format!("{NEEDED_ANSWERS}yes 4 19 21 1\n"),
    );
}

/// Withdrawing the job that fails lets offers in too.
#[test]
fn offers_are_taken_again_once_the_old_job_is_gone() {
    check(
        &format!("{NEEDED}withdraw 1\njob 1 1 1000\nwithdraw 3\njob 1 1 1000\nclock 5\n"),
        &format!(
            "{NEEDED_ANSWERS}gone 1\nno 8\ngone 3\nyes 4 5 7 1\n\
             chunk 2 1 1 5 0 5 10 10\nchunk 4 1 2 1 5 6 7 7\nclock 5 2\n"
        ),
    );
}

#[test]
fn only_a_waiting_job_is_withdrawn() {
    check(
        "farm 1 1 1 0 0 0 0\nwithdraw 0\nwithdraw 1\njob 1 1 9\nwithdraw 2\n\
         withdraw 9999999999999\nclock 0\nwithdraw 1\njob 1 1 9\nwithdraw 02\n\
         withdraw 2\nwithdraw 0\n",
        "open 1 1\nno 12\nno 12\nyes 1 0 2 1\nno 12\n\
         no 12\nchunk 1 1 1 1 0 1 2 2\nclock 0 1\nno 12\nyes 2 2 4 1\ngone 2\n\
         no 12\nno 12\n",
    );
}

#[test]
fn a_number_is_used_once() {
    check(
        "farm 1 1 1 0 0 0 0\njob 1 1 9\nwithdraw 1\njob 1 1 9\nwithdraw 1\n\
         job 1 1 9\nwithdraw 2\njob 1 1 9\nclock 9\n",
        "open 1 1\nyes 1 0 2 1\ngone 1\nyes 2 0 2 1\nno 12\n\
         yes 3 2 4 1\ngone 2\nyes 4 2 4 1\n\
         chunk 3 1 1 1 0 1 2 2\nchunk 4 1 1 1 2 3 4 4\nclock 9 2\n",
    );
}

#[test]
fn a_withdrawal_needs_a_farm_and_one_number() {
    check(
        "withdraw 1\nwithdraw\nfarm 0 1 1 0 0 0 0\nwithdraw 1\nfarm 1 1 1 0 0 0 0\n\
         job 1 1 9\nwithdraw\nwithdraw 1 1\nwithdraw 1 \nwithdraw  1\n\
         withdraw 00000000000001\nwithdraw x\nclock 0\n",
        "no 11\nno 11\nno 1\nno 11\nopen 1 1\n\
         yes 1 0 2 1\nno 11\nno 11\nno 11\nno 11\n\
         no 11\nno 11\nchunk 1 1 1 1 0 1 2 2\nclock 0 1\n",
    );
}

/// One-unit jobs take the two nodes in turn and start a tick apart, so without
/// job 64 each behind it starts a tick earlier and the new one at 127.
#[test]
fn a_withdrawal_makes_room_in_a_full_queue() {
    let mut farm = Farm::<Quick>::open(2, Costs::new(1, 1, 0, 0, 0), &[0]).unwrap();
    let unit = Offer::new(1, 1, 1_000);
    for _ in 0..MOST_WAITING {
        farm.offer(unit).unwrap();
    }
    let full = Err(Refusal::QueueFull);
    assert_eq!(farm.offer(unit), full);
    assert_eq!(farm.withdraw(129), Err(Refusal::NotWaiting));
    assert_eq!(farm.offer(unit), full);
    assert_eq!(farm.withdraw(64), Ok(()));
    assert_eq!(farm.starts().last(), Some(127));
    let yes = farm.offer(unit).unwrap();
    assert_eq!((yes.job, yes.start, yes.finish), (129, 127, 129));
    assert_eq!(farm.offer(unit), full);
    // With room again the walk answers.
    assert_eq!(farm.withdraw(129), Ok(()));
    let refused = Err(Refusal::NotBookable);
    assert_eq!(farm.offer(Offer::new(1, 1_000, 1_000)), refused);
    assert_eq!(farm.offer(unit).unwrap().job, 130);
    // All may go, and then all start anew.
    for job in (1..=130).filter(|job| ![64, 129].contains(job)) {
        assert_eq!(farm.withdraw(job), Ok(()));
    }
    assert_eq!(farm.waiting(), 0);
    let yes = farm.offer(unit).unwrap();
    assert_eq!((yes.job, yes.start, yes.finish), (131, 0, 2));
}

/// The days by hand again, by trying everything.
#[test]
fn the_exhaustive_walk_answers_alike() {
    let needed = format!("{NEEDED}withdraw 1\njob 1 1 1000\nclock 2\njob 1 1 1000\n");
    let needed_answers = format!(
        "{NEEDED_ANSWERS}gone 1\nno 8\nchunk 2 1 2 3 2 5 8 8\nchunk 2 1 1 2 5 7 9 9\n\
         clock 2 2\nyes 4 19 21 1\n"
    );
    for (day, expected) in [(FREED, FREED_ANSWERS), (&needed, &needed_answers)] {
        let given = answers_by::<Exhaustive>(&tabs(day));
        assert_eq!(given, tabs(expected));
    }
}

/// On random farms: the lines of the other jobs, the clock, the accounts and the
/// numbers used are after every withdrawal what they were before it.
#[test]
fn nothing_else_changes() {
    let mut withdrawn = 0;
    for seed in 0..300 {
        let mut random = Random::new(seed);
        let (send, compute) = (random.between(1, 9), random.between(1, 60));
        let costs = Costs::new(send, compute, 2, 3, random.between(0, 30));
        let mut farm = Farm::<Quick>::open(random.between(1, 9), costs, &[40, 0]).unwrap();
        for _ in 0..60 {
            let deadline = farm.clock() + random.between(50, 3_000);
            let size = random.between(1, 60);
            // Many are refused; that leaves the farm as it is.
            let _ = farm.offer(Offer::new(random.between(1, 2), size, deadline));
            if random.once_in(5) {
                let time = farm.clock() + random.between(0, 200);
                let mut lines = [Record::default(); LENT_RECORDS];
                farm.move_clock(time, &mut lines).unwrap();
            }
            if random.once_in(2) {
                let job = random.between(0, farm.numbers_used() + 1);
                withdrawn += u64::from(withdraw_and_look(&mut farm, job));
            }
        }
    }
    assert!(withdrawn > 500, "only {withdrawn} withdrawn");
}

/// Whether the job was withdrawn; what should stay is asserted to stay.
fn withdraw_and_look(farm: &mut Farm<Quick>, job: u64) -> bool {
    let waits = farm.numbers().any(|number| number == job);
    let mut lines = waiting(farm);
    let rest = |farm: &Farm<Quick>| {
        let accounts = [1, 2].map(|show| farm.account(show).unwrap());
        (farm.clock(), farm.numbers_used(), accounts)
    };
    let before = rest(farm);
    let answer = farm.withdraw(job);
    assert_eq!(answer.is_ok(), waits);
    lines.retain(|line| !waits || line.job != job);
    assert_eq!(waiting(farm), lines);
    assert_eq!(rest(farm), before);
    assert_eq!(farm.withdraw(job), Err(Refusal::NotWaiting));
    waits
}

thread_local! {
    /// Offers refused where the waiting jobs alone cannot be walked.
    static IN_VAIN: Cell<u64> = const { Cell::new(0) };
}

/// The quick walk, which also counts offers in vain.
#[derive(Default)]
struct Counting(Quick);

impl Walk for Counting {
    fn book(&mut self, begun: &Begun, queue: Queue) -> bool {
        let booked = self.0.book(begun, queue);
        if !booked && !old_jobs_walk(begun, queue.plan) {
            IN_VAIN.set(IN_VAIN.get() + 1);
        }
        booked
    }

    fn walked(&self) -> &Walked {
        self.0.walked()
    }
}

/// Whether the waiting jobs alone can be walked. Offering each behind those before it
/// must come to the same.
fn old_jobs_walk(begun: &Begun, plan: &Plan) -> bool {
    let mut anew = Plan::default();
    let mut walk = Whole::default();
    let mut jobs = plan.bookings.iter().map(|booking| booking.job);
    let one_by_one = jobs.all(|job| {
        let booked = walk.book(begun, anew.queue(Some(job)));
        if booked {
            anew.follow(walk.walked());
        }
        booked
    });
    assert_eq!(walk.book(begun, plan.queue(None)), one_by_one);
    one_by_one
}

/// Offers in vain on a day.
fn in_vain(day: &[u8]) -> u64 {
    let before = IN_VAIN.get();
    let mut session = Session::<Counting>::default();
    day.split(|&byte| byte == b'\n')
        .for_each(|line| session.line(line));
    IN_VAIN.get() - before
}

fn holds(day: &[u8], word: &[u8]) -> bool {
    day.windows(word.len()).any(|part| part == word)
}

/// Half of the seeds have withdrawals, and often an old job fails there and only
/// there.
#[test]
fn random_days_reach_failing_old_jobs() {
    for (days, least) in [(day as fn(u64) -> Vec<u8>, 30), (tiny_day, 30)] {
        let (mut withdrawing, mut failing) = (0, 0);
        for seed in 0..400 {
            let day = days(seed);
            let withdraws = holds(&day, b"withdraw");
            assert!(seed / 8 % 2 == 1 || !withdraws, "seed {seed}");
            let fails = in_vain(&day) > 0;
            assert!(withdraws || !fails, "seed {seed}");
            withdrawing += u64::from(withdraws);
            failing += u64::from(fails);
        }
        assert!(withdrawing > 150, "only {withdrawing} days");
        assert!(failing >= least, "only {failing} days");
    }
}
