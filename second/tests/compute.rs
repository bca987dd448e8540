//! Compute cost by job, request (i) of document 02.

mod common;

use common::{check, tabs};
use second::days::day;
use second::exhaustive::Exhaustive;
use second::farm::{Farm, Offer};
use second::job::Record;
use second::limits::*;
use second::program::{answers, answers_by, Session};
use second::quick::{Quick, Whole};
use second::refusal::Refusal;
use second::share::Costs;

const LONGEST: u64 = 9_999_999_999_999;

/// The farm's m and p are 1 and 2, its setups 0.
const MIXED: &str = "farm 3 1 2 0 0 0 30 0\n\
    job 1 10 18\n\
    job 2 3 22 4\n\
    job 2 3 25 4\n\
    job 2 1 12 1\n\
    clock 2\n\
    account 1\n\
    account 2\n\
    clock 17\n\
    job 1 1 26 5\n\
    job 1 1 26\n\
    account 2\n";

/// Worked by hand.
///
/// Job 1, 10 units by 18 at p = 2: case C, 6 and 4 units, sends to 6 and 10.
///
/// 3 units by 22 at p = 4: node 3 alone is free while the link is, from 10, and
/// holds 2 of them in 12 ticks; with the two others from 18 on 4 ticks hold
/// none. Refused. By 25 it holds 3 in 15 ticks: job 2, from 10 to 25.
///
/// Job 3, 1 unit by 12 at p = 1, is first in the walk: node 1, send 0 to 1, end
/// at 2. Job 1 follows at p = 2: from 1 to 18 are 17 ticks, which need three
/// nodes, and node 1 is free at 2. 16 ticks hold 5 + 3 + 2 on nodes 2, 3 and 1;
/// 15 do too, so the sends end at 7, 10 and 12 and the chunks at 7 + 10 = 17,
/// 10 + 6 = 16 and 12 + 4 = 16. Job 2 comes last and keeps its p = 4: at 16 the
/// two nodes free hold 1 + 1 in 9 ticks, so it waits for the third until 17 and
/// 8 ticks hold 1 + 1 + 1 on nodes 1, 3 and 2: sends end at 18, 19 and 20,
/// chunks at 22, 23 and 24. At the farm's p it would take one node from 16.
///
/// From their own sends on show 1's chunks hold 15 + 9 + 6 = 30, just its 30. Show 2
/// holds 2, then 5 for each of three chunks.
///
/// From 17 the link is free at 20 and node 1 at 22: 1 unit by 26 at p = 5 would
/// end at 28; at the farm's p it ends at 25.
const MIXED_ANSWERS: &str = "open 3 2\n\
    yes 1 0 18 2\n\
    no 8\n\
    yes 2 10 25 1\n\
    yes 3 0 2 1\n\
    chunk 3 2 1 1 0 1 2 2\n\
    chunk 1 1 2 5 2 7 17 17\n\
    chunk 1 1 3 3 7 10 16 16\n\
    chunk 1 1 1 2 10 12 16 16\n\
    clock 2 4\n\
    account 1 30 0\n\
    account 2 2 2\n\
    chunk 2 2 1 1 17 18 22 22\n\
    chunk 2 2 3 1 18 19 23 23\n\
    chunk 2 2 2 1 19 20 24 24\n\
    clock 17 3\n\
    no 8\n\
    yes 4 22 25 1\n\
    account 2 17 17\n";

#[test]
fn a_mixed_day_by_hand() {
    check(MIXED, MIXED_ANSWERS);
}

/// The answer to one offer on a farm of two shows whose clock is 3.
fn check_offer(line: &str, answer: &str) {
    check(
        &format!("farm 1 1 1 0 0 0 5 5\nclock 3\n{line}\n"),
        &format!("open 1 2\nclock 3 0\n{answer}\n"),
    );
}

#[test]
fn the_questions_are_asked_in_order() {
    // Shape before all else.
    check_offer("job 0 0 0 0 0", "no 11");
    // The show before the size, p and the deadline.
    check_offer("job 3 0 0 0", "no 4");
    check_offer("job 3 1 9 0", "no 4");
    check_offer("job 0 1 9 1000001", "no 4");
    // The size before p.
    check_offer("job 1 0 9 0", "no 5");
    check_offer("job 1 1000001 9 1000001", "no 5");
    // p before the deadline and the walk.
    check_offer("job 1 1 3 0", "no 2");
    check_offer("job 1 1 1000000000001 1000001", "no 2");
    check_offer("job 1 1 4 0", "no 2");
    // The deadline before the walk.
    check_offer("job 1 1000000 3 1000000", "no 6");
    check_offer("job 1 1 4 1", "no 8");
    check_offer("job 1 1 6 3", "no 8");
    check_offer("job 1 1 6 2", "yes 1 3 6 1");
}

#[test]
fn a_full_queue_is_asked_after_p_and_before_the_walk() {
    let mut farm = Farm::<Quick>::open(2, Costs::new(1, 1, 0, 0, 0), &[0]).unwrap();
    for job in 0..MOST_WAITING as u64 {
        let offer = Offer::new(1, 1, 1_000).with_compute(1 + job % 3);
        farm.offer(offer).unwrap();
    }
    let mut refusal = |deadline, compute| {
        let offer = Offer::new(1, 1, deadline).with_compute(compute);
        farm.offer(offer).unwrap_err()
    };
    assert_eq!(refusal(1_000, 0), Refusal::Costs);
    assert_eq!(refusal(0, MOST_COMPUTE_COST + 1), Refusal::Costs);
    assert_eq!(refusal(0, 1), Refusal::Deadline);
    assert_eq!(refusal(1, 1), Refusal::QueueFull);
    assert_eq!(refusal(1_000, 2), Refusal::QueueFull);
}

/// The farm's p at one limit and the job's at the other.
#[test]
fn p_has_the_tables_limits() {
    let mut least = Farm::<Quick>::open(1, Costs::new(1, 1, 0, 0, 0), &[0]).unwrap();
    for compute in [0, MOST_COMPUTE_COST + 1, LONGEST] {
        let offer = Offer::new(1, 1, LAST_TICK).with_compute(compute);
        assert_eq!(least.offer(offer), Err(Refusal::Costs));
    }
    // 999,999 * (1 + 1,000,000) = 999,999,999,999.
    let dear = Offer::new(1, 999_999, LAST_TICK - 1).with_compute(MOST_COMPUTE_COST);
    let refused = Err(Refusal::NotBookable);
    assert_eq!(least.offer(dear.by(LAST_TICK - 2)), refused);
    let yes = least.offer(dear).unwrap();
    assert_eq!((yes.start, yes.finish), (0, LAST_TICK - 1));

    let costs = Costs::new(1, MOST_COMPUTE_COST, 0, 0, 0);
    let mut greatest = Farm::<Quick>::open(1, costs, &[0]).unwrap();
    let large = Offer::new(1, MOST_UNITS, LAST_TICK);
    assert_eq!(greatest.offer(large), refused);
    let cheap = large.with_compute(1);
    assert_eq!(greatest.offer(cheap.by(1_999_999)), refused);
    let yes = greatest.offer(cheap.by(2_000_000)).unwrap();
    assert_eq!((yes.start, yes.finish), (0, 2_000_000));
}

/// A cheaper p can be refused where a dearer one is taken. Of the examples found
/// on two nodes with one waiting job this has the smallest figures.
///
/// Job 1, 2 units by 11 at p = 4, ends on one node at 10. 2 units by 6 come
/// before it. At p = 2 one node ends them at 6: job 1 then has node 2 from 2,
/// which ends at 12, or both nodes from 6, where 5 ticks hold 1 unit. At p = 3
/// they need two nodes, which end at 4 and 5: both are free for job 1 from 5,
/// and its last chunk ends at 5 + 2 + 4 = 11.
#[test]
fn a_cheaper_p_may_be_refused() {
    check(
        "farm 2 1 4 0 0 0 0\njob 1 2 11\njob 1 2 6 2\njob 1 2 6 3\nclock 5\n",
        "open 2 1\nyes 1 0 10 1\nno 8\nyes 2 0 5 2\n\
         chunk 2 1 1 1 0 1 4 4\nchunk 2 1 2 1 1 2 5 5\n\
         chunk 1 1 1 1 5 6 10 10\nchunk 1 1 2 1 6 7 11 11\nclock 5 4\n",
    );
}

/// A day without own compute costs, and the same with the farm's in each offer and
/// quote.
fn without_and_with_the_farms(day: &[u8]) -> (Vec<u8>, Vec<u8>) {
    let mut session = Session::<Quick>::default();
    let (mut without, mut with) = (Vec::new(), Vec::new());
    for line in day.split(|&byte| byte == b'\n') {
        let mut fields: Vec<&[u8]> = line.split(|&byte| byte == b'\t').collect();
        let is_offer = matches!(fields[0], b"job" | b"quote") && fields.len() >= 4;
        if is_offer {
            fields.truncate(4);
        }
        let stripped = fields.join(&b'\t');
        without.extend_from_slice(&stripped);
        with.extend_from_slice(&stripped);
        if let (true, Some(farm)) = (is_offer, session.farm()) {
            with.extend_from_slice(format!("\t{}", farm.costs().compute).as_bytes());
        }
        without.push(b'\n');
        with.push(b'\n');
        session.line(&stripped);
    }
    (without, with)
}

#[test]
fn an_absent_p_is_the_farms() {
    let mut offers = 0;
    for seed in 0..120 {
        let (without, with) = without_and_with_the_farms(&day(seed));
        assert!(answers(&without) == answers(&with), "seed {seed}");
        offers += with.len() - without.len();
    }
    assert!(offers > 10_000, "only {offers} bytes added");
}

/// The bookings kept before the new job and those made again behind it are what
/// a walk over all jobs gives.
#[test]
fn kept_bookings_are_those_of_a_whole_walk() {
    for seed in 0..160 {
        let day = day(seed);
        let whole = answers_by::<Whole>(&day);
        assert!(answers(&day) == whole, "seed {seed}");
    }
}

/// The mixed day by hand again, by trying everything.
#[test]
fn the_exhaustive_walk_books_by_own_p() {
    let given = answers_by::<Exhaustive>(&tabs(MIXED));
    assert_eq!(given, tabs(MIXED_ANSWERS));
}

/// Every line that is ever booked takes what the costs with its job's p say.
#[test]
fn lines_take_what_the_jobs_own_costs_say() {
    let costs = Costs::new(3, 20, 2, 5, 0);
    let mut farm = Farm::<Quick>::open(5, costs, &[0]).unwrap();
    let mut lines = [Record::default(); LENT_RECORDS];
    // By job number, from 1.
    let mut computes = vec![0];
    for turn in 0..200 {
        let compute = (turn % 3 > 0).then_some(1 + turn * 7 % 45);
        let deadline = farm.clock() + 150 + turn * 37 % 400;
        let offer = Offer::new(1, 1 + turn % 9, deadline).with_compute(compute);
        if farm.offer(offer).is_ok() {
            computes.push(compute.unwrap_or(costs.compute));
        }
        let count = farm.show_waiting(&mut lines).unwrap();
        assert!(lines[..count].iter().all(|line| {
            let compute = computes[line.job as usize];
            line.send_end == line.send_start + costs.link_setup + line.units * costs.send
                && line.finish == line.send_end + costs.node_setup + line.units * compute
                && line.compute_end == line.finish
        }));
        if turn % 4 == 0 {
            let time = farm.clock() + 60;
            farm.move_clock(time, &mut lines).unwrap();
        }
    }
    assert!(computes.len() > 100, "only {} jobs", computes.len());
}
