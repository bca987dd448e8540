//! When encoding ended, request (vii) of document 02: a chunk's eighth number.

mod common;

use common::{check, read, tabs};
use second::days::{day, tiny_day};
use second::exhaustive::Exhaustive;
use second::farm::{Farm, Offer};
use second::job::{Record, Walk};
use second::limits::*;
use second::program::{answers_by, Session};
use second::quick::{Quick, Whole};
use second::random::Random;
use second::refusal::Refusal;
use second::share::Costs;
use std::collections::BTreeMap;

/// By every walk.
fn check_all(day: &str, expected: &str) {
    check(day, expected);
    assert_eq!(answers_by::<Whole>(&tabs(day)), tabs(expected));
    assert_eq!(answers_by::<Exhaustive>(&tabs(day)), tabs(expected));
}

/// The paper's listing: r is 0, so computing ends with the chunk, at 6 + 6 * 2 = 18,
/// 10 + 4 * 2 = 18 and 13 + 3 * 2 = 19.
#[test]
fn the_listing() {
    check_all(
        "farm 3 1 2 0 0 0 30 0\njob 1 10 18\njob 2 3 20\njob 2 2 12\n\
         clock 10\naccount 1\naccount 2\n",
        "open 3 2\nyes 1 0 18 2\nyes 2 10 19 1\nno 8\n\
         chunk 1 1 1 6 0 6 18 18\nchunk 1 1 2 4 6 10 18 18\nchunk 2 2 3 3 10 13 19 19\n\
         clock 10 3\naccount 1 30 0\naccount 2 9 9\n",
    );
}

/// Without a way back the number is the finish, with setups and own p as well.
///
/// 3 units by 10 are window I: the sends end at 4 and 7, computing 1 + 2 * 2 and
/// 1 + 1 * 2 later, at 9 and 10. 2 units at p = 5 start when node 1 is free: the send
/// takes 9 to 13, computing ends at 13 + 1 + 2 * 5 = 24.
#[test]
fn without_a_way_back_it_is_the_finish() {
    check_all(
        "farm 2 1 2 2 1 0 0\njob 1 3 10\njob 1 2 24 5\nclock 9\n",
        "open 2 1\nyes 1 0 10 2\nyes 2 9 24 1\n\
         chunk 1 1 1 2 0 4 9 9\nchunk 1 1 2 1 4 7 10 10\nchunk 2 1 1 2 9 13 24 24\nclock 9 3\n",
    );
}

/// Every cost counts. A chunk takes 10 + 20 ticks before its first unit and 2 + 3 + 5
/// for each, so 4 units by 69 need two nodes.
///
/// With 3 + 1 units the sends end at 16 and 28, computing at 16 + 20 + 3 * 3 = 45 and
/// 28 + 20 + 3 = 51, and the audio is back 15 and 5 ticks later, at 60 and 56: the node
/// that computes longer is free sooner. With 2 + 2 the second would be back at 64.
///
/// 1 unit more waits for node 2 until its audio is back at 56. Its send ends at 68,
/// computing at 68 + 20 + 3 = 91, and it is back at 96. Were a node free when computing
/// ends, it would start at 45.
///
/// Held are 60, 56 - 16 and 96 - 56: the way back counts too.
#[test]
fn computing_ends_before_the_audio_is_back() {
    check_all(
        "farm 2 2 3 10 20 5 0\njob 1 4 69\njob 1 1 95\njob 1 1 96\nclock 56\naccount 1\n",
        "open 2 1\nyes 1 0 60 2\nno 8\nyes 2 56 96 1\n\
         chunk 1 1 1 3 0 16 60 45\nchunk 1 1 2 1 16 28 56 51\nchunk 2 1 2 1 56 68 96 91\n\
         clock 56 3\naccount 1 140 140\n",
    );
}

/// 2 units each, SC = 2 and r = 3. Cheaper than the farm's p = 4: 2 + 2 + 2 * 2 = 8. The
/// farm's: 16 + 2 + 2 * 4 = 26. Dearer: 34 + 2 + 2 * 7 = 50. Given and equal to the
/// farm's: 58 + 2 + 2 * 4 = 68. The audio is back 2 * 3 ticks later each time.
#[test]
fn it_is_by_the_jobs_own_cost() {
    check_all(
        "farm 1 1 4 0 2 3 0\njob 1 2 14 2\njob 1 2 32\njob 1 2 56 7\njob 1 2 74 4\nclock 56\n",
        "open 1 1\nyes 1 0 14 1\nyes 2 14 32 1\nyes 3 32 56 1\nyes 4 56 74 1\n\
         chunk 1 1 1 2 0 2 14 8\nchunk 2 1 1 2 14 16 32 26\n\
         chunk 3 1 1 2 32 34 56 50\nchunk 4 1 1 2 56 58 74 68\nclock 56 4\n",
    );
}

/// Job 1, 1 unit at p = 9, moves behind job 2: its send ends at 11, computing at
/// 11 + 2 + 9 = 22. Job 2 has the farm's p = 4 and ends computing at 1 + 2 + 4 = 7.
/// Job 3 at p = 1 is withdrawn. Job 4 at p = 20 keeps its place, and computing ends at
/// 33 + 2 + 20 = 55. The audio is back 3 ticks later each time.
#[test]
fn a_cost_stays_with_its_job() {
    check_all(
        "farm 1 1 4 0 2 3 0\njob 1 1 100 9\njob 1 1 20\njob 1 1 200 1\njob 1 1 300 20\n\
         withdraw 3\nclock 9\nclock 32\n",
        "open 1 1\nyes 1 0 15 1\nyes 2 0 10 1\nyes 3 25 32 1\nyes 4 32 58 1\n\
         gone 3\nchunk 2 1 1 1 0 1 10 7\nclock 9 1\n\
         chunk 1 1 1 1 10 11 25 22\nchunk 4 1 1 1 32 33 58 55\nclock 32 2\n",
    );
}

/// A unit takes p + r = 5 ticks behind its send in each case, so the first seven numbers
/// are the same: 3 units by 18 are sent by 2 and 3 and back at 2 + 1 + 2 * 5 = 13 and
/// 3 + 1 + 5 = 9. Computing ends at 2 + 1 + 2 * p and 3 + 1 + p, whether p is the farm's
/// or the job's own.
#[test]
fn it_parts_p_from_r() {
    let cases = [
        (5, 0, [13, 9]),
        (4, 1, [11, 8]),
        (2, 3, [7, 6]),
        (1, 4, [5, 5]),
    ];
    for (p, r, [first, second]) in cases {
        let expected = format!(
            "open 2 1\nyes 1 0 13 2\n\
             chunk 1 1 1 2 0 2 13 {first}\nchunk 1 1 2 1 2 3 9 {second}\nclock 0 2\n"
        );
        let by_farm = format!("farm 2 1 {p} 0 1 {r} 0\njob 1 3 18\nclock 0\n");
        check_all(&by_farm, &expected);
        let by_job = format!("farm 2 1 9 0 1 {r} 0\njob 1 3 18 {p}\nclock 0\n");
        check_all(&by_job, &expected);
    }
}

/// One unit, with one cost at its greatest and the others at their least: m and ST come
/// before the send's end, SC and p between it and the end of computing, r behind that.
#[test]
fn one_cost_at_its_limit() {
    let check = |costs: &str, own: &str, [send_end, finish, compute_end]: [u64; 3]| {
        check_all(
            &format!("farm 1 {costs} 0\njob 1 1 1000000000000{own}\nclock 0\n"),
            &format!(
                "open 1 1\nyes 1 0 {finish} 1\n\
                 chunk 1 1 1 1 0 {send_end} {finish} {compute_end}\nclock 0 1\n"
            ),
        );
    };
    check("1 1 0 0 0", "", [1, 2, 2]);
    check("10000 1 0 0 0", "", [10_000, 10_001, 10_001]);
    check("1 1000000 0 0 0", "", [1, 1_000_001, 1_000_001]);
    check("1 1 1000000 0 0", "", [1_000_001, 1_000_002, 1_000_002]);
    check("1 1 0 1000000 0", "", [1, 1_000_002, 1_000_002]);
    check("1 1 0 0 10000", "", [1, 10_002, 2]);
    // The own p at its least beside the farm's greatest, and the other way round.
    check("1 1000000 0 0 10000", " 1", [1, 10_002, 2]);
    check("1 1 0 0 10000", " 1000000", [1, 1_010_001, 1_000_001]);
}

/// 980,390 units at the greatest costs: the send ends at 1,000,000 + 9,803,900,000.
/// Computing takes 1,000,000 + 980,390,000,000 and the way back 9,803,900,000.
#[test]
fn the_greatest_figures() {
    check(
        "farm 1 10000 1000000 1000000 1000000 10000 0\njob 1 980390 1000000000000\nclock 0\n",
        "open 1 1\nyes 1 0 999999800000 1\n\
         chunk 1 1 1 980390 0 9804900000 999999800000 990195900000\nclock 0 1\n",
    );
    // 999,999 * 1,000,001 by the own p, with no way back.
    check(
        "farm 1 1 1 0 0 0 0\njob 1 999999 1000000000000 1000000\nclock 0\n",
        "open 1 1\nyes 1 0 999999999999 1\n\
         chunk 1 1 1 999999 0 999999 999999999999 999999999999\nclock 0 1\n",
    );
}

/// In the order of a `chunk` line.
fn record(numbers: [u64; 8]) -> Record {
    let [job, show, node, units, send_start, send_end, finish, compute_end] = numbers;
    Record {
        job,
        show,
        node,
        units,
        send_start,
        send_end,
        finish,
        compute_end,
    }
}

/// The bookings of `computing_ends_before_the_audio_is_back`, the last at p = 1: its
/// computing ends at 68 + 20 + 1 = 89, and it is back at 94. Showing and issuing write
/// the same; lent lines behind stay as they were, after a refusal all of them.
#[test]
fn chunks_are_shown_as_they_are_issued() {
    let mut farm = Farm::<Quick>::open(2, Costs::new(2, 3, 10, 20, 5), &[0]).unwrap();
    farm.offer(Offer::new(1, 4, 69)).unwrap();
    farm.offer(Offer::new(1, 1, 94).with_compute(1)).unwrap();
    let former = record([9; 8]);
    let expected = [
        record([1, 1, 1, 3, 0, 16, 60, 45]),
        record([1, 1, 2, 1, 16, 28, 56, 51]),
        record([2, 1, 2, 1, 56, 68, 94, 89]),
        former,
        former,
    ];
    let mut lent = [former; 5];
    let full = Err(Refusal::TimetableFull);
    assert_eq!(farm.show_waiting(&mut lent[..2]), full);
    assert_eq!(farm.move_clock(56, &mut lent[..2]), full);
    assert_eq!(lent, [former; 5]);
    assert_eq!(farm.show_waiting(&mut lent), Ok(3));
    assert_eq!(lent, expected);
    let mut lent = [former; 5];
    assert_eq!(farm.move_clock(56, &mut lent), Ok(3));
    assert_eq!(lent, expected);
}

/// What holds of each line, its job's p given.
fn assert_line(line: &Record, costs: Costs, compute: u64) {
    let computing = costs.node_setup + line.units * compute;
    assert_eq!(line.compute_end, line.send_end + computing, "{line:?}");
    let way_back = line.units * costs.return_cost;
    assert_eq!(line.compute_end + way_back, line.finish, "{line:?}");
    assert!(line.send_end < line.compute_end && line.compute_end <= line.finish);
}

/// Offers and moves on a random farm; answers how many chunks of own p were issued.
fn issued_by_own_cost<W: Walk>(seed: u64, most_units: u64) -> usize {
    let mut random = Random::new(seed);
    let [m, p, st, sc] = [3, 9, 3, 5].map(|most| random.between(1, most));
    let costs = Costs::new(m, p, st, sc, random.between(0, 6));
    let mut farm = Farm::<W>::open(random.between(1, 4), costs, &[0]).unwrap();
    // By job number, from 1.
    let mut computes = vec![0];
    let mut by_own_cost = 0;
    for _ in 0..12 {
        let own = random.between(1, 18);
        let compute = random.once_in(2).then_some(own);
        let (size, wait) = (random.between(1, most_units), random.between(10, 150));
        let offer = Offer::new(1, size, farm.clock() + wait).with_compute(compute);
        if farm.offer(offer).is_ok() {
            computes.push(compute.unwrap_or(p));
        }
        let mut shown = [Record::default(); LENT_RECORDS];
        let count = farm.show_waiting(&mut shown).unwrap();
        for line in &shown[..count] {
            assert_line(line, costs, computes[line.job as usize]);
        }
        let mut lines = [Record::default(); LENT_RECORDS];
        let time = farm.clock() + random.between(0, 40);
        let issued = farm.move_clock(time, &mut lines).unwrap();
        assert_eq!(lines[..issued], shown[..issued], "seed {seed}");
        let own = |line: &&Record| computes[line.job as usize] != p;
        by_own_cost += lines[..issued].iter().filter(own).count();
    }
    by_own_cost
}

#[test]
fn random_farms_end_computing_as_the_costs_say() {
    let quick: usize = (0..300).map(|s| issued_by_own_cost::<Quick>(s, 12)).sum();
    assert!(quick > 800, "only {quick} chunks");
    let whole: usize = (0..300).map(|s| issued_by_own_cost::<Whole>(s, 12)).sum();
    assert_eq!(whole, quick);
    let tried = (0..100).map(|s| issued_by_own_cost::<Exhaustive>(s, 5));
    let tried: usize = tried.sum();
    assert!(tried > 300, "only {tried} chunks");
}

/// What the chunks of a day tell from what.
#[derive(Default)]
struct Told {
    /// The end of computing from the finish.
    way_back: bool,
    /// The job's p from the farm's cheaper one, with a way back.
    dearer: bool,
    /// The same from a dearer one.
    cheaper: bool,
}

impl Told {
    fn look(&mut self, chunk: &[u64], costs: Costs, compute: u64) {
        let numbers = chunk.try_into().expect("eight numbers");
        assert_line(&record(numbers), costs, compute);
        let way_back = costs.return_cost > 0;
        self.way_back |= way_back;
        self.dearer |= way_back && compute > costs.compute;
        self.cheaper |= way_back && compute < costs.compute;
    }
}

/// Checks each chunk of a day by the costs that its lines give.
fn told(day: &[u8]) -> Told {
    let mut session = Session::<Quick>::default();
    let mut costs = Costs::new(0, 0, 0, 0, 0);
    let mut computes = BTreeMap::new();
    let mut told = Told::default();
    for line in day.split(|&byte| byte == b'\n') {
        session.line(line);
        let given = std::mem::take(session.answers());
        let (_, fields) = read(line);
        for answer in given.split(|&byte| byte == b'\n') {
            match (read(answer), &fields[..]) {
                ((b"open", _), &[_, m, p, st, sc, r, ..]) => {
                    costs = Costs::new(m, p, st, sc, r);
                }
                ((b"yes", yes), &[_, _, _, ref own @ ..]) => {
                    computes.insert(yes[0], own.first().copied().unwrap_or(costs.compute));
                }
                ((b"chunk", chunk), _) => told.look(&chunk, costs, computes[&chunk[0]]),
                _ => {}
            }
        }
    }
    told
}

/// On many random days the number differs from the finish, and own costs, dearer and
/// cheaper ones, make a difference.
#[test]
fn random_days_show_the_end_of_computing() {
    for days in [day as fn(u64) -> Vec<u8>, tiny_day] {
        let all: Vec<Told> = (0..400).map(days).map(|day| told(&day)).collect();
        let count = |tells: fn(&Told) -> bool| all.iter().filter(|day| tells(day)).count();
        let way_back = count(|day| day.way_back);
        assert!(way_back > 240, "only {way_back} days");
        let dearer = count(|day| day.dearer);
        assert!(dearer > 90, "only {dearer} days");
        let cheaper = count(|day| day.cheaper);
        assert!(cheaper > 60, "only {cheaper} days");
    }
}
