//! Encoded audio takes time to come back, request (iii) of document 02.

mod common;

use common::{check, read, tabs};
use second::days::{day, tiny_day};
use second::exhaustive::Exhaustive;
use second::farm::{Farm, Offer};
use second::job::Record;
use second::limits::*;
use second::program::{answers, answers_by, Session};
use second::quick::Quick;
use second::share::Costs;
use second::text;

/// The paper's listing with r = 1 and later deadlines: a unit takes 1 tick on the
/// link and 3 behind it.
const LISTING: &str = "farm 3 1 2 0 0 1 30 0\n\
    job 1 10 18\n\
    job 1 10 20\n\
    job 2 3 30\n\
    job 2 2 12\n\
    clock 16\n\
    account 1\n\
    account 2\n";

/// Worked by hand.
///
/// 10 units by 18: 18 ticks hold 4, the 14 left 3 and the 11 left 2, one too few.
/// Without the way back two nodes would do, case C. By 20: two nodes hold 5 + 3,
/// three hold 5 + 3 + 3. 19 ticks hold 4 + 3 + 3 and 18 only 9, so the sends end at
/// 4, 7 and 10, computing at 4 + 8 = 12, 7 + 6 = 13 and 10 + 6 = 16, and the audio is
/// back at 12 + 4 = 16, 13 + 3 = 16 and 16 + 3 = 19.
///
/// Job 2, 3 units by 30, waits for node 1 until 16: its send ends at 19, computing
/// at 25, and the audio is back at 28.
///
/// 2 units by 12 would be back at 8. Job 1 then has 18 ticks from 2 on, too few.
///
/// From the sends on show 1 holds 16 + 12 + 12 = 40, 10 above its 30. Show 2 holds 12.
const LISTING_ANSWERS: &str = "open 3 2\n\
    no 8\n\
    yes 1 0 19 3\n\
    yes 2 16 28 1\n\
    no 8\n\
    chunk 1 1 1 4 0 4 16 12\n\
    chunk 1 1 2 3 4 7 16 13\n\
    chunk 1 1 3 3 7 10 19 16\n\
    chunk 2 2 1 3 16 19 28 25\n\
    clock 16 4\n\
    account 1 40 10\n\
    account 2 12 12\n";

#[test]
fn the_listing_with_a_way_back() {
    check(LISTING, LISTING_ANSWERS);
}

/// The same by trying everything.
#[test]
fn the_exhaustive_walk_answers_alike() {
    let given = answers_by::<Exhaustive>(&tabs(LISTING));
    assert_eq!(given, tabs(LISTING_ANSWERS));
}

/// While 100 ticks of audio come back from node 1 the link sends to node 2, and
/// both come back at once. The nodes are free when that is over.
#[test]
fn audio_comes_back_beside_the_link() {
    check(
        "farm 2 1 1 0 0 100 0\njob 1 1 102\njob 1 1 103\njob 1 1 204\njob 1 1 300\n\
         clock 0\nclock 1\n",
        "open 2 1\nyes 1 0 102 1\nyes 2 1 103 1\nyes 3 102 204 1\nyes 4 103 205 1\n\
         chunk 1 1 1 1 0 1 102 2\nclock 0 1\nchunk 2 1 2 1 1 2 103 3\nclock 1 1\n",
    );
    // The same for two chunks of one job.
    check(
        "farm 2 1 1 0 0 100 0\njob 1 2 102\njob 1 2 103\nclock 0\n",
        "open 2 1\nno 8\nyes 1 0 103 2\n\
         chunk 1 1 1 1 0 1 102 2\nchunk 1 1 2 1 1 2 103 3\nclock 0 2\n",
    );
}

/// 4 units: 10 + 4 * 2 on the link, 20 + 4 * 3 on the node, 4 * 5 back.
#[test]
fn r_counts_once_a_unit() {
    check(
        "farm 1 2 3 10 20 5 0\njob 1 4 69\njob 1 4 70\nclock 0\naccount 1\n",
        "open 1 1\nno 8\nyes 1 0 70 1\nchunk 1 1 1 4 0 18 70 50\nclock 0 1\naccount 1 70 70\n",
    );
}

/// One unit takes the node for 1 + 1 + 2 ticks, so the next starts 4 ticks later,
/// behind a waiting job as behind a begun one, and each adds 4 to the held ticks.
#[test]
fn free_times_and_held_ticks_include_the_way_back() {
    check(
        "farm 1 1 1 0 0 2 10\njob 1 1 4\njob 1 1 7\njob 1 1 8\nclock 3\naccount 1\n\
         clock 4\naccount 1\njob 1 1 11\njob 1 1 12\nclock 8\naccount 1\n",
        "open 1 1\nyes 1 0 4 1\nno 8\nyes 2 4 8 1\n\
         chunk 1 1 1 1 0 1 4 2\nclock 3 1\naccount 1 4 0\n\
         chunk 2 1 1 1 4 5 8 6\nclock 4 1\naccount 1 8 0\n\
         no 8\nyes 3 8 12 1\nchunk 3 1 1 1 8 9 12 10\nclock 8 1\naccount 1 12 2\n",
    );
}

/// 2 units at p = 2 take 2 + 2 * (2 + 3) = 12 ticks, at the farm's p = 4 they take
/// 2 + 2 * (4 + 3) = 16.
#[test]
fn own_compute_costs_have_the_farms_way_back() {
    check(
        "farm 1 1 4 0 0 3 0\njob 1 2 11 2\njob 1 2 12 2\njob 1 2 27\njob 1 2 28\n\
         job 1 1 28 0\nclock 12\naccount 1\n",
        "open 1 1\nno 8\nyes 1 0 12 1\nno 8\nyes 2 12 28 1\n\
         no 2\nchunk 1 1 1 2 0 2 12 6\nchunk 2 1 1 2 12 14 28 22\nclock 12 2\naccount 1 28 28\n",
    );
}

/// Only because of the way back an old job fails in the walk behind a withdrawal.
/// A unit takes 3 ticks of a window and leaves 1 less for the next node.
///
/// Job 1 takes node 1 until 3. Job 2, 4 units by 12, has 11 ticks on node 2 alone,
/// which hold 3, so it takes both from 3: 8 ticks hold 2 + 2, and the nodes are free
/// at 9 and 11. Job 3, 7 units by 24, takes both from 11: 13 ticks hold 4 + 3.
///
/// Without job 1 a walk books job 2 on node 1 from 0 to 12. Job 3 then has node 2
/// from 4, where 20 ticks hold 6, or both from 12, where 12 ticks hold 4 + 2.
///
/// The chunks as booked with job 1 hold 6 + 6 and 12 + 9.
#[test]
fn an_old_job_fails_because_of_the_way_back() {
    let lines = "job 1 1 3\njob 1 4 12\njob 1 7 24\nwithdraw 1\njob 1 1 1000\nclock 11\n";
    check(
        &format!("farm 2 1 1 0 0 1 0\n{lines}account 1\n"),
        "open 2 1\nyes 1 0 3 1\nyes 2 3 11 2\nyes 3 11 24 2\ngone 1\nno 8\n\
         chunk 2 1 2 2 3 5 9 7\nchunk 2 1 1 2 5 7 11 9\n\
         chunk 3 1 2 4 11 15 23 19\nchunk 3 1 1 3 15 18 24 21\nclock 11 4\n\
         account 1 33 33\n",
    );
    // With r = 0 each job takes one node, and the offer is taken.
    check(
        &format!("farm 2 1 1 0 0 0 0\n{lines}"),
        "open 2 1\nyes 1 0 2 1\nyes 2 1 9 1\nyes 3 5 19 1\ngone 1\nyes 4 11 13 1\n\
         chunk 2 1 1 4 0 4 8 8\nchunk 3 1 2 7 4 11 18 18\nchunk 4 1 1 1 11 12 13 13\nclock 11 3\n",
    );
}

/// The limits of p are for p alone, of the farm and of a job.
#[test]
fn p_has_its_limits_without_r() {
    check(
        "farm 1 1 1000000 0 0 10000 0\njob 1 1 1010000\njob 1 1 1010001\nclock 0\n\
         job 1 1 2020001 1000000\njob 1 1 2020002 1000000\njob 1 1 9999999 1000001\n\
         job 1 1 9999999 990001\n",
        "open 1 1\nno 8\nyes 1 0 1010001 1\nchunk 1 1 1 1 0 1 1010001 1000001\nclock 0 1\n\
         no 8\nyes 2 1010001 2020002 1\nno 2\nyes 3 2020002 3020004 1\n",
    );
}

/// Two nodes: with 502,464 units the first has its audio back at 2,000,000 +
/// 502,464 * 1,020,000 = 512,515,280,000. The second send ends at 2,000,000 +
/// 1,000,000 * 10,000, its audio is back 1,000,000 + 497,536 * 1,010,000 later, at
/// 512,514,360,000. With one unit less on the first the second ends at
/// 512,515,370,000. Computing ends 502,464 * 10,000 = 5,024,640,000 before the first
/// finish and 4,975,360,000 before the second. The chunks hold twice the setups and the
/// units' ticks: 4,000,000 + 1,000,000 * 1,020,000.
///
/// One node holds 980,390 units in the 10^12 ticks: 2,000,000 + 980,390 *
/// 1,020,000 = 999,999,800,000. For one unit more two nodes are needed; the first
/// takes 492,611 units, back at 2,000,000 + 492,611 * 1,020,000.
#[test]
fn the_greatest_figures() {
    let farm = "farm 2 10000 1000000 1000000 1000000 10000 1000000000000\n";
    check(
        &format!("{farm}job 1 1000000 1000000000000\nclock 0\naccount 1\n"),
        "open 2 1\nyes 1 0 512515280000 2\n\
         chunk 1 1 1 502464 0 5025640000 512515280000 507490640000\n\
         chunk 1 1 2 497536 5025640000 10002000000 512514360000 507539000000\nclock 0 2\n\
         account 1 1020004000000 20004000000\n",
    );
    check(
        &format!("{farm}job 1 980390 1000000000000\n"),
        "open 2 1\nyes 1 0 999999800000 1\n",
    );
    check(
        &format!("{farm}job 1 980391 1000000000000\n"),
        "open 2 1\nyes 1 0 502465220000 2\n",
    );
}

#[test]
fn openings_are_refused_in_order() {
    let shows = |count| " 7".repeat(count);
    let check = |line: &str, answer: &str| check(line, &format!("{answer}\n"));
    check("farm 1 1 1 0 0 10000 7", "open 1 1");
    // r among the costs, whatever else is wrong behind it.
    check("farm 1 1 1 0 0 10001 7", "no 2");
    check("farm 1 1 1 0 0 9999999999999 7", "no 2");
    check("farm 1 1 1 0 0 10001", "no 2");
    check("farm 1 1 1 0 0 10001 1000000000001", "no 2");
    check(&format!("farm 1 1 1 0 0 10001{}", shows(33)), "no 2");
    // The nodes before r.
    check("farm 0 1 1 0 0 10001", "no 1");
    check("farm 65 1 1 0 0 10001 7", "no 1");
    // Six numbers are readable, and more than 38 too.
    check("farm 1 1 1 0 0 10000", "no 3");
    check(&format!("farm 1 1 1 0 0 10000{}", shows(32)), "open 1 32");
    check(&format!("farm 1 1 1 0 0 10000{}", shows(33)), "no 3");
    check(&format!("farm 1 1 1 0 0 10000{}", shows(400)), "no 3");
    // Five numbers or fewer are another shape, whatever is wrong with them.
    for line in ["farm 1 1 1 0 0", "farm 0 0 0 0 0", "farm 65 1 1 0", "farm"] {
        check(line, "no 11");
    }
    // So is an r that is no number of 1 to 13 digits.
    for r in ["", "x", "-1", "+1", "1.0", "00000000000001"] {
        check(&format!("farm 1 1 1 0 0 {r} 7"), "no 11");
    }
    check("farm 1 1 1 0 0 0000000010000 7", "open 1 1");
    check("farm 1 1 1 0 0 0000000010001 7", "no 2");
    // A line from before the request has one show fewer.
    check("farm 3 1 2 0 0 30 0", "open 3 1");
}

#[test]
fn a_refused_return_cost_leaves_no_farm() {
    check(
        "farm 1 1 1 0 0 10001 7\naccount 1\nfarm 1 1 1 0 0\nfarm 1 1 1 0 0 9 7\n\
         job 1 1 11\nfarm 1 1 1 0 0\nfarm 1 1 1 0 0 10001 7\n",
        "no 2\nno 11\nno 11\nopen 1 1\nyes 1 0 11 1\nno 11\nno 11\n",
    );
}

/// Every line that is ever booked is sent, then computed, then comes back.
#[test]
fn lines_take_what_the_costs_say() {
    let costs = Costs::new(3, 20, 2, 5, 11);
    let mut farm = Farm::<Quick>::open(5, costs, &[0]).unwrap();
    let mut lines = [Record::default(); LENT_RECORDS];
    // By job number, from 1.
    let mut computes = vec![0];
    for turn in 0..200 {
        let compute = (turn % 3 > 0).then_some(1 + turn * 7 % 45);
        let deadline = farm.clock() + 200 + turn * 37 % 500;
        let offer = Offer::new(1, 1 + turn % 9, deadline).with_compute(compute);
        if farm.offer(offer).is_ok() {
            computes.push(compute.unwrap_or(costs.compute));
        }
        let count = farm.show_waiting(&mut lines).unwrap();
        assert!(lines[..count].iter().all(|line| {
            let send_end = line.send_start + 2 + line.units * 3;
            let compute_end = send_end + 5 + line.units * computes[line.job as usize];
            line.send_end == send_end
                && line.compute_end == compute_end
                && line.finish == compute_end + line.units * 11
        }));
        if turn % 4 == 0 {
            let time = farm.clock() + 80;
            farm.move_clock(time, &mut lines).unwrap();
        }
    }
    assert!(computes.len() > 100, "only {} jobs", computes.len());
}

/// A day's lines, and the place of the one that opens its farm.
fn lines_and_opening(day: &[u8]) -> (Vec<Vec<u8>>, Option<usize>) {
    let lines: Vec<Vec<u8>> = day.split(|&byte| byte == b'\n').map(Vec::from).collect();
    let mut session = Session::<Quick>::default();
    let opening = lines.iter().position(|line| {
        session.line(line);
        session.farm().is_some()
    });
    (lines, opening)
}

/// The day with another r; none if it opens no farm.
fn with_return(day: &[u8], return_cost: u64) -> Option<Vec<u8>> {
    let (mut lines, opening) = lines_and_opening(day);
    let opening = &mut lines[opening?];
    let (_, mut numbers) = read(opening);
    numbers[5] = return_cost;
    *opening = text::line(b"farm", &numbers);
    Some(lines.join(&b'\n'))
}

/// The day and the same with r = 0 and every p dearer by r, both without the
/// offers and quotes whose p would be too dear, and r; none if the farm's p would be
/// too dear, or r is 0.
fn with_dearer_compute(day: &[u8]) -> Option<(Vec<u8>, Vec<u8>, u64)> {
    let (lines, opening) = lines_and_opening(day);
    let opening = opening?;
    let (_, mut numbers) = read(&lines[opening]);
    let return_cost = std::mem::take(&mut numbers[5]);
    numbers[2] += return_cost;
    if return_cost == 0 || numbers[2] > MOST_COMPUTE_COST {
        return None;
    }
    let mut kept = lines[..=opening].to_vec();
    let mut dearer = lines[..opening].to_vec();
    dearer.push(text::line(b"farm", &numbers));
    for line in &lines[opening + 1..] {
        match read(line) {
            (kind @ (b"job" | b"quote"), numbers)
                if numbers.len() == 4 && is_compute_cost(numbers[3]) =>
            {
                let own = numbers[3] + return_cost;
                if is_compute_cost(own) {
                    kept.push(line.clone());
                    dearer.push(text::line(kind, &[&numbers[..3], &[own]].concat()));
                }
            }
            _ => {
                kept.push(line.clone());
                dearer.push(line.clone());
            }
        }
    }
    Some((kept.join(&b'\n'), dearer.join(&b'\n'), return_cost))
}

fn is_compute_cost(ticks: u64) -> bool {
    (1..=MOST_COMPUTE_COST).contains(&ticks)
}

/// The answers to a day with each chunk's way back counted as computing.
fn answers_with_way_back_computed(day: &[u8], return_cost: u64) -> Vec<u8> {
    let given = answers(day);
    let lines = given
        .split(|&byte| byte == b'\n')
        .map(|line| match read(line) {
            (b"chunk", mut numbers) => {
                numbers[7] += numbers[3] * return_cost;
                text::line(b"chunk", &numbers)
            }
            _ => line.to_vec(),
        });
    lines.collect::<Vec<_>>().join(&b'\n')
}

/// Only the end of computing tells them apart: a dearer p moves it to the finish.
#[test]
fn r_is_answered_as_a_dearer_p() {
    let mut compared = 0;
    for day in (0..120).map(day).chain((0..120).map(tiny_day)) {
        if let Some((kept, dearer, return_cost)) = with_dearer_compute(&day) {
            let expected = answers_with_way_back_computed(&kept, return_cost);
            assert!(expected == answers(&dearer), "{}", day.escape_ascii());
            compared += 1;
        }
    }
    assert!(compared > 150, "only {compared} days");
}

#[test]
fn tiny_days_with_any_return_cost_are_answered_alike() {
    for seed in 2_000..2_200 {
        let day = with_return(&tiny_day(seed), 1 + seed % 6).unwrap();
        let tried = answers_by::<Exhaustive>(&day);
        assert_eq!(answers(&day), tried, "seed {seed}: {}", day.escape_ascii());
    }
}

/// On two of three random days, at least, r makes a difference.
#[test]
fn most_random_days_show_the_way_back() {
    for days in [day as fn(u64) -> Vec<u8>, tiny_day] {
        let shows = |day: &Vec<u8>| {
            let without = with_return(day, 0);
            without.is_some_and(|without| answers(&without) != answers(day))
        };
        let count = (0..120).map(days).filter(shows).count();
        assert!(count >= 80, "only {count} days");
    }
}
