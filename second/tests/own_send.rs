//! A node is charged from its own send, request (vi) of document 02.

mod common;

use common::{check, tabs};
use second::days::{day, tiny_day};
use second::exhaustive::Exhaustive;
use second::farm::{Farm, Offer};
use second::job::Record;
use second::limits::*;
use second::program::{answers_by, Session};
use second::quick::Quick;
use second::random::Random;
use second::refusal::Refusal;
use second::share::Costs;
use second::text::read_line;
use std::collections::BTreeMap;

/// By the quick walk and by trying everything.
fn check_both(day: &str, expected: &str) {
    check(day, expected);
    let tried = answers_by::<Exhaustive>(&tabs(day));
    assert_eq!(tried, tabs(expected));
}

/// Every cost counts. A chunk takes 3 + 5 ticks before its first unit and 1 + 2 + 4
/// for each.
///
/// 4 units by 26: one node holds 2 of them, two hold 2 + 1, three 2 + 1 + 1. 24 ticks
/// do too and 23 do not. The sends end at 5, 9 and 13, computing at 5 + 9 = 14,
/// 9 + 7 = 16 and 13 + 7 = 20, and the audio is back at 22, 20 and 24.
///
/// Held are 22 - 0, 20 - 5 and 24 - 9, in all 52: three setups of 8 and four units of
/// 7. From the job's start it would be 22 + 20 + 24 = 66, from the sends' ends 17 +
/// 11 + 11 = 39, up to the job's finish 24 + 19 + 15 = 58, without SC 37, without ST
/// 43 and without the way back 36.
///
/// Charged is what lies above the allowance, and nothing where that is met.
#[test]
fn a_chunk_holds_its_node_from_its_own_send() {
    for (allowance, charged) in [(0, 52), (22, 30), (51, 1), (52, 0), (53, 0), (66, 0)] {
        check_both(
            &format!("farm 3 1 2 3 5 4 {allowance}\njob 1 4 26\naccount 1\nclock 0\naccount 1\n"),
            &format!(
                "open 3 1\nyes 1 0 24 3\naccount 1 0 0\n\
                 chunk 1 1 1 2 0 5 22 14\nchunk 1 1 2 1 5 9 20 16\nchunk 1 1 3 1 9 13 24 20\n\
                 clock 0 3\naccount 1 52 {charged}\n"
            ),
        );
    }
}

/// The setups are 1 + 2 and r is 3. At p = 2 a unit takes 6 ticks, at the farm's
/// p = 4 it takes 8.
///
/// Job 1, 3 units by 20 at p = 2: one node would end at 21. On two the shares 2 and 1
/// are sent by 3 and 5 and back at 3 + 6 + 6 = 15 and 5 + 4 + 3 = 12. Held are 15 and
/// 12 - 3: two setups of 3 and three units of 6.
///
/// Job 2, 3 units by 38 at p = 4: one node takes 27 ticks, and the first is free at
/// 12. On both from 15 node 2 has 2 units until 15 + 19 = 34. Node 1 has 1 unit, sent
/// from 18 to 20 and back at 20 + 6 + 3 = 29. Held are 19 and 29 - 18: two setups of 3
/// and three units of 8.
///
/// At the farm's p show 1 would hold 30 as well; from the jobs' starts the shows would
/// hold 27 and 33.
#[test]
fn a_job_of_its_own_cost_holds_less() {
    check_both(
        "farm 2 1 4 1 2 3 24 24\njob 1 3 20 2\njob 2 3 38\nclock 15\naccount 1\naccount 2\n",
        "open 2 2\nyes 1 0 15 2\nyes 2 15 34 2\n\
         chunk 1 1 1 2 0 3 15 9\nchunk 1 1 2 1 3 5 12 9\n\
         chunk 2 2 2 2 15 18 34 28\nchunk 2 2 1 1 18 20 29 26\nclock 15 4\n\
         account 1 24 0\naccount 2 30 6\n",
    );
}

/// Windows A, C and D one behind the other: 10 units on one node, on two, on three.
/// Without setups equal jobs hold the same on any number of nodes: 30, 18 + 12 and
/// 15 + 9 + 6. From the jobs' starts it would be 30, 36 and 43.
#[test]
fn equal_jobs_hold_the_same_on_any_number_of_nodes() {
    check_both(
        "farm 3 1 2 0 0 0 30 30 30\njob 1 10 30\nclock 30\njob 2 10 48\nclock 48\n\
         job 3 10 65\nclock 48\naccount 1\naccount 2\naccount 3\n",
        "open 3 3\nyes 1 0 30 1\nchunk 1 1 1 10 0 10 30 30\nclock 30 1\n\
         yes 2 30 48 2\nchunk 2 2 2 6 30 36 48 48\nchunk 2 2 3 4 36 40 48 48\nclock 48 2\n\
         yes 3 48 63 3\nchunk 3 3 1 5 48 53 63 63\nchunk 3 3 2 3 53 56 62 62\n\
         chunk 3 3 3 2 56 58 62 62\nclock 48 3\n\
         account 1 30 0\naccount 2 30 0\naccount 3 30 0\n",
    );
}

/// Windows H and I: 3 units on one node hold 12. On two they hold 9 and 22 - 16, 15 in
/// all: one node more adds its setups, 2 + 1. From the job's start it would be 19.
#[test]
fn a_node_more_adds_its_setups() {
    check_both(
        "farm 3 1 2 2 1 0 12 12\njob 1 3 12\nclock 12\njob 2 3 22\nclock 12\n\
         account 1\naccount 2\n",
        "open 3 2\nyes 1 0 12 1\nchunk 1 1 1 3 0 5 12 12\nclock 12 1\n\
         yes 2 12 22 2\nchunk 2 2 2 2 12 16 21 21\nchunk 2 2 3 1 16 19 22 22\nclock 12 2\n\
         account 1 12 0\naccount 2 15 3\n",
    );
}

/// One move issues both jobs. The link is idle from 10 to 18, and job 2's first send
/// starts with the job at 18: both hold 18 + 12. From the end of the send before job 2
/// would hold 38, from the first start of the move 72.
#[test]
fn the_first_send_starts_with_its_job() {
    let day = "job 1 10 18\njob 2 10 36\nclock 18\naccount 1\naccount 2\n";
    let lines = "yes 1 0 18 2\nyes 2 18 36 2\n\
        chunk 1 1 1 6 0 6 18 18\nchunk 1 1 2 4 6 10 18 18\n\
        chunk 2 2 1 6 18 24 36 36\nchunk 2 2 2 4 24 28 36 36\nclock 18 4\n";
    check_both(
        &format!("farm 2 1 2 0 0 0 30 29\n{day}"),
        &format!("open 2 2\n{lines}account 1 30 0\naccount 2 30 1\n"),
    );
}

/// The same jobs of one show, begun by two moves: the sum goes on.
#[test]
fn held_ticks_add_up_over_moves() {
    check_both(
        "farm 2 1 2 0 0 0 30\njob 1 10 18\njob 1 10 36\nclock 17\naccount 1\n\
         clock 18\naccount 1\nclock 36\naccount 1\n",
        "open 2 1\nyes 1 0 18 2\nyes 2 18 36 2\n\
         chunk 1 1 1 6 0 6 18 18\nchunk 1 1 2 4 6 10 18 18\nclock 17 2\naccount 1 30 0\n\
         chunk 2 1 1 6 18 24 36 36\nchunk 2 1 2 4 24 28 36 36\nclock 18 2\naccount 1 60 30\n\
         clock 36 0\naccount 1 60 30\n",
    );
}

/// Node spans still begin at the job's start, so a node is not free while it waits for
/// its send.
///
/// Job 1, 10 units by 20, is booked as in case B: from 0 to 18 on both nodes. 1 unit by
/// 3 takes node 1 until 3, and job 1 must wait for both nodes until then: it would end
/// at 21. Refused. Were node 1 job 1's from its send on only, job 1 could begin on node
/// 2 at 1, reach node 1 at 7 and end at 19.
///
/// Behind job 1 the unit ends at 21, and by 20 it is refused.
#[test]
fn a_node_that_waits_for_its_send_is_not_free() {
    check_both(
        "farm 2 1 2 0 0 0 0\njob 1 10 20\nquote 1 1 3\njob 1 1 3\nquote 1 1 20\n\
         job 1 1 21\nclock 18\naccount 1\n",
        "open 2 1\nyes 1 0 18 2\nno 8\nno 8\nno 8\nyes 2 18 21 1\n\
         chunk 1 1 1 6 0 6 18 18\nchunk 1 1 2 4 6 10 18 18\nchunk 2 1 1 1 18 19 21 21\nclock 18 3\n\
         account 1 33 33\n",
    );
}

/// The same with the small job first, waiting or begun: 10 units by 20 are refused, and
/// by 21 they start at 3, though node 1 has its send only from 9 on.
#[test]
fn a_job_waits_for_the_node_of_its_last_chunk() {
    check_both(
        "farm 2 1 2 0 0 0 33\njob 1 1 3\njob 1 10 20\njob 1 10 21\nclock 3\naccount 1\n",
        "open 2 1\nyes 1 0 3 1\nno 8\nyes 2 3 21 2\nchunk 1 1 1 1 0 1 3 3\n\
         chunk 2 1 2 6 3 9 21 21\nchunk 2 1 1 4 9 13 21 21\nclock 3 3\naccount 1 33 0\n",
    );
    check_both(
        "farm 2 1 2 0 0 0 33\njob 1 1 3\nclock 1\naccount 1\njob 1 10 20\njob 1 10 21\n\
         clock 3\naccount 1\n",
        "open 2 1\nyes 1 0 3 1\nchunk 1 1 1 1 0 1 3 3\nclock 1 1\naccount 1 3 0\n\
         no 8\nyes 2 3 21 2\n\
         chunk 2 1 2 6 3 9 21 21\nchunk 2 1 1 4 9 13 21 21\nclock 3 2\naccount 1 33 0\n",
    );
}

/// Job 1 is withdrawn before it begins. Job 2, 10 units by 38, was booked behind it:
/// node 3 alone holds 9 units from 10 on, so it has nodes 3 and 1 from 18. It stays
/// there and holds 18 and 36 - 24.
#[test]
fn a_withdrawn_job_holds_nothing() {
    check_both(
        "farm 3 1 2 0 0 0 0 0\njob 1 10 18\njob 2 10 38\nquote 1 10 100\nwithdraw 1\n\
         clock 18\naccount 1\naccount 2\n",
        "open 3 2\nyes 1 0 18 2\nyes 2 18 36 2\nquote 3 28 58 1\ngone 1\n\
         chunk 2 2 3 6 18 24 36 36\nchunk 2 2 1 4 24 28 36 36\nclock 18 2\n\
         account 1 0 0\naccount 2 30 30\n",
    );
}

#[test]
fn a_refused_move_holds_nothing() {
    let mut farm = Farm::<Quick>::open(3, Costs::new(1, 2, 0, 0, 0), &[30]).unwrap();
    farm.offer(Offer::new(1, 10, 18)).unwrap();
    let mut lines = [Record::default(); 2];
    let full = Err(Refusal::TimetableFull);
    assert_eq!(farm.move_clock(0, &mut lines[..1]), full);
    assert_eq!(farm.account(1).unwrap().held, 0);
    assert_eq!(farm.move_clock(0, &mut lines), Ok(2));
    let account = farm.account(1).unwrap();
    assert_eq!((account.held, account.charged), (30, 0));
}

/// 1,000,000 units are one too many for a node by the last tick, so each job takes two
/// or more. 63 of them nearly fill the 64 nodes; without setups they hold
/// 1,000,000 * 1,000,001 each, whatever their shares.
#[test]
fn held_ticks_close_to_their_limit() {
    let costs = Costs::new(1, MOST_COMPUTE_COST, 0, 0, 0);
    let mut farm = Farm::<Quick>::open(64, costs, &[LAST_TICK]).unwrap();
    for _ in 0..63 {
        let yes = farm.offer(Offer::new(1, MOST_UNITS, LAST_TICK)).unwrap();
        assert!(yes.nodes > 1);
    }
    let mut lines = [Record::default(); LENT_RECORDS];
    farm.move_clock(LAST_TICK, &mut lines).unwrap();
    let account = farm.account(1).unwrap();
    assert_eq!(account.held, 63_000_063_000_000);
    assert_eq!(account.charged, 62_000_063_000_000);
}

/// What the costs make of an issued line, without looking at its times.
fn setups_and_units(costs: Costs, compute: u64, line: &Record) -> u64 {
    let unit = costs.send + compute + costs.return_cost;
    costs.link_setup + costs.node_setup + line.units * unit
}

/// On random farms the held ticks are the setups and the units' ticks of what was
/// issued.
#[test]
fn held_ticks_are_setups_and_units() {
    let mut chunks_behind = 0;
    for seed in 0..300 {
        let mut random = Random::new(seed);
        let [m, p, st, sc, r] = [9, 60, 9, 20, 30].map(|most| random.between(1, most));
        let costs = Costs::new(m, p, st, sc, r);
        let mut farm = Farm::<Quick>::open(random.between(1, 9), costs, &[0, 0]).unwrap();
        // By job number, from 1.
        let mut computes = vec![0];
        let mut held = [0; 2];
        for _ in 0..40 {
            let own = random.between(1, 60);
            let compute = random.once_in(2).then_some(own);
            let (show, size) = (random.between(1, 2), random.between(1, 60));
            let deadline = farm.clock() + random.between(50, 3_000);
            let offer = Offer::new(show, size, deadline).with_compute(compute);
            if farm.offer(offer).is_ok() {
                computes.push(compute.unwrap_or(p));
            }
            let time = farm.clock() + random.between(0, 200);
            let mut lines = [Record::default(); LENT_RECORDS];
            let issued = farm.move_clock(time, &mut lines).unwrap();
            for line in &lines[..issued] {
                let compute = computes[line.job as usize];
                held[line.show as usize - 1] += setups_and_units(costs, compute, line);
            }
            let pairs = lines[..issued].windows(2);
            chunks_behind += pairs.filter(|pair| pair[0].job == pair[1].job).count();
            let accounts = [1, 2].map(|show| farm.account(show).unwrap().held);
            assert_eq!(accounts, held, "seed {seed}");
        }
    }
    assert!(chunks_behind > 2_000, "only {chunks_behind} chunks");
}

/// The word and the numbers of an answer. A sum of held ticks may have more digits
/// than a number of a line.
fn read_answer(answer: &[u8]) -> (&str, Vec<u64>) {
    let mut fields = std::str::from_utf8(answer).unwrap().split('\t');
    let word = fields.next().unwrap();
    (word, fields.map(|field| field.parse().unwrap()).collect())
}

/// What was issued to one show: each chunk's job's start, its send's start and its
/// finish.
type Issued = Vec<[u64; 3]>;

/// Adds the chunks of one move's answers to the shows'.
fn add_issued(issued: &mut BTreeMap<u64, Issued>, answers: &[(&str, Vec<u64>)]) {
    let mut starts = BTreeMap::new();
    for (_, chunk) in answers.iter().filter(|(word, _)| *word == "chunk") {
        let (job, show, send_start, finish) = (chunk[0], chunk[1], chunk[4], chunk[6]);
        let start = *starts.entry(job).or_insert(send_start);
        let times = [start, send_start, finish];
        issued.entry(show).or_default().push(times);
    }
}

/// What the accounts of a day show.
#[derive(Default)]
struct Shown {
    /// One holds less than by the job's start.
    own_send: bool,
    /// One holds just its allowance.
    used_up: bool,
    /// One is charged nothing and would be by the job's start.
    spared: bool,
}

impl Shown {
    /// An account is the sum over the lines issued before it.
    fn look(&mut self, held: u64, charged: u64, allowance: u64, issued: &Issued) {
        let sum_from = |place: usize| -> u64 {
            let ticks = issued.iter().map(|times| times[2] - times[place]);
            ticks.sum()
        };
        let (by_start, by_send) = (sum_from(0), sum_from(1));
        assert_eq!(held, by_send);
        assert_eq!(charged, held.saturating_sub(allowance));
        self.own_send |= held < by_start;
        self.used_up |= held > 0 && held == allowance;
        self.spared |= charged == 0 && by_start > allowance;
    }
}

fn shown(day: &[u8]) -> Shown {
    let mut session = Session::<Quick>::default();
    let mut opening = Vec::new();
    let mut issued = BTreeMap::new();
    let mut shown = Shown::default();
    for line in day.split(|&byte| byte == b'\n') {
        session.line(line);
        let given = std::mem::take(session.answers());
        let answers = given.split(|&byte| byte == b'\n');
        let answers: Vec<_> = answers.map(read_answer).collect();
        add_issued(&mut issued, &answers);
        match &answers[0] {
            ("open", _) => drop(read_line(line, &mut opening)),
            ("account", account) => {
                let (show, held, charged) = (account[0], account[1], account[2]);
                // Six numbers stand before the allowances.
                let allowance = opening[5 + show as usize];
                shown.look(held, charged, allowance, issued.entry(show).or_default());
            }
            _ => {}
        }
    }
    shown
}

/// On many random days the accounts tell the request from the rule before it, and
/// allowances are close to what is held.
#[test]
fn random_days_show_the_own_send() {
    for days in [day as fn(u64) -> Vec<u8>, tiny_day] {
        let all: Vec<Shown> = (0..400).map(days).map(|day| shown(&day)).collect();
        let count = |shows: fn(&Shown) -> bool| all.iter().filter(|day| shows(day)).count();
        let own_send = count(|day| day.own_send);
        assert!(own_send > 160, "only {own_send} days");
        let used_up = count(|day| day.used_up);
        assert!(used_up > 70, "only {used_up} days");
        let spared = count(|day| day.spared);
        assert!(spared > 40, "only {spared} days");
    }
}
