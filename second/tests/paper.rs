//! The paper's listing, its windows A to M, and every refusal.

mod common;

use common::{check, tabs};
use second::farm::{Accepted, Farm, Offer};
use second::job::Record;
use second::program::answers;
use second::quick::Quick;
use second::refusal::Refusal;
use second::share::Costs;

const LISTING: &str = "farm 3 1 2 0 0 0 30 0\njob 1 10 18\njob 2 3 20\njob 2 2 12\n\
    clock 10\naccount 1\naccount 2\n";

/// By request (vi) show 1 holds 18 and 18 - 6, just its 30.
/// By (vii) a chunk's last number is its end of computing, with r = 0 its finish.
const LISTING_ANSWERS: &str = "open 3 2\nyes 1 0 18 2\nyes 2 10 19 1\nno 8\n\
    chunk 1 1 1 6 0 6 18 18\nchunk 1 1 2 4 6 10 18 18\nchunk 2 2 3 3 10 13 19 19\n\
    clock 10 3\naccount 1 30 0\naccount 2 9 9\n";

#[test]
fn listing() {
    check(LISTING, LISTING_ANSWERS);
}

/// Costs, size and deadline of a job alone on three nodes, then its finish and
/// shares; none where it is refused.
type Window = ([u64; 4], u64, u64, Option<(u64, &'static [u64])>);

#[test]
fn windows_a_to_j() {
    let plain = [1, 2, 0, 0];
    let slow = [10, 20, 0, 0];
    let setups = [1, 2, 2, 1];
    let windows: [Window; 10] = [
        (plain, 10, 30, Some((30, &[10]))),
        (plain, 10, 29, Some((18, &[6, 4]))),
        (plain, 10, 18, Some((18, &[6, 4]))),
        (plain, 10, 17, Some((15, &[5, 3, 2]))),
        (plain, 10, 14, None),
        (slow, 4, 80, Some((80, &[2, 2]))),
        (slow, 4, 75, Some((60, &[2, 1, 1]))),
        (setups, 3, 12, Some((12, &[3]))),
        (setups, 3, 10, Some((10, &[2, 1]))),
        (setups, 3, 9, None),
    ];
    for (case, (costs, size, deadline, expected)) in ('A'..).zip(windows) {
        let mut farm = open(3, costs);
        let answer = farm.offer(Offer::new(1, size, deadline));
        let Some((finish, shares)) = expected else {
            assert_eq!(answer, Err(Refusal::NotBookable), "case {case}");
            continue;
        };
        let yes = accepted(1, 0, finish, shares.len());
        assert_eq!(answer, Ok(yes), "case {case}");
        let mut lines = [Record::default(); 3];
        let count = farm.show_waiting(&mut lines).unwrap();
        let units: Vec<u64> = lines[..count].iter().map(|line| line.units).collect();
        assert_eq!(units, shares, "case {case}");
    }
}

/// Case J holds on any number of nodes, case E on three only.
#[test]
fn case_j_on_all_node_counts() {
    for nodes in 1..=64 {
        let answer = open(nodes, [1, 2, 2, 1]).offer(Offer::new(1, 3, 9));
        assert_eq!(answer, Err(Refusal::NotBookable));
    }
    assert!(open(4, [1, 2, 0, 0]).offer(Offer::new(1, 10, 14)).is_ok());
}

/// Case D's second node is free at 14, before the job's finish at 15.
#[test]
fn a_node_is_free_at_its_own_finish() {
    let mut farm = open(3, [1, 2, 0, 0]);
    farm.offer(Offer::new(1, 10, 17)).unwrap();
    assert_eq!(farm.offer(Offer::new(1, 1, 17)), Ok(accepted(2, 14, 17, 1)));
}

#[test]
fn windows_k_to_m() {
    let mut farm = open(3, [1, 2, 0, 0]);
    farm.offer(Offer::new(1, 10, 18)).unwrap();
    farm.offer(Offer::new(1, 3, 20)).unwrap();
    let answer = |deadline| farm.clone().offer(Offer::new(1, 2, deadline));
    assert_eq!(answer(24), Ok(accepted(3, 18, 24, 1)));
    assert_eq!(answer(22), Ok(accepted(3, 18, 22, 2)));
    assert_eq!(answer(21), Err(Refusal::NotBookable));
}

fn open(nodes: u64, costs: [u64; 4]) -> Farm<Quick> {
    let [m, p, st, sc] = costs;
    Farm::open(nodes, Costs::new(m, p, st, sc, 0), &[0]).unwrap()
}

fn accepted(job: u64, start: u64, finish: u64, nodes: usize) -> Accepted {
    Accepted {
        job,
        start,
        finish,
        nodes,
    }
}

#[test]
fn openings_are_refused_in_order() {
    check("farm 0 0 1 0 0 0\nfarm 65 1 1 0 0 0 1\n", "no 1\nno 1\n");
    check("farm 1 0 1 0 0 0\nfarm 1 10001 1 0 0 0 1\n", "no 2\nno 2\n");
    check(
        "farm 1 1 0 0 0 0 1\nfarm 1 1 1000001 0 0 0 1\n",
        "no 2\nno 2\n",
    );
    check(
        "farm 1 1 1 1000001 0 0 1\nfarm 1 1 1 0 1000001 0 1\n",
        "no 2\nno 2\n",
    );
    check(
        "farm 1 1 1 0 0 0\nfarm 1 1 1 0 0 0 1000000000001\n",
        "no 3\nno 3\n",
    );
    let shows_33 = format!("farm 1 1 1 0 0 0{}\n", " 7".repeat(33));
    check(&shows_33, "no 3\n");
    let shows_32 = format!("farm 64 10000 1000000 1000000 1000000 0{}", " 7".repeat(32));
    check(&shows_32, "open 64 32\n");
}

#[test]
fn a_refused_opening_leaves_no_farm() {
    check(
        "farm 0 1 1 0 0 0 1\naccount 1\nfarm 1 1 1 0 0 0 1\naccount 1\n",
        "no 1\nno 11\nopen 1 1\naccount 1 0 0\n",
    );
    check(
        "farm 1 1 1 0 0 0 1\nfarm 0 1 1 0 0 0 1\nfarm x\n",
        "open 1 1\nno 11\nno 11\n",
    );
}

#[test]
fn offers_are_refused_in_order() {
    let day = |line: &str| format!("farm 1 1 1 0 0 0 5 5\nclock 3\n{line}\n");
    let check = |line: &str, answer: &str| {
        check(&day(line), &format!("open 1 2\nclock 3 0\n{answer}\n"));
    };
    check("job 0 0 0", "no 4");
    check("job 3 0 0", "no 4");
    check("job 1 0 0", "no 5");
    check("job 1 1000001 0", "no 5");
    check("job 2 1 3", "no 6");
    check("job 2 1 1000000000001", "no 6");
    check("job 2 1 4", "no 8");
    check("job 2 1 5", "yes 1 3 5 1");
    check("clock 2", "no 9");
    check("clock 1000000000001", "no 9");
    check("clock 1000000000000", "clock 1000000000000 0");
    check("account 0", "no 4");
    check("account 3", "no 4");
}

#[test]
fn the_129th_waiting_job_is_refused() {
    let mut day = String::from("farm 2 1 1 0 0 0 0\n");
    day += &"job 1 1 1000\n".repeat(129);
    day += "job 1 0 1000\nclock 0\njob 1 1 1000\njob 1 1 1000\n";
    let given = String::from_utf8(answers(&tabs(&day))).unwrap();
    let lines: Vec<&str> = given.lines().collect();
    assert!(lines[1..129].iter().all(|line| line.starts_with("yes\t")));
    assert_eq!(lines[129..131], ["no\t7", "no\t5"]);
    assert_eq!(lines[132], "clock\t0\t1");
    assert!(lines[133].starts_with("yes\t129\t"));
    assert_eq!(lines[134], "no\t7");
}

/// Sixteen jobs on 64 nodes each are 1,024 lines; one more job is too much.
#[test]
fn a_move_issues_1024_lines_and_no_more() {
    let window = 64 + 10_000;
    let mut day = String::from("farm 64 1 10000 0 0 0 0\n");
    for job in 1..=16 {
        day += &format!("job 1 64 {}\n", job * window);
    }
    let granted = format!("{day}clock {}\n", 16 * window);
    let given = String::from_utf8(answers(&tabs(&granted))).unwrap();
    assert!(given.ends_with(&format!("clock\t{}\t1024\n", 16 * window)));
    day += &format!("job 1 1 {0}\nclock {0}\nclock 0\nclock {0}\n", 17 * window);
    let given = String::from_utf8(answers(&tabs(&day))).unwrap();
    let lines: Vec<&str> = given.lines().collect();
    assert_eq!(lines[18], "no\t10");
    assert_eq!(lines[18 + 65], "clock\t0\t64");
    assert_eq!(
        *lines.last().unwrap(),
        format!("clock\t{}\t961", 17 * window)
    );
}
