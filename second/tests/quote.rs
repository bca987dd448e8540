//! A quote before the offer, request (iv) of document 02.

mod common;

use common::{check, tabs, waiting};
use second::days::{day, tiny_day};
use second::exhaustive::Exhaustive;
use second::farm::{Farm, Offer};
use second::job::{Record, Walk};
use second::limits::*;
use second::program::{answers_by, Session};
use second::quick::{Quick, Whole};
use second::random::Random;
use second::refusal::Refusal;
use second::share::Costs;
use std::collections::BTreeMap;

/// The paper's listing with quotes: windows A, B, D and E before job 1, and K, L
/// and M behind jobs 1 and 2. Every other line is answered as in the listing.
const LISTING: &str = "farm 3 1 2 0 0 0 30 0\n\
    quote 1 10 30\n\
    quote 1 10 29\n\
    quote 1 10 17\n\
    quote 1 10 14\n\
    quote 1 10 18\n\
    job 1 10 18\n\
    quote 2 3 20\n\
    job 2 3 20\n\
    quote 2 2 24\n\
    quote 2 2 22\n\
    quote 2 2 21\n\
    quote 2 2 12\n\
    job 2 2 12\n\
    clock 10\n\
    quote 2 2 10\n\
    account 1\n\
    account 2\n";

const LISTING_ANSWERS: &str = "open 3 2\n\
    quote 1 0 30 1\n\
    quote 1 0 18 2\n\
    quote 1 0 15 3\n\
    no 8\n\
    quote 1 0 18 2\n\
    yes 1 0 18 2\n\
    quote 2 10 19 1\n\
    yes 2 10 19 1\n\
    quote 3 18 24 1\n\
    quote 3 18 22 2\n\
    no 8\n\
    no 8\n\
    no 8\n\
    chunk 1 1 1 6 0 6 18 18\n\
    chunk 1 1 2 4 6 10 18 18\n\
    chunk 2 2 3 3 10 13 19 19\n\
    clock 10 3\n\
    no 6\n\
    account 1 30 0\n\
    account 2 9 9\n";

#[test]
fn the_listing_with_quotes() {
    check(LISTING, LISTING_ANSWERS);
}

/// A quote whose walk moves a waiting job leaves that job where it is booked.
///
/// Job 1, 3 units by 9, takes node 1 from 0 to 9. 2 units by 6 would come first
/// and end at 6; job 1 then has node 2 from 2, which ends at 11, or both nodes from
/// 6, where 3 ticks hold 1 unit. By 9 they come behind job 1 and end on node 2 from
/// 3. 1 unit by 3 would come first again, and job 1 would need both nodes from 3,
/// where 6 ticks hold 2 + 1.
#[test]
fn a_quote_moves_no_booking() {
    check(
        "farm 2 1 2 0 0 0 0\njob 1 3 9\nquote 1 2 6\nquote 1 2 9\nquote 1 1 3\n\
         clock 0\naccount 1\n",
        "open 2 1\nyes 1 0 9 1\nno 8\nquote 2 3 9 1\nquote 2 0 3 1\n\
         chunk 1 1 1 3 0 3 9 9\nclock 0 1\naccount 1 9 9\n",
    );
}

/// A later deadline may be refused where an earlier one is given. The farm's m and
/// p are 1, and job 1, 3 units by 7, takes node 1 from 0 to 6.
///
/// 2 units by 3 need both nodes, which end at 2 and 3, and job 1 takes both from 3:
/// 4 ticks hold 2 + 1. By 4, 5 or 6 one node will do, until 4. Job 1 then has node 2
/// from 2, where 5 ticks hold 2, or both from 4, where 3 ticks hold 1 + 1. By 7
/// they come behind job 1, on node 2 from 3.
#[test]
fn a_later_deadline_may_be_refused() {
    check(
        "farm 2 1 1 0 0 0 0\njob 1 3 7\nquote 1 2 2\nquote 1 2 3\nquote 1 2 4\n\
         quote 1 2 6\nquote 1 2 7\njob 1 2 6\njob 1 2 3\nclock 3\n",
        "open 2 1\nyes 1 0 6 1\nno 8\nquote 2 0 3 2\nno 8\n\
         no 8\nquote 2 3 7 1\nno 8\nyes 2 0 3 2\n\
         chunk 2 1 1 1 0 1 2 2\nchunk 2 1 2 1 1 2 3 3\n\
         chunk 1 1 1 2 3 5 7 7\nchunk 1 1 2 1 5 6 7 7\nclock 3 4\n",
    );
}

/// As for offers: a cheaper p may be refused where a dearer one is given, and the
/// farm's serves where none stands there.
#[test]
fn a_quote_takes_an_own_p() {
    check(
        "farm 2 1 4 0 0 0 0\njob 1 2 11\nquote 1 2 6 2\nquote 1 2 6 3\nquote 1 2 6 0\n\
         quote 1 2 6 1000001\nquote 1 1 12\nquote 1 1 12 4\njob 1 2 6 3\nclock 5\n",
        "open 2 1\nyes 1 0 10 1\nno 8\nquote 2 0 5 2\nno 2\n\
         no 2\nquote 2 2 7 1\nquote 2 2 7 1\nyes 2 0 5 2\n\
         chunk 2 1 1 1 0 1 4 4\nchunk 2 1 2 1 1 2 5 5\n\
         chunk 1 1 1 1 5 6 10 10\nchunk 1 1 2 1 6 7 11 11\nclock 5 4\n",
    );
}

/// 1 unit by 3 would come before job 1.
#[test]
fn a_quote_uses_no_number() {
    check(
        "farm 1 1 1 0 0 0 0\nquote 1 1 9\nquote 1 1 9\nwithdraw 1\njob 1 1 9\n\
         quote 1 1 9\nquote 1 1 3\nclock 0\nquote 1 1 9\nwithdraw 2\njob 1 1 9\n\
         withdraw 2\nquote 1 1 9\njob 1 1 9\n",
        "open 1 1\nquote 1 0 2 1\nquote 1 0 2 1\nno 12\nyes 1 0 2 1\n\
         quote 2 2 4 1\nquote 2 0 2 1\nchunk 1 1 1 1 0 1 2 2\nclock 0 1\nquote 2 2 4 1\nno 12\n\
         yes 2 2 4 1\ngone 2\nquote 3 2 4 1\nyes 3 2 4 1\n",
    );
}

/// Without job 1 a walk moves job 2 to 2, as the quote's does, and its offer's too.
/// Where no offer follows, job 2 is issued from 10 on node 3 as it was booked.
#[test]
fn a_quote_behind_a_withdrawal_moves_nothing() {
    let lines = "farm 3 1 2 0 0 0 30 0\njob 1 10 18\njob 2 3 20\nwithdraw 1\nquote 2 2 12\n";
    let answers = "open 3 2\nyes 1 0 18 2\nyes 2 10 19 1\ngone 1\nquote 3 0 6 1\n";
    check(
        &format!("{lines}quote 2 2 12\nclock 9\nclock 10\n"),
        &format!("{answers}quote 3 0 6 1\nclock 9 0\nchunk 2 2 3 3 10 13 19 19\nclock 10 1\n"),
    );
    check(
        &format!("{lines}job 2 2 12\nclock 10\n"),
        &format!(
            "{answers}yes 3 0 6 1\n\
             chunk 3 2 1 2 0 2 6 6\nchunk 2 2 2 3 2 5 11 11\nclock 10 2\n"
        ),
    );
}

/// The withdrawal after which job 3 fails in the next walk, until job 2 has begun:
/// a quote is refused as long as the offer would be.
#[test]
fn a_quote_is_refused_where_an_old_job_fails() {
    check(
        "farm 2 1 1 0 0 0 0\njob 1 1 2\njob 1 5 10\njob 1 8 20\nquote 1 1 1000\n\
         withdraw 1\nquote 1 1 1000\nquote 1 1 1000000000000\nclock 2\nquote 1 1 1000\n\
         clock 9\nquote 1 1 1000\njob 1 1 1000\n",
        "open 2 1\nyes 1 0 2 1\nyes 2 2 9 2\nyes 3 9 20 2\nquote 4 19 21 1\n\
         gone 1\nno 8\nno 8\n\
         chunk 2 1 2 3 2 5 8 8\nchunk 2 1 1 2 5 7 9 9\nclock 2 2\nquote 4 19 21 1\n\
         chunk 3 1 2 5 9 14 19 19\nchunk 3 1 1 3 14 17 20 20\nclock 9 2\n\
         quote 4 19 21 1\nyes 4 19 21 1\n",
    );
}

/// On a farm of two shows whose clock is 3, quoted and then offered.
#[test]
fn a_quote_is_refused_as_an_offer_is() {
    let check = |fields: &str, answers: &str| {
        check(
            &format!("farm 1 1 1 0 0 0 5 5\nclock 3\nquote {fields}\njob {fields}\n"),
            &format!("open 1 2\nclock 3 0\n{answers}\n"),
        );
    };
    // Shape before all else.
    check("0 0 0 0 0", "no 11\nno 11");
    check("0 0", "no 11\nno 11");
    // The show before the size, p and the deadline.
    check("0 0 0 0", "no 4\nno 4");
    check("3 1 9", "no 4\nno 4");
    check("9999999999999 1 9", "no 4\nno 4");
    // The size before p and the deadline.
    check("1 0 0 0", "no 5\nno 5");
    check("1 1000001 9", "no 5\nno 5");
    // p before the deadline.
    check("1 1 3 0", "no 2\nno 2");
    check("1 1 9 1000001", "no 2\nno 2");
    // The deadline before the walk.
    check("2 1000000 3", "no 6\nno 6");
    check("2 1 1000000000001", "no 6\nno 6");
    check("2 1 4", "no 8\nno 8");
    check("2 1 6 3", "no 8\nno 8");
    check("2 1 5", "quote 1 3 5 1\nyes 1 3 5 1");
    check("2 1 6 2", "quote 1 3 6 1\nyes 1 3 6 1");
}

/// One-unit jobs take the two nodes in turn and start a tick apart.
#[test]
fn a_full_queue_gives_no_quote() {
    let mut farm = Farm::<Quick>::open(2, Costs::new(1, 1, 0, 0, 0), &[0]).unwrap();
    let unit = Offer::new(1, 1, 1_000);
    for _ in 1..MOST_WAITING {
        farm.offer(unit).unwrap();
    }
    // 127 jobs wait, however often the last place is quoted.
    for _ in 0..3 {
        let given = farm.quote(unit).unwrap();
        assert_eq!((given.job, given.start, given.finish), (128, 127, 129));
    }
    farm.offer(unit).unwrap();
    let full = Err(Refusal::QueueFull);
    assert_eq!(farm.quote(unit), full);
    // Asked after the deadline and before the walk.
    let wrong_compute = unit.by(1_001).with_compute(0);
    assert_eq!(farm.quote(wrong_compute), Err(Refusal::Costs));
    assert_eq!(farm.quote(unit.by(0)), Err(Refusal::Deadline));
    let too_large = Offer::new(1, 1_000, 1);
    assert_eq!(farm.quote(too_large), full);
    farm.withdraw(1).unwrap();
    assert_eq!(farm.quote(too_large), Err(Refusal::NotBookable));
    let given = farm.quote(unit);
    assert_eq!(given.unwrap().job, 129);
    assert_eq!(farm.offer(unit), given);
    assert_eq!(farm.quote(unit), full);
}

#[test]
fn the_greatest_figures_are_quoted() {
    check(
        "farm 2 10000 1000000 1000000 1000000 10000 1000000000000\n\
         quote 1 1000000 1000000000000\nquote 1 1000000 1000000000000 1000000\n\
         quote 1 1000000 512515280000\nquote 1 1000000 512515279999\n\
         quote 1 1000001 1000000000000\nquote 1 1000000 1000000000001\n\
         job 1 1000000 1000000000000\n",
        "open 2 1\nquote 1 0 512515280000 2\nquote 1 0 512515280000 2\n\
         quote 1 0 512515280000 2\nno 8\nno 5\nno 6\nyes 1 0 512515280000 2\n",
    );
}

#[test]
fn a_quote_needs_a_farm_and_an_offers_numbers() {
    check(
        "quote 1 1 9\nquote\nfarm 0 1 1 0 0 0 0\nquote 1 1 9\nfarm 1 1 1 0 0 0 0\n\
         quote 1 1 9\nfarm 1 1 1 0 0 0 0\nquote 1 1 9\n\
         quote\nquote \nquote 1\nquote 1 1\nquote 1 1 9 1 1\nquote 1 1 9 \n\
         quote  1 9\nquote 1  9\nquote 1 1 \nquote 1 1 9  1\nquote 1 1 x\n\
         quote 1 1 -9\nquote 1 1 00000000000009\nquotes 1 1 9\nQuote 1 1 9\nyes 1 1 9\n\
         quote 01 001 0000000000009 1\njob 1 1 9\n",
        "no 11\nno 11\nno 1\nno 11\nopen 1 1\n\
         quote 1 0 2 1\nno 11\nquote 1 0 2 1\n\
         no 11\nno 11\nno 11\nno 11\nno 11\nno 11\n\
         no 11\nno 11\nno 11\nno 11\nno 11\n\
         no 11\nno 11\nno 11\nno 11\nno 11\n\
         quote 1 0 2 1\nyes 1 0 2 1\n",
    );
}

#[test]
fn the_other_walks_quote_alike() {
    let whole = answers_by::<Whole>(&tabs(LISTING));
    let exhaustive = answers_by::<Exhaustive>(&tabs(LISTING));
    assert_eq!(whole, tabs(LISTING_ANSWERS));
    assert_eq!(exhaustive, whole);
}

/// On random farms: a quote says what an offer to a copy is told, and the farm is
/// after it what it was before it.
#[test]
fn nothing_changes() {
    let (mut given, mut refused) = (0, 0);
    for seed in 0..200 {
        let mut random = Random::new(seed);
        let (send, compute) = (random.between(1, 9), random.between(1, 60));
        let costs = Costs::new(send, compute, 2, 3, random.between(0, 30));
        let mut farm = Farm::<Quick>::open(random.between(1, 9), costs, &[40, 0]).unwrap();
        for _ in 0..60 {
            for _ in 0..random.between(0, 3) {
                if is_quoted(&mut farm, &mut random) {
                    given += 1;
                } else {
                    refused += 1;
                }
            }
            let deadline = farm.clock() + random.between(50, 3_000);
            let (show, size) = (random.between(1, 2), random.between(1, 60));
            // Many are refused; that leaves the farm as it is.
            let _ = farm.offer(Offer::new(show, size, deadline));
            if random.once_in(5) {
                let time = farm.clock() + random.between(0, 200);
                let mut lines = [Record::default(); LENT_RECORDS];
                farm.move_clock(time, &mut lines).unwrap();
            }
            if random.once_in(4) {
                // The number may be no waiting job's.
                let _ = farm.withdraw(random.between(1, farm.numbers_used() + 1));
            }
        }
    }
    assert!(given > 2_000, "only {given} given");
    assert!(refused > 2_000, "only {refused} refused");
}

/// Whether a quote of something is given; what should stay is asserted to stay.
fn is_quoted(farm: &mut Farm<Quick>, random: &mut Random) -> bool {
    let (show, size) = (random.between(0, 3), random.between(0, 60));
    let deadline = farm.clock() + random.between(0, 3_000);
    let own = random.between(0, 90);
    let compute = random.once_in(2).then_some(own);
    let offer = Offer::new(show, size, deadline).with_compute(compute);
    let told = farm.clone().offer(offer);
    let before = figures(farm);
    let quoted = farm.quote(offer);
    assert_eq!(quoted, told);
    assert_eq!(figures(farm), before);
    quoted.is_ok()
}

/// All that a farm shows, and what it tells a copy of the next offer.
fn figures(farm: &Farm<Quick>) -> impl PartialEq + std::fmt::Debug {
    let accounts = [1, 2].map(|show| farm.account(show).unwrap());
    let next = farm.clone().offer(Offer::new(1, 1, LAST_TICK));
    let numbers = (farm.clock(), farm.numbers_used());
    (waiting(farm), accounts, next, numbers)
}

fn lines(day: &[u8]) -> impl Iterator<Item = &[u8]> {
    day.split(|&byte| byte == b'\n')
}

fn is_quote(line: &[u8]) -> bool {
    line.split(|&byte| byte == b'\t').next() == Some(b"quote")
}

/// The quote line with an offer's fields, readable or not; none if it is no offer.
fn as_quote(line: &[u8]) -> Option<Vec<u8>> {
    let fields = line.strip_prefix(b"job")?;
    let is_offer = fields.is_empty() || fields.starts_with(b"\t");
    is_offer.then(|| [b"quote", fields].concat())
}

/// An offer's answer with `quote` for `yes`.
fn in_a_quotes_words(answer: &[u8]) -> Vec<u8> {
    match answer.strip_prefix(b"yes") {
        Some(fields) => [b"quote", fields].concat(),
        None => answer.to_vec(),
    }
}

fn answer<W: Walk>(session: &mut Session<W>, line: &[u8]) -> Vec<u8> {
    session.line(line);
    std::mem::take(session.answers())
}

/// How often each answer was given: the word, or the whole of a refusal.
type Counts = BTreeMap<Vec<u8>, u64>;

fn count(counts: &mut Counts, answer: Vec<u8>) {
    let word = if answer.starts_with(b"no") {
        answer
    } else {
        b"quote".to_vec()
    };
    *counts.entry(word).or_default() += 1;
}

/// A quote and each refusal of an offer, so many times at least.
fn assert_each(counts: &Counts, least: u64, answers: &[&str]) {
    for answer in answers {
        let times = counts.get(&tabs(answer)).copied().unwrap_or_default();
        assert!(times >= least, "only {times} times {answer:?}");
    }
}

const EACH: [&str; 8] = [
    "quote", "no 2\n", "no 4\n", "no 5\n", "no 6\n", "no 7\n", "no 8\n", "no 11\n",
];

/// Quotes each offer of a day just before it, and counts the answers. The offer
/// gets what was quoted, and every line is answered as without these quotes.
fn quote_each_offer<W: Walk>(day: &[u8], counts: &mut Counts) {
    let (mut without, mut with) = (Session::<W>::default(), Session::<W>::default());
    for line in lines(day) {
        let expected = answer(&mut without, line);
        if let Some(quote) = as_quote(line) {
            let quoted = answer(&mut with, &quote);
            assert_eq!(quoted, in_a_quotes_words(&expected));
            count(counts, quoted);
        }
        assert_eq!(answer(&mut with, line), expected);
    }
}

#[test]
fn an_offer_next_gets_what_was_quoted() {
    let mut counts = Counts::new();
    for seed in 0..160 {
        quote_each_offer::<Quick>(&day(seed), &mut counts);
    }
    assert_each(&counts, 40, &EACH);
    let mut counts = Counts::new();
    for seed in 0..80 {
        quote_each_offer::<Whole>(&day(seed), &mut counts);
    }
    assert_each(&counts, 20, &EACH);
    let mut counts = Counts::new();
    for seed in 0..200 {
        quote_each_offer::<Exhaustive>(&tiny_day(seed), &mut counts);
    }
    assert_each(&counts, 20, &["quote", "no 2\n", "no 8\n"]);
}

/// Leaves out the quotes of a day, and counts their answers. Every other line is
/// answered as with them.
fn leave_quotes_out<W: Walk>(day: &[u8], counts: &mut Counts) {
    let (mut without, mut with) = (Session::<W>::default(), Session::<W>::default());
    for line in lines(day) {
        let given = answer(&mut with, line);
        if is_quote(line) {
            count(counts, given);
        } else {
            assert_eq!(answer(&mut without, line), given);
        }
    }
}

#[test]
fn quotes_alter_no_other_answer() {
    let mut counts = Counts::new();
    for seed in 0..320 {
        leave_quotes_out::<Quick>(&day(seed), &mut counts);
    }
    assert_each(&counts, 100, &EACH);
    let mut counts = Counts::new();
    for seed in 0..80 {
        leave_quotes_out::<Whole>(&day(seed), &mut counts);
    }
    assert_each(&counts, 20, &EACH);
    let mut counts = Counts::new();
    for seed in 0..200 {
        leave_quotes_out::<Exhaustive>(&tiny_day(seed), &mut counts);
    }
    assert_each(&counts, 20, &["quote", "no 2\n", "no 6\n", "no 8\n"]);
}

/// Of every 64 seeds the last 16 have no quotes; of the others nearly all have.
#[test]
fn three_of_four_random_days_hold_quotes() {
    for days in [day as fn(u64) -> Vec<u8>, tiny_day] {
        let mut quoting = 0;
        for seed in 0..256 {
            let quotes = lines(&days(seed)).any(is_quote);
            assert!(seed / 16 % 4 != 3 || !quotes, "seed {seed}");
            quoting += u64::from(quotes);
        }
        assert!(quoting > 180, "only {quoting} days");
    }
}
