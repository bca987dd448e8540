//! The quick walk books as the exhaustive one does on tiny days, and as a plain
//! one does on days of every size.

mod common;

use common::waiting;
use second::days::{day, tiny_day};
use second::exhaustive::Exhaustive;
use second::farm::{Farm, Offer};
use second::job::{Begun, Booking, Chunk, Job, Plan, Queue, Record, Walk, Walked};
use second::node::{FreeNode, Ranking};
use second::program::{answers, answers_by};
use second::quick::{Quick, Whole};
use second::random::Random;
use second::share::{Costs, Windows};

#[test]
fn tiny_days_are_answered_alike() {
    for seed in 0..1_500 {
        let day = tiny_day(seed);
        let tried = answers_by::<Exhaustive>(&day);
        assert_eq!(answers(&day), tried, "seed {seed}: {}", day.escape_ascii());
    }
}

/// After every call the two farms must show the same waiting bookings.
#[test]
fn tiny_farms_show_the_same_timetables() {
    let (mut granted, mut withdrawn) = (0, 0);
    for seed in 0..1_000 {
        let mut random = Random::new(seed);
        let costs = Costs {
            send: random.between(1, 4),
            compute: random.between(1, 6),
            link_setup: random.between(0, 2),
            node_setup: random.between(0, 2),
            return_cost: random.pick(&[0, 0, 1, 2, 4]),
        };
        let nodes = random.between(1, 5);
        let mut quick = Farm::<Quick>::open(nodes, costs, &[0]).unwrap();
        let mut exhaustive = Farm::<Exhaustive>::open(nodes, costs, &[0]).unwrap();
        for _ in 0..14 {
            let size = random.between(1, 6);
            let deadline = quick.clock() + random.between(1, 45);
            let own = random.between(1, 8);
            let compute = random.once_in(2).then_some(own);
            let offer = Offer::new(1, size, deadline).with_compute(compute);
            let yes = quick.offer(offer);
            assert_eq!(yes, exhaustive.offer(offer));
            granted += u64::from(yes.is_ok());
            assert_eq!(waiting(&quick), waiting(&exhaustive), "seed {seed}");
            if random.once_in(4) {
                let job = random.between(0, quick.numbers_used() + 1);
                let gone = quick.withdraw(job);
                assert_eq!(gone, exhaustive.withdraw(job));
                withdrawn += u64::from(gone.is_ok());
                assert_eq!(waiting(&quick), waiting(&exhaustive), "seed {seed}");
            }
            if random.once_in(3) {
                let time = quick.clock() + random.between(0, 9);
                let mut lines = [[Record::default(); 400]; 2];
                let issued = quick.move_clock(time, &mut lines[0]);
                assert_eq!(issued, exhaustive.move_clock(time, &mut lines[1]));
                assert_eq!(lines[0], lines[1], "seed {seed}");
            }
        }
    }
    assert!(granted > 3_000, "only {granted} offers granted");
    assert!(withdrawn > 500, "only {withdrawn} jobs withdrawn");
}

/// A tiny farm with its nodes and its link taken for some time.
fn tiny_begun(random: &mut Random) -> Begun {
    let [m, p] = [3, 4].map(|most| random.between(1, most));
    let [st, sc, r] = [1, 2, 2].map(|most| random.between(0, most));
    let nodes = random.between(1, 4);
    let taken: Vec<FreeNode> = (1..=nodes)
        .map(|node| FreeNode::new(node, random.between(0, 9)))
        .collect();
    Begun {
        windows: Windows::new(Costs::new(m, p, st, sc, r)),
        clock: random.between(0, 5),
        link_free: random.between(0, 7),
        ranking: Ranking::new(nodes as usize).after(taken.into_iter()),
    }
}

fn tiny_job(number: u64, random: &mut Random) -> Job {
    Job {
        number,
        show: 1,
        size: random.between(1, 6),
        deadline: random.between(10, 60),
        compute: random.between(1, 5),
    }
}

/// The plan once it follows a walk of a queue; none where a job fails.
fn plan_after<W: Walk>(begun: &Begun, queue: Queue) -> Option<Plan> {
    let mut walk = W::default();
    let mut plan = queue.plan.clone();
    walk.book(begun, queue).then(|| {
        plan.follow(walk.walked());
        plan
    })
}

/// The same by every walk: they must book alike.
fn plan_after_all(begun: &Begun, queue: Queue) -> Option<Plan> {
    let quick = plan_after::<Quick>(begun, queue);
    assert_eq!(quick, plan_after::<Whole>(begun, queue));
    assert_eq!(quick, plan_after::<Exhaustive>(begun, queue));
    assert_eq!(quick, plan_after::<Plain>(begun, queue));
    quick
}

#[test]
fn an_empty_queue_is_booked() {
    let mut random = Random::new(1);
    for _ in 0..100 {
        let begun = tiny_begun(&mut random);
        let nothing = Plan::default();
        let after = plan_after_all(&begun, nothing.queue(None));
        assert_eq!(after, Some(nothing));
    }
}

/// Without a new job the waiting ones get what they have, unless one was withdrawn:
/// those behind it may then move.
#[test]
fn waiting_jobs_are_walked_alone() {
    let (mut kept, mut moved) = (0, 0);
    for seed in 0..300 {
        let mut random = Random::new(seed);
        let begun = tiny_begun(&mut random);
        let mut plan = Plan::default();
        for number in 1..=12 {
            let new = tiny_job(number, &mut random);
            if let Some(with_new) = plan_after_all(&begun, plan.queue(Some(new))) {
                plan = with_new;
            }
            let waiting = plan.bookings.len();
            if waiting > 0 && random.once_in(3) {
                plan.remove(random.place(waiting));
            }
            let same = plan_after_all(&begun, plan.queue(None)).is_some_and(|alone| {
                alone.bookings == plan.bookings && alone.chunks == plan.chunks
            });
            let all_as_walked = plan.as_walked == plan.bookings.len();
            assert!(same || !all_as_walked, "seed {seed}: {plan:?}");
            kept += u64::from(same);
            moved += u64::from(!same);
        }
    }
    assert!(kept > 2_000, "only {kept} walks kept all bookings");
    assert!(moved > 300, "only {moved} walks moved a booking");
}

/// One may even fail: without job 1 job 2 takes one node in place of two, and job 3
/// has too little left of both.
#[test]
fn a_waiting_job_may_fail_alone() {
    let begun = Begun {
        windows: Windows::new(Costs::new(1, 1, 0, 0, 0)),
        clock: 0,
        link_free: 0,
        ranking: Ranking::new(2),
    };
    let mut plan = Plan::default();
    for (number, size, deadline) in [(1, 1, 2), (2, 5, 10), (3, 8, 20)] {
        let new = Job {
            number,
            show: 1,
            size,
            deadline,
            compute: 1,
        };
        plan = plan_after_all(&begun, plan.queue(Some(new))).unwrap();
    }
    let alone = plan_after_all(&begun, plan.queue(None));
    assert_eq!(alone.as_ref(), Some(&plan));
    plan.remove(0);
    assert_eq!(plan_after_all(&begun, plan.queue(None)), None);
}

/// A walk over all jobs anew that tries every node count and halves.
#[derive(Default)]
struct Plain(Walked);

impl Walk for Plain {
    fn book(&mut self, begun: &Begun, queue: Queue) -> bool {
        let waiting = queue.plan.bookings.iter().map(|b| b.job);
        let mut jobs: Vec<Job> = waiting.chain(queue.new).collect();
        jobs.sort_by_key(|job| (job.deadline, job.number));
        let mut row = begun.ranking.row().to_vec();
        let mut link_free = begun.link_free;
        self.0 = Walked::default();
        for job in jobs {
            row.sort_by_key(|free| (free.time(), free.node()));
            let starts = row
                .iter()
                .map(|free| free.time().max(begun.clock).max(link_free));
            let windows = Windows::new(job.costs(begun.windows.costs()));
            let capacity = |nodes, window| windows.capacity(nodes, window) >= job.size;
            let fits = |&(nodes, start): &(usize, u64)| {
                start < job.deadline && capacity(nodes, job.deadline - start)
            };
            let Some((nodes, start)) = (1..).zip(starts).find(fits) else {
                return false;
            };
            let window = halve(job.deadline - start, |window| capacity(nodes, window));
            for (share, free) in windows.shares(job.size, window).zip(&mut row) {
                *free = FreeNode::new(free.node(), start + share.finish);
                link_free = start + share.send_end;
                self.0.chunks.push(Chunk {
                    units: share.units,
                    send_end: link_free,
                    free: *free,
                });
            }
            self.0.bookings.push(Booking { job, start, nodes });
        }
        true
    }

    fn walked(&self) -> &Walked {
        &self.0
    }
}

/// The least window that is enough, where `enough` is one.
fn halve(mut enough: u64, is_enough: impl Fn(u64) -> bool) -> u64 {
    let mut short = 0;
    while short + 1 < enough {
        let middle = (short + enough) / 2;
        match is_enough(middle) {
            true => enough = middle,
            false => short = middle,
        }
    }
    enough
}

#[test]
fn days_of_every_size_are_answered_alike() {
    for seed in 0..160 {
        let day = day(seed);
        let plain = answers_by::<Plain>(&day);
        assert!(answers(&day) == plain, "seed {seed}");
    }
}
