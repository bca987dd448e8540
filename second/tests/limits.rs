//! The greatest figures, in a build that stops at an overflow.

use second::farm::{Farm, Offer};
use second::job::Record;
use second::limits::*;
use second::quick::Quick;
use second::refusal::Refusal;
use second::share::Costs;

const GREATEST: Costs = Costs {
    send: MOST_SEND_COST,
    compute: MOST_COMPUTE_COST,
    link_setup: MOST_SETUP,
    node_setup: MOST_SETUP,
    return_cost: MOST_RETURN_COST,
};

const GREATEST_BUT_R: Costs = Costs {
    return_cost: 0,
    ..GREATEST
};

#[test]
fn the_greatest_job_at_the_greatest_costs() {
    for costs in [GREATEST, GREATEST_BUT_R] {
        let mut farm = Farm::<Quick>::open(64, costs, &[LAST_TICK; 32]).unwrap();
        // One node would need 1,020,002,000,000 ticks, without r 1,010,002,000,000.
        let yes = farm.offer(Offer::new(32, MOST_UNITS, LAST_TICK)).unwrap();
        assert_eq!((yes.start, yes.nodes), (0, 2));
        let mut one = Farm::<Quick>::open(1, costs, &[0]).unwrap();
        let most = Offer::new(1, MOST_UNITS, LAST_TICK);
        assert_eq!(one.offer(most), Err(Refusal::NotBookable));
        assert!(one.offer(Offer::new(1, 900_000, LAST_TICK)).is_ok());
    }
}

#[test]
fn held_ticks_fill_all_nodes() {
    held_ticks_fill_all_nodes_at(GREATEST);
    held_ticks_fill_all_nodes_at(GREATEST_BUT_R);
}

fn held_ticks_fill_all_nodes_at(costs: Costs) {
    let mut farm = Farm::<Quick>::open(64, costs, &[7]).unwrap();
    let mut granted = 0;
    while farm.offer(Offer::new(1, MOST_UNITS, LAST_TICK)).is_ok() {
        granted += 1;
    }
    assert!(granted > 20, "only {granted} jobs granted");
    let mut lines = [Record::default(); LENT_RECORDS];
    let issued = farm.move_clock(LAST_TICK, &mut lines).unwrap();
    assert!(lines[..issued].iter().all(|line| {
        let way_back = line.units * costs.return_cost;
        line.finish <= LAST_TICK && line.compute_end + way_back == line.finish
    }));
    let account = farm.account(1).unwrap();
    assert!(account.held > 30 * LAST_TICK && account.held <= 64 * LAST_TICK);
    assert_eq!(account.charged, account.held - 7);
    let too_late = Offer::new(1, 1, LAST_TICK);
    assert_eq!(farm.offer(too_late), Err(Refusal::Deadline));
    assert_eq!(farm.move_clock(LAST_TICK, &mut lines), Ok(0));
}

#[test]
fn the_least_costs_and_the_last_ticks() {
    let least = Costs::new(1, 1, 0, 0, 0);
    let mut farm = Farm::<Quick>::open(64, least, &[0]).unwrap();
    farm.move_clock(LAST_TICK - 2, &mut []).unwrap();
    let unit = Offer::new(1, 1, LAST_TICK);
    let sooner = unit.by(LAST_TICK - 1);
    assert_eq!(farm.offer(sooner), Err(Refusal::NotBookable));
    let yes = farm.offer(unit).unwrap();
    assert_eq!((yes.start, yes.finish), (LAST_TICK - 2, LAST_TICK));
    let refused = Err(Refusal::TimetableFull);
    assert_eq!(farm.move_clock(LAST_TICK, &mut []), refused);
    assert_eq!(farm.show_waiting(&mut []), refused);
    assert_eq!(farm.clock(), LAST_TICK - 2);
}
