//! The share arithmetic against all share lists, and at its limits.

use second::exhaustive::for_each_share_list;
use second::random::Random;
use second::share::{Costs, Windows};

fn small_costs(random: &mut Random) -> Costs {
    Costs {
        send: random.between(1, 4),
        compute: random.between(1, 9),
        link_setup: random.between(0, 4),
        node_setup: random.between(0, 4),
        return_cost: random.between(0, 5),
    }
}

fn any_costs(random: &mut Random) -> Costs {
    Costs {
        send: random.of_any_length(10_000).max(1),
        compute: random.of_any_length(1_000_000).max(1),
        link_setup: random.of_any_length(1_000_000),
        node_setup: random.of_any_length(1_000_000),
        return_cost: random.of_any_length(10_000),
    }
}

/// All lists of a size on a number of nodes with their finishes.
fn lists(costs: Costs, size: u64, nodes: usize) -> Vec<(u64, Vec<u64>)> {
    let mut all = Vec::new();
    for_each_share_list(size, nodes, &mut Vec::new(), &mut |list| {
        let (mut send_end, mut finish) = (0, 0);
        for units in list {
            send_end += costs.link_setup + units * costs.send;
            let a_unit = costs.compute + costs.return_cost;
            finish = finish.max(send_end + costs.node_setup + units * a_unit);
        }
        all.push((finish, list.to_vec()));
    });
    all
}

#[test]
fn no_share_list_holds_more_than_the_capacity() {
    let mut random = Random::new(1);
    for _ in 0..60 {
        let costs = small_costs(&mut random);
        let windows = Windows::new(costs);
        let nodes = random.between(1, 4) as usize;
        let mut holds = [0; 60];
        for size in 1..=9 {
            let all = (1..=nodes).flat_map(|nodes| lists(costs, size, nodes));
            let finish = all.map(|(finish, _)| finish).min().unwrap();
            holds
                .iter_mut()
                .skip(finish as usize)
                .for_each(|held| *held = size);
        }
        for (window, &held) in holds.iter().enumerate() {
            let capacity = windows.capacity(nodes, window as u64);
            assert_eq!(capacity.min(9), held, "{costs:?} {nodes} {window}");
        }
    }
}

#[test]
fn shares_are_the_largest_with_the_earliest_finish() {
    let mut random = Random::new(2);
    for _ in 0..300 {
        let costs = small_costs(&mut random);
        let windows = Windows::new(costs);
        let size = random.between(1, 9);
        let window = random.between(1, 60);
        let Some(nodes) = windows.fewest_nodes(size, window, 5) else {
            continue;
        };
        let all = lists(costs, size, nodes);
        let finish = all.iter().map(|(finish, _)| *finish).min().unwrap();
        let in_time = all.iter().filter(|list| list.0 == finish);
        let largest = in_time.map(|(_, list)| list).max().unwrap();
        let least = windows.least_window(nodes, size, window);
        let shares: Vec<_> = windows.shares(size, least).collect();
        let units: Vec<u64> = shares.iter().map(|share| share.units).collect();
        assert_eq!(
            (least, &units),
            (finish, largest),
            "{costs:?} {size} {window}"
        );
        assert_eq!(shares.iter().map(|share| share.finish).max(), Some(finish));
    }
}

#[test]
fn a_shorter_window_never_needs_fewer_nodes() {
    let mut random = Random::new(3);
    for _ in 0..200 {
        let windows = Windows::new(small_costs(&mut random));
        let size = random.between(1, 40);
        let counts = (0..400).map(|window| windows.fewest_nodes(size, window, 64).unwrap_or(65));
        let counts: Vec<usize> = counts.collect();
        assert!(counts.windows(2).all(|pair| pair[0] >= pair[1]));
    }
}

/// The guesses end where plain halving does, for costs of all lengths.
#[test]
fn the_least_window_is_found_by_halving_too() {
    let mut random = Random::new(4);
    let mut found = 0;
    for _ in 0..20_000 {
        let windows = Windows::new(any_costs(&mut random));
        let size = random.of_any_length(1_000_000).max(1);
        let enough = random.of_any_length(1_000_000_000_000);
        let Some(nodes) = windows.fewest_nodes(size, enough, 64) else {
            continue;
        };
        assert!(windows.capacity(nodes, enough) >= size);
        assert!(windows.capacity(nodes - 1, enough) < size);
        let (mut short, mut least) = (0, enough);
        while short + 1 < least {
            let middle = short + (least - short) / 2;
            match windows.capacity(nodes, middle) >= size {
                true => least = middle,
                false => short = middle,
            }
        }
        assert_eq!(windows.least_window(nodes, size, enough), least);
        assert_eq!(windows.shares(size, least).count(), nodes);
        found += 1;
    }
    assert!(found > 4_000, "only {found} windows were enough");
}

/// Dividing by multiplying is exact at the edges of every quotient.
#[test]
fn one_node_holds_what_division_says() {
    let mut random = Random::new(5);
    for _ in 0..20_000 {
        let costs = Costs {
            link_setup: 0,
            node_setup: 0,
            ..any_costs(&mut random)
        };
        check_division(costs, &mut random);
    }
    let greatest = Costs::new(10_000, 1_000_000, 0, 0, 10_000);
    for _ in 0..1_000 {
        check_division(greatest, &mut random);
    }
}

fn check_division(costs: Costs, random: &mut Random) {
    let unit = costs.send + costs.compute + costs.return_cost;
    let units = random.between(1, 1_000_000_000_000 / unit);
    let windows = Windows::new(costs);
    assert_eq!(windows.capacity(1, units * unit), units);
    assert_eq!(windows.capacity(1, units * unit - 1), units - 1);
}

/// A dearer p in place of r holds the same, beyond the limit of p too.
#[test]
fn r_adds_to_p() {
    let mut random = Random::new(6);
    for _ in 0..5_000 {
        let costs = any_costs(&mut random);
        let dearer = Costs {
            compute: costs.compute + costs.return_cost,
            return_cost: 0,
            ..costs
        };
        let (windows, dearer) = (Windows::new(costs), Windows::new(dearer));
        let size = random.of_any_length(1_000_000).max(1);
        let enough = random.of_any_length(1_000_000_000_000);
        let nodes = windows.fewest_nodes(size, enough, 64);
        assert_eq!(nodes, dearer.fewest_nodes(size, enough, 64));
        assert_eq!(windows.capacity(64, enough), dearer.capacity(64, enough));
        if let Some(nodes) = nodes {
            let least = windows.least_window(nodes, size, enough);
            assert_eq!(least, dearer.least_window(nodes, size, enough));
            assert!(windows.shares(size, least).eq(dearer.shares(size, least)));
        }
    }
}
