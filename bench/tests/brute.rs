//! The reference against slow and simple methods on many generated tasks.

use bench::cases::{case, projection_numbers, search_numbers};
use bench::estimator::{Estimator, Maximum, Partition, Projection, NO_DISTANCE};
use bench::generate::{model_of, Shape};
use bench::plan::{patterns, plan, plan_with, Answer};
use bench::queue::{Entry, Queue};
use bench::random::Random;
use bench::reader::read;
use bench::search::{Outcome, Search};
use bench::task::Task;
use std::collections::{BTreeMap, BTreeSet};

/// Every reachable state with its least path cost, if there are at most `most`.
fn reachable(task: &Task, most: usize) -> Option<BTreeMap<Vec<u8>, u64>> {
    let mut costs = BTreeMap::from([(task.initial_state(), 0)]);
    let mut open = BTreeSet::from([(0, task.initial_state())]);
    while let Some((cost, state)) = open.pop_first() {
        for number in 0..task.operators().len() {
            let mut next = state.clone();
            if task.apply(number, &mut next) {
                let longer = cost + u64::from(task.operators()[number].price);
                let known = costs.get(&next).copied();
                if known.is_none_or(|known| longer < known) {
                    if let Some(known) = known {
                        open.remove(&(known, next.clone()));
                    }
                    costs.insert(next.clone(), longer);
                    open.insert((longer, next));
                }
            }
        }
        if costs.len() > most {
            return None;
        }
    }
    Some(costs)
}

/// Cost from each of these states to a goal state, by rounds over all of them.
fn to_goal(task: &Task, states: &BTreeMap<Vec<u8>, u64>, prices: &[u32]) -> BTreeMap<Vec<u8>, u64> {
    let mut costs: BTreeMap<Vec<u8>, u64> =
        states.keys().filter(|state| task.has_goal(state)).map(|state| (state.clone(), 0)).collect();
    loop {
        let mut changed = false;
        for state in states.keys() {
            for (number, &price) in prices.iter().enumerate() {
                let mut next = state.clone();
                if task.apply(number, &mut next) {
                    if let Some(&rest) = costs.get(&next) {
                        let cost = rest + u64::from(price);
                        if costs.get(state).is_none_or(|&known| cost < known) {
                            costs.insert(state.clone(), cost);
                            changed = true;
                        }
                    }
                }
            }
        }
        if !changed {
            return costs;
        }
    }
}

fn prices(task: &Task) -> Vec<u32> {
    task.operators().iter().map(|operator| operator.price).collect()
}

/// Follows the plan text from the initial state and returns its cost, checking that it ends in a goal state.
fn cost_of_plan_text(task: &Task, text: &[u8]) -> u64 {
    let text = String::from_utf8(text.to_vec()).unwrap();
    let mut lines: Vec<&str> = text.lines().collect();
    let last = lines.pop().unwrap();
    let claimed: u64 = last
        .strip_prefix("; cost = ")
        .and_then(|rest| rest.strip_suffix(" (general cost)"))
        .unwrap()
        .parse()
        .unwrap();
    // Names may repeat: any operator of the name with the right price may have been meant, so all
    // states that the names can lead to are kept with their costs.
    let mut states = BTreeSet::from([(task.initial_state(), 0u64)]);
    for line in lines {
        let name = line.strip_prefix('(').and_then(|rest| rest.strip_suffix(')')).unwrap();
        let mut next_states = BTreeSet::new();
        for (state, cost) in &states {
            for (number, operator) in task.operators().iter().enumerate() {
                let mut next = state.clone();
                if operator.name == name.as_bytes() && task.apply(number, &mut next) {
                    next_states.insert((next, cost + u64::from(operator.price)));
                }
            }
        }
        states = next_states;
    }
    assert!(states.iter().any(|(state, cost)| task.has_goal(state) && *cost == claimed));
    claimed
}

const SHAPES: [Shape; 9] = [
    Shape::Small,
    Shape::Furniture,
    Shape::Zeros,
    Shape::DeadEnds,
    Shape::Unrequired,
    Shape::Puzzle,
    Shape::Patterned,
    Shape::Ties,
    Shape::Names,
];

#[test]
fn plans_are_cheapest() {
    let (mut found, mut none) = (0, 0);
    for seed in 0..1200 {
        let mut random = Random::new(seed);
        let shape = *random.pick(&SHAPES);
        let text = model_of(shape, &mut random).text();
        let task = read(&text).unwrap();
        let Some(costs) = reachable(&task, 1500) else { continue };
        let least = costs.iter().filter(|(state, _)| task.has_goal(state)).map(|(_, &cost)| cost).min();
        match (plan(&text), least) {
            (Answer::Plan(text), Some(least)) => {
                found += 1;
                assert_eq!(cost_of_plan_text(&task, &text), least, "seed {seed}");
            }
            (Answer::NoPlan, None) => none += 1,
            (answer, least) => panic!("seed {seed}: {answer:?}, but {least:?}"),
        }
    }
    assert!(found > 300 && none > 100, "{found} {none}");
}

#[test]
fn capacity_is_exact() {
    for seed in 0..40 {
        let mut random = Random::new(seed);
        let text = model_of(Shape::Capacity, &mut random).text();
        let task = read(&text).unwrap();
        let Some(states) = reachable(&task, 5000) else { continue };
        let all = search_numbers(&task, states.len(), u64::MAX).unwrap();
        assert_ne!(all.outcome, 3);
        if all.outcome == 2 {
            assert_eq!(all.nodes, states.len() as u64);
            assert_eq!(search_numbers(&task, states.len() - 1, u64::MAX).unwrap().outcome, 3);
        }
    }
}

#[test]
fn tables_are_least_costs_and_prices_saturate() {
    for seed in 0..400 {
        let mut random = Random::new(seed);
        let shape = *random.pick(&SHAPES);
        let text = model_of(shape, &mut random).text();
        let task = read(&text).unwrap();
        let pattern = &patterns(&task)[0];
        let domains: Vec<usize> =
            pattern.iter().map(|&v| usize::from(task.variables()[usize::from(v)].domain)).collect();
        let ranks: usize = domains.iter().product();
        if ranks > 600 {
            continue;
        }
        let numbers = projection_numbers(&task, pattern).unwrap();
        assert_eq!(numbers.table.len(), ranks);

        // All abstract steps, forwards.
        let digits = |rank: usize| -> Vec<usize> {
            let mut rest = rank;
            let mut digits = vec![0; domains.len()];
            for place in (0..domains.len()).rev() {
                digits[place] = rest % domains[place];
                rest /= domains[place];
            }
            digits
        };
        let place = |variable: u8| pattern.iter().position(|&v| v == variable);
        let mut steps = Vec::new();
        for a in 0..ranks {
            let from = digits(a);
            for number in 0..task.operators().len() {
                let held = |variable: u8, value: u8| {
                    place(variable).is_none_or(|place| from[place] == usize::from(value))
                };
                if task.conditions(number).iter().all(|c| held(c.variable, c.value))
                    && task.effects(number).iter().all(|e| e.required.is_none_or(|r| held(e.variable, r)))
                {
                    let mut to = from.clone();
                    for effect in task.effects(number) {
                        if let Some(place) = place(effect.variable) {
                            to[place] = usize::from(effect.after);
                        }
                    }
                    let b = to.iter().zip(&domains).fold(0, |rank, (digit, domain)| rank * domain + digit);
                    steps.push((a, number, b));
                }
            }
        }
        let mut distances = vec![None; ranks];
        for (rank, distance) in distances.iter_mut().enumerate() {
            let digits = digits(rank);
            let held = |f: &bench::task::Fact| {
                place(f.variable).is_none_or(|place| digits[place] == usize::from(f.value))
            };
            *distance = task.goal().iter().all(held).then_some(0i64);
        }
        loop {
            let before = distances.clone();
            for &(a, number, b) in &steps {
                if let Some(rest) = distances[b] {
                    let cost = rest + i64::from(task.operators()[number].price);
                    distances[a] = Some(distances[a].map_or(cost, |known: i64| known.min(cost)));
                }
            }
            if distances == before {
                break;
            }
        }
        let table: Vec<u32> =
            distances.iter().map(|distance| distance.map_or(NO_DISTANCE, |d| d as u32)).collect();
        assert_eq!(numbers.table, table, "seed {seed}");
        let mut held = vec![0; task.operators().len()];
        for &(a, number, b) in &steps {
            if let (Some(a), Some(b)) = (distances[a], distances[b]) {
                held[number] = (a - b).max(held[number]);
            }
        }
        let held: Vec<u32> = held.into_iter().map(|price| price as u32).collect();
        assert_eq!(numbers.held, held, "seed {seed}");
    }
}

#[test]
fn estimates_are_lower_bounds_at_held_prices() {
    for seed in 0..200 {
        let mut random = Random::new(seed);
        let shape = *random.pick(&SHAPES);
        let text = model_of(shape, &mut random).text();
        let task = read(&text).unwrap();
        let Some(states) = reachable(&task, 200) else { continue };
        let all: Vec<u8> = (0..task.variables().len() as u8).collect();
        let (left, right) = all.split_at(random.below(all.len().min(7) + 1));
        let right = &right[..right.len().min(6)];
        let one = || Projection::new(left, 65_536);
        let two = || Projection::new(right, 65_536);
        check_bound(&task, &states, one());
        check_bound(&task, &states, Partition::new(one(), two()));
        check_bound(&task, &states, Maximum::new(two(), one()));
        check_bound(&task, &states, Partition::new(Maximum::new(two(), one()), Partition::new(one(), two())));
    }
}

fn check_bound<E: Estimator>(task: &Task, states: &BTreeMap<Vec<u8>, u64>, mut estimator: E) {
    let offered = prices(task);
    let mut left = offered.clone();
    if estimator.set(task, &mut left, 1).is_err() {
        assert_eq!(left, offered);
        return;
    }
    let held: Vec<u32> = offered.iter().zip(&left).map(|(offered, left)| offered - left).collect();
    let costs = to_goal(task, states, &held);
    for state in states.keys() {
        match (estimator.estimate(task, state), costs.get(state)) {
            (Some(estimate), Some(&cost)) => assert!(u64::from(estimate) <= cost),
            (None, Some(_)) => panic!("absent where a plan starts"),
            _ => {}
        }
    }
}

/// Answers numbers that depend on the state alone, too great or too small, or absent.
struct Wild(u64);

impl Estimator for Wild {
    const KIND: u8 = 99;

    fn set(&mut self, _: &Task, _: &mut [u32], _: u16) -> Result<(), bench::fault::SetFault> {
        Ok(())
    }

    fn estimate(&mut self, _: &Task, row: &[u8]) -> Option<u32> {
        let seed = row.iter().fold(self.0, |sum, &byte| sum * 257 + u64::from(byte) + 1);
        let mut random = Random::new(seed);
        (!random.chance(1, 30)).then(|| random.below(20) as u32)
    }
}

/// The search's steps written once more with plain lists, under an estimator that makes it reopen nodes.
#[test]
fn steps_as_stated() {
    let mut reopened = 0;
    for seed in 0..2000 {
        let mut random = Random::new(seed);
        let shape = *random.pick(&SHAPES);
        let text = model_of(shape, &mut random).text();
        let task = read(&text).unwrap();
        let capacity = *random.pick(&[1, 2, 5, 30, 300]);
        let n = *random.pick(&[1, 3, 10, 1000]);
        let mut wild = Wild(seed);

        let mut search = Search::open(&task, capacity);
        let mut go_ahead = search.start(&mut wild, &mut prices(&task)).unwrap();

        // Node: state, g, parent, operator. Queue: f, estimate, node.
        let mut nodes = vec![(task.initial_state(), 0u64, 0, 0)];
        let mut queue: Vec<(u64, u64, usize)> = Vec::new();
        if let Some(estimate) = wild.estimate(&task, &nodes[0].0) {
            queue.push((u64::from(estimate), u64::from(estimate), 0));
        }
        let (mut bound, mut total) = (0, 0);
        let mut expanded = BTreeSet::new();
        'advances: loop {
            let mut made = 0;
            let outcome = loop {
                if made == n {
                    break "more";
                }
                let Some(&least) = queue.iter().min() else { break "none" };
                queue.retain(|&entry| entry != least);
                let (f, _, node) = least;
                bound = bound.max(f);
                let (state, g, _, _) = nodes[node].clone();
                if task.has_goal(&state) {
                    break "found";
                }
                made += 1;
                total += 1;
                if !expanded.insert(node) {
                    reopened += 1;
                }
                let mut full = false;
                for number in 0..task.operators().len() {
                    let mut next = state.clone();
                    if !task.apply(number, &mut next) {
                        continue;
                    }
                    let cost = g + u64::from(task.operators()[number].price);
                    let item = match nodes.iter().position(|node| node.0 == next) {
                        Some(item) if cost < nodes[item].1 => {
                            nodes[item] = (next.clone(), cost, node, number);
                            item
                        }
                        Some(_) => continue,
                        None if nodes.len() == capacity => {
                            full = true;
                            break;
                        }
                        None => {
                            nodes.push((next.clone(), cost, node, number));
                            nodes.len() - 1
                        }
                    };
                    queue.retain(|entry| entry.2 != item);
                    if let Some(estimate) = wild.estimate(&task, &next) {
                        let estimate = u64::from(estimate);
                        queue.push((cost + estimate, estimate, item));
                    }
                }
                if full {
                    break "full";
                }
            };
            let report = search.advance(&mut wild, go_ahead, n).unwrap();
            assert_eq!((report.bound, report.expansions), (bound, total), "seed {seed}");
            match (report.outcome, outcome) {
                (Outcome::More(returned), "more") => {
                    go_ahead = returned;
                    if total > 2000 {
                        break 'advances;
                    }
                }
                (Outcome::None, "none") | (Outcome::Full, "full") => break 'advances,
                (Outcome::Found(find), "found") => {
                    let item = find.node as usize;
                    assert_eq!(u64::from(find.cost), nodes[item].1);
                    let mut path = Vec::new();
                    let mut at = item;
                    while at != 0 {
                        path.push(nodes[at].3 as u16);
                        at = nodes[at].2;
                    }
                    path.reverse();
                    assert_eq!(search.plan(find), Ok(path));
                    break 'advances;
                }
                (given, wanted) => panic!("seed {seed}: {given:?}, but {wanted}"),
            }
        }
        assert_eq!(search.node_count(), nodes.len());
    }
    assert!(reopened > 100, "{reopened}");
}

#[derive(Clone, Copy, Debug, PartialEq, Eq, PartialOrd, Ord)]
struct Keyed(u8, usize);

impl Entry for Keyed {
    type Key = (u8, usize);

    fn item(&self) -> usize {
        self.1
    }

    fn key(&self) -> (u8, usize) {
        (self.0, self.1)
    }
}

#[test]
fn queue_hands_out_the_least() {
    let mut random = Random::new(7);
    let mut queue = Queue::new(50);
    let mut plain: BTreeMap<usize, Keyed> = BTreeMap::new();
    for _ in 0..100_000 {
        match random.below(5) {
            0..=2 => {
                let entry = Keyed(random.below(20) as u8, random.below(50));
                queue.put(entry);
                plain.insert(entry.1, entry);
            }
            3 => {
                let item = random.below(50);
                queue.drop(item);
                plain.remove(&item);
            }
            _ => {
                let least = plain.values().min().copied();
                assert_eq!(queue.take(), least);
                if let Some(least) = least {
                    plain.remove(&least.1);
                }
            }
        }
        assert_eq!(queue.len(), plain.len());
    }
}

/// The first capacity that does not end in "full" answers as every greater one.
#[test]
fn capacity_only_limits() {
    for seed in 0..60 {
        let text = case(seed, None, 0).text;
        let Ok(task) = read(&text) else { continue };
        if reachable(&task, 300).is_none() {
            continue;
        }
        let answer = plan(&text);
        let mut settled = false;
        for capacity in 1..=301 {
            let limited = plan_with(&text, capacity);
            if settled || limited != Answer::Full {
                settled = true;
                assert_eq!(limited, answer, "seed {seed}, capacity {capacity}");
            }
        }
        assert!(settled);
    }
}
