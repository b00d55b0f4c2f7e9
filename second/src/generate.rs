//! Random placements of many shapes.

use crate::model::*;
use crate::random::Random;

/// How a placement is drawn; chances are in a hundred.
struct Shape {
    n: usize,
    m: usize,
    /// that a trainee ranks a depot
    ranks: usize,
    /// that a depot ranks a trainee who ranks it, and one who doesn't
    returns: usize,
    strangers: usize,
    most_posts: usize,
    orders: usize,
    /// that a list or posts were not received
    missing: usize,
}

/// A placement of a shape that is drawn too; one in fifty is of full size.
pub fn any(random: &mut Random) -> Placement {
    match random.below(400) {
        0..=3 => full_size(random),
        4..=7 => full_orders(random),
        8..=99 => tiny(random),
        100..=199 => tiny_missing(random),
        200..=239 => no_posts(random),
        240..=299 => one_sided(random),
        300..=349 => empty_side(random),
        _ => middling(random),
    }
}

/// Few enough trainees and depots that every table can be tried, and everything received.
pub fn tiny(random: &mut Random) -> Placement {
    let shape = Shape {
        n: random.within(0, 5),
        m: random.within(0, 3),
        ranks: *random.pick(&[50, 80, 100]),
        returns: *random.pick(&[60, 90, 100]),
        strangers: *random.pick(&[0, 20]),
        most_posts: random.within(0, 3),
        orders: *random.pick(&[0, 0, 1, 2, 4]),
        missing: 0,
    };
    draw(random, &shape)
}

/// A tiny one, with lists and posts not received.
fn tiny_missing(random: &mut Random) -> Placement {
    let mut placement = tiny(random);
    lose(random, &mut placement, 15);
    placement
}

/// Depots that mostly have 0 posts.
fn no_posts(random: &mut Random) -> Placement {
    let mut placement = tiny(random);
    for depot in &mut placement.depots {
        depot.posts = Some(random.below(5) / 4);
    }
    placement
}

/// Many entries that aren't returned.
fn one_sided(random: &mut Random) -> Placement {
    let shape = Shape {
        n: random.within(1, 12),
        m: random.within(1, 8),
        ranks: 60,
        returns: 40,
        strangers: 60,
        most_posts: 3,
        orders: random.below(4),
        missing: 0,
    };
    draw(random, &shape)
}

/// No trainees, or no depots.
fn empty_side(random: &mut Random) -> Placement {
    let trainees = random.percent(50);
    let shape = Shape {
        n: if trainees { random.within(0, 9) } else { 0 },
        m: if trainees { 0 } else { random.within(0, 9) },
        ranks: 50,
        returns: 50,
        strangers: 50,
        most_posts: 2,
        orders: 2,
        missing: 5,
    };
    draw(random, &shape)
}

/// Some tens of trainees, now and then with something not received.
fn middling(random: &mut Random) -> Placement {
    let shape = Shape {
        n: random.within(1, 60),
        m: random.within(1, 20),
        ranks: *random.pick(&[10, 30, 60]),
        returns: *random.pick(&[70, 100]),
        strangers: *random.pick(&[0, 5, 20]),
        most_posts: *random.pick(&[1, 3, 256]),
        orders: *random.pick(&[0, 3, 30]),
        missing: *random.pick(&[0, 0, 1]),
    };
    draw(random, &shape)
}

/// As many trainees, depots and entries as there may be.
pub fn full_size(random: &mut Random) -> Placement {
    let mut numbers: Vec<usize> = (1..=MOST_TRAINEES).collect();
    random.shuffle(&mut numbers);
    let mut trainees = vec![Vec::new(); MOST_TRAINEES];
    let mut depots = vec![Vec::new(); MOST_DEPOTS];
    for (at, &trainee) in numbers.iter().enumerate() {
        for step in 0..MOST_ENTRIES / MOST_TRAINEES {
            let depot = (at + step * 5) % MOST_DEPOTS + 1;
            trainees[trainee - 1].push(depot);
            depots[depot - 1].push(trainee);
        }
    }
    let ranked = |mut list: Vec<usize>, random: &mut Random| {
        random.shuffle(&mut list);
        Some(list)
    };
    let most_posts = *random.pick(&[2, 4, 8]);
    let mut placement = Placement {
        trainees: trainees
            .into_iter()
            .map(|list| ranked(list, random))
            .collect(),
        depots: Vec::new(),
        orders: Vec::new(),
    };
    for list in depots {
        let posts = Some(random.within(0, most_posts));
        let list = ranked(list, random);
        placement.depots.push(Depot { posts, list });
    }
    placement
}

/// Full size, with as many orders as there may be, barred pairs for the most part.
fn full_orders(random: &mut Random) -> Placement {
    let mut placement = full_size(random);
    add_orders(random, &mut placement, MOST_ORDERS);
    for order in &mut placement.orders {
        if random.percent(95) {
            order.kind = Kind::Barred;
        }
    }
    placement
}

/// A placement of a shape.
fn draw(random: &mut Random, shape: &Shape) -> Placement {
    let mut placement = Placement::default();
    let mut entries = 0;
    for _ in 0..shape.n {
        let list = (1..=shape.m)
            .filter(|_| random.percent(shape.ranks))
            .collect();
        placement
            .trainees
            .push(shortened(random, list, &mut entries));
    }
    entries = 0;
    for depot in 1..=shape.m {
        let mut list = Vec::new();
        for (at, wishes) in placement.trainees.iter().enumerate() {
            let ranked = wishes
                .as_ref()
                .is_some_and(|wishes| wishes.contains(&depot));
            let chance = if ranked {
                shape.returns
            } else {
                shape.strangers
            };
            if random.percent(chance) {
                list.push(at + 1);
            }
        }
        let posts = Some(random.within(0, shape.most_posts));
        let list = shortened(random, list, &mut entries);
        placement.depots.push(Depot { posts, list });
    }
    add_orders(random, &mut placement, shape.orders);
    lose(random, &mut placement, shape.missing);
    placement
}

/// A list in random order, cut so that its side keeps to its limit.
fn shortened(random: &mut Random, mut list: Vec<usize>, entries: &mut usize) -> Ranking {
    random.shuffle(&mut list);
    list.truncate(MOST_ENTRIES - *entries);
    *entries += list.len();
    Some(list)
}

/// Orders: of mutual pairs and of strangers, with repeats and contradictions.
fn add_orders(random: &mut Random, placement: &mut Placement, number: usize) {
    let (n, m) = (placement.trainees.len(), placement.depots.len());
    if n == 0 || m == 0 {
        return;
    }
    for _ in 0..number {
        let kind = *random.pick(&[Kind::Held, Kind::Barred]);
        let mut trainee = random.within(1, n);
        let mut depot = random.within(1, m);
        if let Some(wishes) = placement.trainees[trainee - 1]
            .as_ref()
            .filter(|wishes| !wishes.is_empty())
        {
            if random.percent(70) {
                depot = *random.pick(wishes);
            }
        }
        if !placement.orders.is_empty() && random.percent(20) {
            let earlier = *random.pick(&placement.orders);
            (trainee, depot) = (earlier.trainee, earlier.depot);
        }
        placement.orders.push(Order {
            kind,
            trainee,
            depot,
        });
    }
}

/// Takes lists and posts away, each by a chance.
fn lose(random: &mut Random, placement: &mut Placement, chance: usize) {
    for list in &mut placement.trainees {
        if random.percent(chance) {
            *list = None;
        }
    }
    for depot in &mut placement.depots {
        if random.percent(chance) {
            depot.list = None;
        }
        if random.percent(chance) {
            depot.posts = None;
        }
    }
}
