//! Routers that are joined by links in memory: after any order of changes tables have no loop and, at rest,
//! least costs.

use std::collections::VecDeque;
use std::num::NonZeroU16;
use tuhvondi::{Distance, Image, Message, Prefix, Router, Row, Status, Target};

/// A link between two ports: who is at its ends, the costs from there, and what is on its way to each.
struct Link {
    ends: [(usize, u8); 2],
    costs: [NonZeroU16; 2],
    session: u16,
    is_up: bool,
    queues: [VecDeque<Message>; 2],
}

/// Routers with their images.
struct Network {
    nodes: Vec<(Router, Image)>,
    links: Vec<Link>,
}

fn cost(value: u16) -> NonZeroU16 {
    NonZeroU16::new(value).unwrap()
}

/// Numbers that look drawn.
struct Draws(u64);

impl Draws {
    fn below(&mut self, most: usize) -> usize {
        self.0 = self
            .0
            .wrapping_mul(6364136223846793005)
            .wrapping_add(1442695040888963407);
        (self.0 >> 33) as usize % most
    }
}

impl Network {
    /// A ring, of which router i is attached to prefixes[i].
    fn ring(prefixes: &[Prefix]) -> Network {
        let count = prefixes.len();
        let nodes = prefixes.iter().map(|&prefix| {
            let router = Router::new(&[cost(1), cost(1)], &[(prefix, cost(1))], count).unwrap();
            (
                router,
                Image::new(&[Row::new(prefix, Target::Local)]).unwrap(),
            )
        });
        // Port 0 goes to the next router, port 1 to the one before.
        let links = (0..count).map(|i| Link {
            ends: [(i, 0), ((i + 1) % count, 1)],
            costs: [cost(1 + i as u16), cost(2 + i as u16)],
            session: 0,
            is_up: false,
            queues: [VecDeque::new(), VecDeque::new()],
        });
        Network {
            nodes: nodes.collect(),
            links: links.collect(),
        }
    }

    fn set_up(&mut self, link: usize) {
        let link = &mut self.links[link];
        link.session += 1;
        link.is_up = true;
        for (&(node, port), &cost) in link.ends.iter().zip(&link.costs) {
            self.nodes[node]
                .0
                .link_up(port, link.session, cost)
                .unwrap();
        }
    }

    fn set_down(&mut self, link: usize) {
        let link = &mut self.links[link];
        link.is_up = false;
        link.queues = [VecDeque::new(), VecDeque::new()];
        for &(node, port) in &link.ends {
            self.nodes[node].0.link_down(port).unwrap();
        }
    }

    /// Puts two rows in force at a router, and gives whether anything was due.
    fn publish_part(&mut self, node: usize) -> bool {
        let (router, image) = &mut self.nodes[node];
        let Some(publication) = router.publish_some(2).unwrap() else {
            return false;
        };
        image
            .apply(publication.generation(), publication.rows())
            .unwrap();
        true
    }

    /// Takes the rows of prefixes that a router may forget out of its image.
    fn forget(&mut self, node: usize) {
        let (router, image) = &mut self.nodes[node];
        let generation = image.generation();
        image
            .remove(generation, &router.forget_all().unwrap())
            .unwrap();
    }

    /// Publishes and releases at a router, and gives whether there was anything.
    fn publish(&mut self, node: usize) -> bool {
        let mut any = false;
        while self.publish_part(node) {
            any = true;
        }
        let router = &mut self.nodes[node].0;
        while let Some(message) = router.release() {
            for link in &mut self.links {
                for end in 0..2 {
                    if link.ends[end] == (node, message.port)
                        && link.is_up
                        && link.session == message.session
                    {
                        link.queues[1 - end].push_back(message);
                    }
                }
            }
            any = true;
        }
        any
    }

    /// Delivers one message to an end of a link, if one is there.
    fn deliver(&mut self, link: usize, end: usize) -> bool {
        let link = &mut self.links[link];
        let Some(mut message) = link.queues[end].pop_front() else {
            return false;
        };
        let (node, port) = link.ends[end];
        message.port = port;
        self.nodes[node].0.message(&message).unwrap();
        true
    }

    fn settle(&mut self) {
        loop {
            let mut any = false;
            for node in 0..self.nodes.len() {
                any |= self.publish(node);
            }
            for link in 0..self.links.len() {
                any |= self.deliver(link, 0) | self.deliver(link, 1);
            }
            if !any {
                return;
            }
        }
    }

    /// Follows a packet from each router by the images as they stand: it meets no router twice.
    fn follow(&mut self, prefix: Prefix) {
        for from in 0..self.nodes.len() {
            let mut met = vec![from];
            loop {
                let at = met[met.len() - 1];
                let Some(row) = self.nodes[at].1.lookup(prefix.addr()) else {
                    break;
                };
                let Target::Via { port, session } = row.target() else {
                    break;
                };
                let over = self
                    .links
                    .iter()
                    .find(|link| link.ends.contains(&(at, port)))
                    .unwrap();
                if !over.is_up || over.session != session {
                    break;
                }
                let next = over.ends[usize::from(over.ends[0] == (at, port))].0;
                assert!(!met.contains(&next), "a packet meets {next} twice: {met:?}");
                met.push(next);
            }
        }
    }
}

#[test]
fn packets_meet_no_router_twice() {
    // 10.0.0.0/8, and five prefixes in it.
    let prefixes: Vec<Prefix> = (0..6)
        .map(|i| Prefix::new([10, i, 0, 0].into(), if i == 0 { 8 } else { 16 }).unwrap())
        .collect();
    let mut network = Network::ring(&prefixes);
    let mut draws = Draws(1993);
    for link in 0..network.links.len() {
        network.set_up(link);
    }
    for _ in 0..4000 {
        let link = draws.below(network.links.len());
        let node = draws.below(network.nodes.len());
        match draws.below(16) {
            0 if network.links[link].is_up => network.set_down(link),
            0 => network.set_up(link),
            1 => {
                let router = &mut network.nodes[node].0;
                if router.detach(prefixes[node]).is_err() {
                    router.attach(prefixes[node], cost(1)).unwrap();
                }
            }
            2 => network.forget(node),
            3 => {
                network.publish_part(node);
            }
            4..8 => {
                network.publish(node);
            }
            _ => {
                network.deliver(link, draws.below(2));
            }
        }
        for &prefix in &prefixes {
            network.follow(prefix);
        }
    }
    for link in 0..network.links.len() {
        if !network.links[link].is_up {
            network.set_up(link);
        }
    }
    for (&prefix, (router, _)) in prefixes.iter().zip(&mut network.nodes) {
        router.attach(prefix, cost(1)).unwrap();
    }
    network.settle();
    // Router 0 is one link of cost 1 from router 1, which is attached at cost 1; the way round is longer.
    let state = network.nodes[0].0.state(prefixes[1]).unwrap();
    assert_eq!((state.distance, state.is_active), (Distance(2), false));
    assert!(matches!(
        state.published.unwrap().target(),
        Target::Via { port: 0, .. }
    ));
    // From router 0 to 3: by 1 and 2 it is 1 + 2 + 3 + 1; by 5 and 4 it is 7 + 6 + 5 + 1.
    assert_eq!(
        network.nodes[0].0.state(prefixes[3]).unwrap().distance,
        Distance(7)
    );
    assert_eq!(network.nodes[0].0.rows().unwrap().len(), 6);
}

#[test]
fn a_refused_call_leaves_the_router_as_it_was() {
    let net: Prefix = "10.0.0.0/8".parse().unwrap();
    let mut router = Router::new(&[cost(5)], &[], 1).unwrap();
    assert_eq!(router.link_up(1, 1, cost(1)), Err(Status::UnknownPort));
    assert_eq!(router.link_up(0, 0, cost(1)), Err(Status::OtherSession));
    assert_eq!(router.link_down(0), Err(Status::IsDown));
    assert_eq!(router.link_cost(0, cost(2)), Err(Status::IsDown));
    assert_eq!(router.detach(net), Err(Status::NotAttached));
    assert!(router.state(net).is_none() && router.release().is_none());
    assert!(router.publish().unwrap().is_none());
    assert_eq!(router.counts(), tuhvondi::Counts::default());
    router.attach(net, cost(3)).unwrap();
    assert_eq!(router.state(net).unwrap().attached, Some(cost(3)));
    router.detach(net).unwrap();
    assert_eq!(router.state(net).unwrap().distance, Distance::INFINITY);
    assert_eq!(
        Router::new(&[cost(1); 33], &[], 1).unwrap_err(),
        Status::TooManyPorts
    );
    let other = "192.0.2.0/24".parse().unwrap();
    assert_eq!(router.attach(other, cost(1)), Err(Status::TooManyPrefixes));
    assert_eq!(router.forget(other), Err(Status::UnknownPrefix));
    // The row is not in force yet.
    assert_eq!(router.forget(net), Err(Status::StillUsed));
    assert_eq!(router.publish_some(0).unwrap_err(), Status::BadCount);
    assert_eq!(router.counts().changed, 1);
}

#[test]
fn a_router_goes_to_another_thread() {
    let default = "0.0.0.0/0".parse().unwrap();
    let mut router = Router::new(&[cost(1)], &[(default, cost(1))], 1).unwrap();
    let rows = std::thread::spawn(move || router.rows())
        .join()
        .unwrap()
        .unwrap();
    assert_eq!(rows, [Row::new(default, Target::Local)]);
}

#[test]
fn a_prefix_that_nobody_is_attached_to_is_forgotten() {
    let net: Prefix = "10.0.0.0/8".parse().unwrap();
    let inner: Prefix = "10.1.0.0/16".parse().unwrap();
    let other = "192.0.2.0/24".parse().unwrap();
    let mut network = Network::ring(&[net, inner, other]);
    for link in 0..network.links.len() {
        network.set_up(link);
    }
    network.settle();
    network.nodes[1].0.detach(inner).unwrap();
    network.settle();
    for node in 0..3 {
        let found = network.nodes[node].1.lookup(inner.addr());
        assert_eq!(found, Some(Row::new(inner, Target::Unreachable)));
        network.forget(node);
        let (router, image) = &mut network.nodes[node];
        assert!(router.state(inner).is_none() && router.forget_all().unwrap().is_empty());
        assert_eq!(image.lookup(inner.addr()).unwrap().prefix(), net);
        assert_eq!(image.row_count(), 2);
    }
    // There is room for it again, and all learn of it.
    network.nodes[2].0.attach(inner, cost(1)).unwrap();
    network.settle();
    for (router, image) in &mut network.nodes {
        assert_eq!(image.lookup(inner.addr()).unwrap().prefix(), inner);
        assert_eq!(router.counts().prefixes, 3);
    }
}

#[test]
fn rows_come_in_parts_before_messages_leave() {
    let mut router = Router::new(&[cost(1)], &[], 8).unwrap();
    router.link_up(0, 1, cost(1)).unwrap();
    drop(router.publish().unwrap());
    let prefixes: Vec<Prefix> = (0..5)
        .map(|i| Prefix::new([10, i, 0, 0].into(), 16).unwrap())
        .collect();
    for &prefix in &prefixes {
        router.attach(prefix, cost(1)).unwrap();
    }
    let mut given = Vec::new();
    for left in [3, 1, 0] {
        let publication = router.publish_some(2).unwrap().unwrap();
        assert_eq!(publication.more(), left > 0);
        given.extend(publication.rows().iter().map(|row| row.prefix()));
        drop(publication);
        assert_eq!(router.counts().changed, left);
        assert_eq!(router.counts().ripe, if left > 0 { 0 } else { 5 });
    }
    assert_eq!(given, prefixes);
    assert!(router.publish_some(2).unwrap().is_none());
}
