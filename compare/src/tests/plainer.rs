//! Still plainer workings: every shortest path written out, and the joining rules of document 01.

use crate::block::read_block;
use crate::deck::{read_deck, Form};
use crate::fraction::Fraction;
use crate::graph::Graph;
use crate::make::blocks::random_block;
use crate::make::decks::random_deck;
use crate::make::random::Random;
use crate::molecule::write_out;
use crate::polynomial::{pairs_at, values};
use crate::shares::{contributions, path_counts, whole_contributions};

fn small_block(random: &mut Random) -> Graph {
    let block = random_block(random, 9);
    read_block(block.atoms as usize, &block.bond_bytes()).expect("a good block")
}

/// Distances by relaxing every bond until nothing changes.
fn relaxed(graph: &Graph) -> Vec<Vec<usize>> {
    let far = graph.atoms;
    let mut distance = vec![vec![far; graph.atoms + 1]; graph.atoms + 1];
    for start in 1..=graph.atoms {
        distance[start][start] = 0;
        for _ in 0..graph.atoms {
            for &(u, v) in &graph.bonds {
                distance[start][u] = distance[start][u].min(distance[start][v] + 1);
                distance[start][v] = distance[start][v].min(distance[start][u] + 1);
            }
        }
    }
    distance
}

/// All shortest paths from i to j, each as its list of atoms.
fn shortest_paths(graph: &Graph, i: usize, j: usize) -> Vec<Vec<usize>> {
    let far = relaxed(graph)[i][j];
    let mut paths = vec![vec![i]];
    for _ in 0..far {
        let mut longer = Vec::new();
        for path in paths {
            for next in &graph.neighbours()[*path.last().unwrap()] {
                longer.push([&path[..], &[*next]].concat());
            }
        }
        paths = longer;
    }
    paths.retain(|path| *path.last().unwrap() == j);
    paths
}

fn uses(path: &[usize], (u, v): (usize, usize)) -> bool {
    path.windows(2).any(|step| step == [u, v] || step == [v, u])
}

#[test]
fn distances_by_relaxing() {
    let mut random = Random::new(1);
    for _ in 0..200 {
        let block = small_block(&mut random);
        let (searched, relaxed) = (block.distances(), relaxed(&block));
        for i in 1..=block.atoms {
            assert_eq!(searched[i][1..], relaxed[i][1..]);
        }
    }
}

#[test]
fn contributions_by_the_paths_themselves() {
    let mut random = Random::new(2);
    for _ in 0..60 {
        let block = small_block(&mut random);
        let counts = path_counts(&block);
        let mut expected = vec![Fraction::ZERO; block.bonds.len()];
        for i in 1..=block.atoms {
            for j in i + 1..=block.atoms {
                let paths = shortest_paths(&block, i, j);
                assert_eq!(counts[i][j], paths.len() as u128);
                for (share, &bond) in expected.iter_mut().zip(&block.bonds) {
                    let using = paths.iter().filter(|path| uses(path, bond)).count();
                    *share = *share + Fraction::new(using as u128, paths.len() as u128);
                }
            }
        }
        assert_eq!(contributions(&block), expected);
    }
}

#[test]
fn contributions_add_up() {
    let mut random = Random::new(3);
    for _ in 0..40 {
        let plan = random_block(&mut random, 64);
        let block = read_block(plan.atoms as usize, &plan.bond_bytes()).expect("a good block");
        if let Ok((d, shares)) = whole_contributions(&block) {
            assert_eq!(shares.iter().sum::<u64>(), d * block.indices().w);
        }
    }
}

/// At 0.5 both values are exact for a block of largest distance at most 40.
#[test]
fn values_at_a_half_are_exact() {
    let mut random = Random::new(4);
    for _ in 0..100 {
        let plan = random_block(&mut random, 40);
        let block = read_block(plan.atoms as usize, &plan.bond_bytes()).expect("a good block");
        let pairs = pairs_at(&block);
        let scaled =
            |parity| (1..=40).filter(|k| k % 2 == parity).map(|k| (pairs[k] as u128) << (40 - k)).sum::<u128>();
        let [even, odd] = values(&block, 0.5).expect("0.5 is fine");
        let scale = (1u64 << 40) as f64;
        assert_eq!([(even * scale) as u128, (odd * scale) as u128], [scaled(0), scaled(1)]);
    }
}

/// The rules of document 01 under "Joining", placement by placement, against the molecule written out.
#[test]
fn joining_rules() {
    let mut random = Random::new(5);
    for _ in 0..100 {
        let plan = random_deck(&mut random);
        let deck = read_deck(&plan.bytes(), Form::Composed).expect("a good deck");
        for placed in 1..deck.placements.len() {
            let mut shorter = deck.clone();
            shorter.placements.truncate(placed);
            let before = write_out(&shorter);
            shorter.placements.push(deck.placements[placed]);
            let after = write_out(&shorter);
            let own = &deck.blocks[deck.placements[placed].block];
            let &(a, b) = after.bonds.last().expect("a join");
            let (ia, ib) = (before.indices(), own.indices());
            let (va, vb) = (before.vertex(a), own.vertex(b - before.atoms));
            let w = ia.w + ib.w + ib.atoms * va.sum + ia.atoms * ib.atoms + ia.atoms * vb.sum;
            let (p, q) = (va.even_count, va.odd_count);
            let even = va.even * vb.odd_count + p * vb.odd_count + p * vb.odd;
            let even = even + va.odd * vb.even_count + q * vb.even_count + q * vb.even;
            let polarity = vb.twos + va.ones * vb.ones + va.twos;
            let found = after.indices();
            assert_eq!(
                [found.w, found.even, found.polarity],
                [w, ia.even + ib.even + even, ia.polarity + ib.polarity + polarity]
            );
            assert_eq!(found.odd, w - found.even);
            let largest = |graph: &Graph| graph.distances().concat().into_iter().max();
            let (fa, fb) = (before.farthest(a), own.farthest(b - before.atoms));
            let across = (fa + 1 + fb) as usize;
            assert_eq!(largest(&after), largest(&before).max(largest(own)).max(Some(across)));
            assert_eq!([after.farthest(a), after.farthest(b)], [fa.max(1 + fb), fb.max(1 + fa)]);
        }
    }
}
