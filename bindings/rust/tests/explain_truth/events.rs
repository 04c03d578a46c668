//! The events that the steps and stops of an explanation refer to are those that they speak of.

use crate::world::World;
use scope_deps::explain::{Base, Elsewhere, End, Explanation, How, Reason, Step, Stop, Unknown};
use scope_deps::{BlockId, NodeId, Path};

pub fn check_events(world: &World, explanation: &Explanation) {
    for step in &explanation.steps {
        check_step(world, &explanation.steps, step);
    }
    for stop in explanation.reasons.iter().flat_map(unknowns).flat_map(stops) {
        let visit = &world.replay.visits()[stop.visit];
        assert_eq!((world.id_list(&[visit.block]), visit.side), (vec![stop.at], stop.side));
        assert_eq!(visit, world.last_visit(stop.at, stop.side));
    }
    for added in &explanation.added {
        let visit = &world.replay.visits()[added.visit];
        let block = world.id_list(&[visit.block])[0];
        assert_eq!((visit.round, visit.side, block), (added.round, added.side, added.block));
        let nodes: Vec<NodeId> = added.nodes.iter().map(|(node, _)| *node).collect();
        assert_eq!(visit.replaced[added.place].added, nodes);
    }
}

fn check_step(world: &World, steps: &[Step], step: &Step) {
    let of_path = |node: &NodeId, path: &Path| world.path(*node).same_entries(path);
    let visit = step.how.visit().map(|visit| &world.replay.visits()[visit]);
    assert!(visit.is_none_or(|visit| world.id_list(&[visit.block]) == [step.block]));
    match (&step.how, visit) {
        (How::TookOver { side, from, left_out, .. }, Some(visit)) => {
            let blocks: Vec<BlockId> = from.iter().map(|&from| steps[from].block).collect();
            assert_eq!((world.id_list(&visit.joined), visit.side), (blocks, *side));
            assert_eq!(&world.id_list(&visit.passed_over), left_out);
            assert!(from.iter().all(|&from| steps[from].path.same_entries(&step.path)));
            assert!(from.iter().all(|&from| steps[from].how.visit() < step.how.visit()));
            assert!(visit.came_in.iter().any(|node| of_path(node, &step.path)));
        }
        (How::Made { place, from, bases, .. }, Some(visit)) => {
            let replaced = &visit.replaced[*place];
            assert!(of_path(&replaced.to, &step.path) && of_path(&replaced.from, &steps[*from].path));
            assert_eq!(replaced.bases.len(), bases.len());
            let mut each = replaced.bases.iter().zip(bases);
            assert!(each.all(|(node, &base)| of_path(node, &steps[base].path)));
            let in_block = |&base: &usize| steps[base].block == step.block;
            assert!(in_block(from) && bases.iter().all(in_block));
        }
        (How::Assumed { .. }, _) => assert_eq!(world.own(step.block, &step.path), Some(step.how.read_at())),
        other => panic!("no event: {other:?}"),
    }
}

fn unknowns(reason: &Reason) -> Vec<&Unknown> {
    let of_entries = reason.bases.iter().filter_map(|base| match base {
        Base::Known(_) => None,
        Base::Unknown(why) => Some(why),
    });
    let of_end = match &reason.end {
        End::Cut { why, .. } => Some(&**why),
        _ => None,
    };
    of_entries.chain(of_end).collect()
}

fn stops(why: &Unknown) -> &[Stop] {
    match &why.elsewhere {
        Elsewhere::Stopped { stops, .. } => stops,
        _ => &[],
    }
}
