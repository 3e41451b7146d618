//! The clip instances of a tree, which `blend_tree.rs` keeps private.

use super::{AnimBlendTree, AnimNodeHandle};
use animation::ClipInstance;
use transform::Transform;

/// Where the tree keeps its clip nodes, in the order in which they are met from the root down, a
/// node's first input before its second.
pub fn clip_places<T: Transform>(tree: &AnimBlendTree<T>) -> Vec<usize> {
    let mut places = Vec::new();
    visit(tree, &tree.root_node, &mut places);
    places
}

fn visit<T: Transform>(tree: &AnimBlendTree<T>, node: &AnimNodeHandle, places: &mut Vec<usize>) {
    let inputs = match *node {
        AnimNodeHandle::ClipAnimNodeHandle(i) => {
            places.push(i);
            return;
        }
        AnimNodeHandle::LerpAnimNodeHandle(i) => {
            let node = &tree.lerp_nodes[i];
            [&node.input_1, &node.input_2]
        }
        AnimNodeHandle::AdditiveAnimNodeHandle(i) => {
            let node = &tree.additive_nodes[i];
            [&node.base_input, &node.additive_input]
        }
        AnimNodeHandle::IKAnimNodeHandle(_) | AnimNodeHandle::None => {
            unreachable!("no plan has such a node")
        }
    };
    for input in inputs.iter() {
        visit(tree, input, places);
    }
}

/// The instance of the clip node that is kept at a place.
pub fn instance<T: Transform>(tree: &AnimBlendTree<T>, place: usize) -> &ClipInstance<T> {
    &tree.clip_nodes[place].clip
}

pub fn instance_mut<T: Transform>(
    tree: &mut AnimBlendTree<T>,
    place: usize,
) -> &mut ClipInstance<T> {
    &mut tree.clip_nodes[place].clip
}
