//! How often each event is tried on the days of a kind.

use crate::events::*;
use crate::held_events::*;
use crate::layers_events::*;
use crate::lost_events::*;
use crate::plan_events::*;

pub const ORDINARY: &Recipe = &[
    (9, new_tree),
    (4, new_leaf),
    (12, further_branch),
    (2, repeated_branch),
    (2, changed_branch),
    (10, branch_withdraw),
    (4, last_goes),
    (3, stray_withdraw),
    (12, awaited_release),
    (3, stray_release),
    (1, early_release),
    (4, standing_join),
    (5, leaf_leave),
    (2, stray_leave),
    (6, new_route),
    (4, moved_route),
    (1, same_route),
    (2, ended_route),
    (2, any_route),
];

pub const AT_THE_EDGE: &Recipe = &[
    (10, new_tree),
    (6, new_leaf),
    (12, further_branch),
    (2, repeated_branch),
    (3, changed_branch),
    (6, branch_withdraw),
    (3, last_goes),
    (2, stray_withdraw),
    (4, awaited_release),
    (3, stray_release),
    (1, early_release),
    (4, standing_join),
    (3, leaf_leave),
    (2, stray_leave),
    (8, new_route),
    (8, moved_route),
    (1, same_route),
    (2, ended_route),
    (3, any_route),
];

pub const GROW: &Recipe = &[(2, new_tree), (1, new_leaf)];

pub const DRAIN: &Recipe = &[(3, moved_trees), (1, moved_route)];

pub const MOVES: &Recipe = &[
    (12, moved_trees),
    (2, ended_route),
    (2, any_route),
    (2, same_route),
    (3, new_tree),
    (2, new_leaf),
    (3, further_branch),
    (2, branch_withdraw),
    (2, last_goes),
    (8, awaited_release),
    (2, stray_release),
];

pub const NO_RELEASE: &Recipe = &[
    (5, moved_trees),
    (2, moved_route),
    (6, new_tree),
    (5, new_leaf),
    (2, further_branch),
    (4, branch_withdraw),
    (6, last_goes),
    (3, leaf_leave),
    (2, stray_release),
    (1, early_release),
    (2, new_route),
    (1, ended_route),
];

pub const HELD: &Recipe = &[
    (5, mapped_back),
    (6, new_tree_mapped_back),
    (2, mapped_back_again),
    (6, silent_tree_grows),
    (9, last_live_goes),
    (4, held_goes),
    (4, waking_route),
    (4, silencing_route),
    (6, counted_route),
    (6, bounded_route),
    (2, new_tree),
    (2, new_leaf),
    (1, further_branch),
    (6, branch_withdraw),
    (3, leaf_leave),
    (1, stray_release),
    (1, ended_route),
    (1, new_route),
];

pub const ROUND: &Recipe = &[
    (4, moved_trees),
    (6, new_tree),
    (4, new_leaf),
    (1, further_branch),
    (3, branch_withdraw),
    (5, last_goes),
    (3, leaf_leave),
    (6, awaited_release),
    (1, stray_release),
    (1, new_route),
    (1, ended_route),
];

pub const LOSSES: &Recipe = &[
    (2, any_loss),
    (1, stranger_loss),
    (2, loss_of_nobody),
    (5, upstream_loss),
    (3, branch_loss),
    (4, held_loss),
    (5, last_live_loss),
    (4, awaited_loss),
];

pub const LAYERS: &Recipe = &[
    (8, shown_layers),
    (8, unwrapped_name),
    (8, name_to_wrap),
    (2, wrapped_tree),
];

pub const PLANS: &Recipe = &[(3, any_plan), (4, any_vet)];
