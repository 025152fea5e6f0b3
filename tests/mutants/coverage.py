"""Which promises of docs/guarantees.md and which public functions have a mutant."""

from __future__ import annotations

from payd_tools.repository import inventory

# Public functions that have no other body: they lend, share or hand out the one value of its type that they have, or an
# empty one that nothing at hand could fill; or a trait's of which there is no impl. Or they are laws, which do nothing
# with a value of the type that they are of.
WITHOUT_OTHER_BODY = {
    "pay_audit::exported::Export::genesis",
    "pay_channel::instances::Instances::new",
    "pay_desk::desk::Desk::into_teller",
    "pay_frame::body::SharedBody::body",
    "pay_frame::body::SharedBody::copy",
    "pay_frame::device::Counted::into_inner",
    "pay_durable::keeper::DurableOutput::into_inner",
    "pay_durable::laws::resumed_log_follows",
    "pay_link::checked::Checked::body",
    "pay_link::checked::Checked::copy",
    "pay_link::opened::Opened::frame",
    "pay_log::reading::Payloads::new",
    "pay_member::event::AskedValue::bytes",
    "pay_member::event::AskedValue::into_bytes",
    "pay_member::member::Member::genesis",
    "pay_member::member::Member::keys",
    "pay_member::member::Member::view",
    "pay_member::view::MemberView::genesis",
    "pay_net::start::NodeStart::fresh",
    "pay_node::seat::FetchSeat::new",
    "pay_node::node::Node::keys",
    "pay_node::closing::Stopped::into_member",
    "pay_node::closing::Stopped::member",
    "pay_peers::teller::NodeTeller::into_seat",
    "pay_record::crashes::crashes_add_up",
    "pay_record::crashes::settled_log_starts",
}


def faults_of_repository() -> list[str]:
    crates = inventory.read_crates()
    promises = inventory.read_promises()
    named = {it for crate in crates for mutant in crate.mutants for it in mutant.promises}
    faults = [f"no mutant is marked with the promise '{it}'" for it in promises if it not in named]
    faults += [f"a mutant is marked with '{it}', which is no promise" for it in sorted(named - {*promises})]
    return faults + faults_of_functions(crates)


def faults_of_functions(crates: list) -> list[str]:
    """The public functions that ensure something and have no mutant: one of a trait's has one in any crate's impl."""
    functions = {f"{crate.name}::{it.path()}": it for crate in crates for it in crate.functions}
    changed = {f"{crate.name}::{it}" for crate in crates for mutant in crate.mutants for it in mutant.functions}
    of_impls = {(it.trait, it.name) for path, it in functions.items() if path in changed}
    missing = {path for path, it in functions.items() if it.is_public and it.ensures and not (it.is_law or it.is_test)}
    missing = {it for it in missing - changed if (functions[it].owner, functions[it].name) not in of_impls}
    faults = [f"the public function {it} has no mutant" for it in sorted(missing - WITHOUT_OTHER_BODY)]
    return faults + [f"{it} isn't without a mutant" for it in sorted(WITHOUT_OTHER_BODY - missing)]
