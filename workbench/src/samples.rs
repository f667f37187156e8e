//! Programs that tests and benchmarks share, each a file of `samples/`, whose README
//! says what every file there shows.

/// Example A.
pub const A: &str = include_str!("../../examples/a.txt");
/// "Parent sends, then spawns a child that sends."
pub const PARENT_THEN_CHILD: &str = include_str!("../samples/parent_then_child.txt");
/// Two threads that send on one channel.
pub const TWO_SENDERS: &str = include_str!("../samples/two_senders.txt");
/// Two threads that receive on one channel.
pub const TWO_RECEIVERS: &str = include_str!("../samples/two_receivers.txt");
/// One send, and two receives one after the other in one thread.
pub const TWO_RECEIVES: &str = include_str!("../samples/two_receives.txt");
/// A dose receipt: an order goes to a drum's thread with the channel on which the
/// drum sends the one receipt back. That channel is claimed one-sync.
pub const RECEIPT: &str = include_str!("../samples/receipt.txt");
/// The same with wider tables: by them the drum may send on the channel of orders
/// too, so that its claim fails. It holds if the set of name 4 is `[u 1]`.
pub const RECEIPT_WIDE: &str = include_str!("../samples/receipt_wide.txt");
/// Two sends on one channel that is claimed one-shot, and name 4, of whose set no
/// rule speaks: it has no line, and may have any.
pub const FREE_NAME: &str = include_str!("../samples/free_name.txt");
/// A function that sends once and calls itself.
pub const LOOP: &str = include_str!("../samples/loop.txt");
/// A send in each of the two branches of a case.
pub const BRANCHES: &str = include_str!("../samples/branches.txt");
/// Two sends after a call: only the body's result row leads to them.
pub const BODY_RESULT: &str = include_str!("../samples/body_result.txt");
/// One send in a branch and one after the case: one walk passes both.
pub const BRANCH_RESULT: &str = include_str!("../samples/branch_result.txt");
/// Two channels that nothing uses.
pub const TWO_CHANNELS: &str = include_str!("../samples/two_channels.txt");
/// A server that takes reply channels and answers on them, and two clients. It
/// has no tables.
pub const SERVER: &str = include_str!("../samples/without_tables/server.txt");
/// Two loops, one in each of two threads: left and right values go one way, and
/// an answer to each left value the other way. It has no tables.
pub const RELAY: &str = include_str!("../samples/without_tables/relay.txt");
/// A function that unpacks a left value and gives back what is in it. It has no
/// tables.
pub const UNPACKING: &str = include_str!("../samples/without_tables/unpacking.txt");

/// Listing A with one line replaced; an empty new line takes it out.
pub fn a_with(old: &str, new: &str) -> String {
    let old = format!("{old}\n");
    assert!(A.contains(&old), "{old}");
    let new = if new.is_empty() {
        String::new()
    } else {
        format!("{new}\n")
    };
    A.replace(&old, &new)
}

/// Listing A without flow and comm lines.
pub fn a_without_tables() -> String {
    let is_table = |line: &str| line.starts_with("[flow") || line.starts_with("[comm");
    let lines = A.split_inclusive('\n');
    lines.filter(|line| !is_table(line)).collect()
}
