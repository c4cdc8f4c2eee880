//! Names and exit statuses.

use feed_checks::{Verdict, name_of, status};
use feed_replication::{RequestError, Served};

#[test]
fn names_and_statuses(rt: HostRuntime) {
    assert!(rt;
        name_of(&Verdict::End) == "End"
            && name_of(&Verdict::UnknownKind) == "UnknownKind"
            && Served::Whole.name() == "Whole"
            && RequestError::Memory.name() == "Memory"
            && status(&Verdict::End) == 0
            && status(&Verdict::Closed) == 1
    );
}
