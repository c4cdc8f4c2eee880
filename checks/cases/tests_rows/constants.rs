//! The order of constants. Their numbers are cases of `rows_cases`.

use rows_constants::BinlogVersion;
use rows_constants_extra::Gno;

#[test]
fn orders_of_constants(rt: HostRuntime) {
    assert!(rt;
        BinlogVersion::Version1 < BinlogVersion::Version4
            && Gno::try_from(Gno::MIN_GNO).ok() < Gno::try_from(Gno::MAX_GNO).ok()
    );
}
