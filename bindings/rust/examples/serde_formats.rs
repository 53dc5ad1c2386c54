//! Sets in JSON, as people write them, and in a binary format. Needs the features `serde` and `json`.
#[path = "../tests/binary/mod.rs"]
mod binary;

use intervallum::{IntervalSet, PagedSet};
use std::collections::BTreeMap;
use std::net::Ipv4Addr;

pub fn main() {
    let config = r#"{"open": [[8000, 8099], [443, 443]], "closed": null}"#;
    let ports: BTreeMap<String, IntervalSet<u16>> = serde_json::from_str(config).unwrap();
    assert_eq!((ports["open"].len(), ports["closed"].len()), (101, 0));
    assert_eq!(serde_json::to_string(&ports).unwrap(), r#"{"closed":[],"open":[[443,443],[8000,8099]]}"#);
    let fault = serde_json::from_str::<IntervalSet<u16>>("[[1, 65535]]").unwrap_err();
    assert!(fault.to_string().starts_with("65535: a bound must be from 0 to 65534"), "{fault}");

    let deny: IntervalSet<Ipv4Addr> = serde_json::from_str(r#"[["10.0.0.0", "10.255.255.255"]]"#).unwrap();
    assert_eq!(serde_json::to_string(&deny).unwrap(), r#"[["10.0.0.0","10.255.255.255"]]"#);

    // the free blocks of a disk, in the file of a program: 8 bytes for the count and 16 for each run
    let free: PagedSet<u64> = (0..1000).map(|i| 100 * i..100 * i + 60).collect();
    let bytes = binary::to_bytes(&free).unwrap();
    assert_eq!((bytes.len(), binary::from_bytes::<PagedSet<u64>>(&bytes).unwrap() == free), (8 + 1000 * 16, true));
    assert!(binary::from_bytes::<IntervalSet<u64>>(&bytes[..40]).is_err(), "what was cut off is an error");
    println!("{} ports are open, {} addresses are denied, {} bytes", ports["open"].len(), deny.size(), bytes.len());
}
