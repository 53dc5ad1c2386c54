//! Tests of the serde forms of `intervallum-proved` over bincode, JSON and the token streams of `serde_test`.
