//! The workloads over other crates: `FILE NAME ROUNDS` prints a sum of what was read, and the least
//! nanoseconds of a round.

#[cfg(with_bcder)]
mod bcder_0_7_7;
mod pyca_asn1;

use bytes::Bytes;
use std::time::Instant;

fn sum(name: &str, octets: &Bytes) -> usize {
    let read = match name {
        "asn1-certs" => pyca_asn1::certificates(octets).ok(),
        "asn1-crl" => pyca_asn1::list(octets, false).ok(),
        "asn1-crl-keep" => pyca_asn1::list(octets, true).ok(),
        #[cfg(with_bcder)]
        _ => bcder_0_7_7::sum(name, octets),
        #[cfg(not(with_bcder))]
        _ => None,
    };
    read.unwrap_or(usize::MAX)
}

fn main() {
    let words: Vec<String> = std::env::args().collect();
    let [_, file, name, rounds] = words.as_slice() else {
        panic!("FILE NAME ROUNDS");
    };
    let octets = Bytes::from(std::fs::read(file).unwrap());
    let (mut found, mut least) = (0, u128::MAX);
    for _ in 0..rounds.parse().unwrap() {
        let start = Instant::now();
        found = sum(name, &octets);
        least = least.min(start.elapsed().as_nanos());
    }
    println!("{found} {least}");
}
