//! The shutdown requests of the benchmark.

/// The service `domain-shutdown`.
pub const SERVICE: u64 = 2;

/// The payload of a request, with a delay of a second.
pub fn request(handle: u64, number: u64) -> Vec<u8> {
    let mut payload = handle.to_be_bytes().to_vec();
    payload.extend(number.to_be_bytes());
    payload.extend(1_000u32.to_be_bytes());
    payload
}
