//! Stands in for serde_json: the one function that calib.rs names. Nothing calls it here.

pub fn from_str<T>(_: &str) -> Result<T, String> {
    unreachable!("serde_json::from_str is a shim")
}
