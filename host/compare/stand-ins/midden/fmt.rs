//! Stand-in for the unpublished file: what the progress line names.
pub fn fmt_duration(duration: std::time::Duration) -> String {
    format!("{duration:?}")
}
pub fn human_bytes(bytes: f64) -> String {
    format!("{bytes} bytes")
}
