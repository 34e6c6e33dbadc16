//! The original time_sync.rs, unchanged, and its averages, which it keeps to itself: the same expressions over the same windows.

include!(concat!(env!("GGRS_SRC"), "/time_sync.rs"));

impl TimeSync {
    /// The local and the remote average.
    pub(crate) fn averages(&self) -> (f32, f32) {
        (average(&self.local), average(&self.remote))
    }
}

fn average(window: &[i32; FRAME_WINDOW_SIZE]) -> f32 {
    let sum: i32 = window.iter().sum();
    sum as f32 / window.len() as f32
}
