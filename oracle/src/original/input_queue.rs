//! The original input_queue.rs, unchanged, and what the harness must see of a queue and has no call to ask for.

include!(concat!(env!("GGRS_SRC"), "/input_queue.rs"));

impl<T: Config> InputQueue<T> {
    pub(crate) fn last_user(&self) -> Frame {
        self.last_user_frame
    }

    pub(crate) fn newest(&self) -> Frame {
        self.last_added_frame
    }

    pub(crate) fn last_requested(&self) -> Frame {
        self.last_requested_frame
    }
}
