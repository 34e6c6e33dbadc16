//! The original sync_layer.rs, unchanged, with a way to its queues, which it keeps to itself: a refused call is undone by
//! putting them back.

include!(concat!(env!("GGRS_SRC"), "/sync_layer.rs"));

impl<T: Config> SyncLayer<T> {
    pub(crate) fn queues(&self) -> &[InputQueue<T>] {
        &self.input_queues
    }

    pub(crate) fn put_back_one(&mut self, seat: usize, queue: InputQueue<T>) {
        self.input_queues[seat] = queue;
    }

    pub(crate) fn put_back(&mut self, queues: Vec<InputQueue<T>>) {
        self.input_queues = queues;
    }
}
