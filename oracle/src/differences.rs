//! What the original does in each difference that docs/DIFFERENCES.md lists, run on the original itself. A sheet cannot
//! show it: the harness turns panics into numbers, puts the state back, and tests some fields before the call.
//!
//! A test, or two, for each row, in the order of the tables. The predictor in force is one for all threads, so no
//! test sets it.

use crate::compression;
use crate::frame_info::PlayerInput;
use crate::host::{ConnectionStatus, Frame, GgrsRequest, InputStatus, Words, NULL_FRAME};
use crate::input_queue::InputQueue;
use crate::refusal::{ask, No};
use crate::sync_layer::{GameStateCell, SyncLayer};
use crate::time_sync::TimeSync;

const MISMATCH_STANDS: &str = "self.first_incorrect_frame == NULL_FRAME";
const BELOW_THE_OLDEST: &str = "requested_frame >= self.inputs[self.tail].frame";
const WRONG_SLOT: &str = "self.inputs[offset].frame == requested_frame";
const FULL: &str = "self.length <= INPUT_QUEUE_LENGTH";
const NOT_CONFIRMED: &str = "There is no confirmed input";

/// That a call panics, with a text that has this part.
#[track_caller]
fn panics<T>(part: &str, call: impl FnOnce() -> T) {
    match ask(&[], call) {
        Err(No::Panic(said)) => assert!(said.contains(part), "it says: {said}"),
        _ => panic!("it answers"),
    }
}

fn add(queue: &mut InputQueue<Words>, frame: Frame, word: u32) -> Frame {
    queue.add_input(PlayerInput::new(frame, word))
}

/// A queue with so many words, each 5, from frame 0 on.
fn queue_of(words: Frame) -> InputQueue<Words> {
    let mut queue = InputQueue::new();
    for frame in 0..words {
        assert_eq!(add(&mut queue, frame, 5), frame);
    }
    queue
}

/// That a queue without a word is full after 127 of them.
#[track_caller]
fn full_after_127(mut queue: InputQueue<Words>) {
    for frame in 0..127 {
        assert_eq!(add(&mut queue, frame, 5), frame);
    }
    panics(FULL, || add(&mut queue, 127, 5));
}

fn layer(seats: usize, limit: usize) -> SyncLayer<Words> {
    SyncLayer::new(seats, limit)
}

fn remote(layer: &mut SyncLayer<Words>, seat: usize, frame: Frame, word: u32) {
    layer.add_remote_input(seat, PlayerInput::new(frame, word));
}

fn on() -> ConnectionStatus {
    ConnectionStatus { disconnected: false, last_frame: NULL_FRAME }
}

fn gone() -> ConnectionStatus {
    ConnectionStatus { disconnected: true, last_frame: NULL_FRAME }
}

/// The cell that a save of the current frame hands out.
fn saved_cell(layer: &mut SyncLayer<Words>) -> GameStateCell<[u32; 3]> {
    match layer.save_current_state() {
        GgrsRequest::SaveGameState { cell, .. } => cell,
        GgrsRequest::LoadGameState { .. } => panic!("it loads"),
    }
}

/// Two seats, two frames on, both guessed as 0. The second seat's mismatch is at 1.
fn one_mismatch() -> SyncLayer<Words> {
    let mut layer = layer(2, 2);
    for _ in 0..2 {
        layer.synchronized_inputs(&[on(), on()]);
        layer.advance_frame();
    }
    remote(&mut layer, 1, 0, 0);
    remote(&mut layer, 1, 1, 5);
    layer
}

// input_queue

#[test]
fn queue_a_frame_below_0() {
    let mut queue = InputQueue::<Words>::new();
    assert_eq!(queue.input(-1), (0, InputStatus::Predicted));
    panics(BELOW_THE_OLDEST, || queue.input(-2));
    panics(BELOW_THE_OLDEST, || queue_of(1).input(-1));
    // the cast ends at slot 127, which is marked with -1 while it is empty
    assert_eq!(queue.confirmed_input(-1), PlayerInput::new(-1, 0));
    panics(NOT_CONFIRMED, || queue_of(128).confirmed_input(-1));
    panics(NOT_CONFIRMED, || queue.confirmed_input(-2));
}

/// An input is tossed, or taken where a delay lifts it to place 0. A discard does to an empty queue what others do.
#[test]
fn queue_a_frame_below_0_that_is_taken() {
    assert_eq!(add(&mut InputQueue::new(), -1, 5), -1);
    let mut delayed = InputQueue::new();
    delayed.set_frame_delay(1);
    assert_eq!(add(&mut delayed, -1, 5), 0);
    let mut discarded = InputQueue::new();
    discarded.discard_confirmed_frames(-1);
    full_after_127(discarded);
}

#[test]
fn queue_an_input_frame_above_the_last() {
    // the gap before it is filled until the queue is full
    panics(FULL, || add(&mut InputQueue::new(), 1_000_000_001, 0));
    // a delay that is cast to a negative number makes its place 0, so that nothing need be filled
    let mut queue = InputQueue::new();
    queue.set_frame_delay(-1_000_000_001_i32 as u32 as usize);
    assert_eq!(add(&mut queue, 1_000_000_001, 7), 0);
    assert_eq!(queue.input(0), (7, InputStatus::Confirmed));
}

#[test]
fn queue_an_input_out_of_turn() {
    let mut queue = queue_of(1);
    assert_eq!(add(&mut queue, 2, 0), -1);
    assert_eq!(add(&mut queue, 1, 0), 1);
    let mut tossing = InputQueue::new();
    tossing.set_frame_delay(1);
    assert_eq!(add(&mut tossing, 0, 0), 1);
    tossing.set_frame_delay(0);
    assert_eq!(add(&mut tossing, 1, 0), -1);
}

#[test]
fn queue_a_word_more_than_128() {
    let mut queue = queue_of(128);
    assert_eq!(queue.confirmed_input(0), PlayerInput::new(0, 5));
    panics(FULL, || add(&mut queue, 128, 6));
    // the word stands in the oldest one's slot and its frame is used up, but the newest place is still 127
    assert_eq!(queue.confirmed_input(128), PlayerInput::new(128, 6));
    panics(NOT_CONFIRMED, || queue.confirmed_input(0));
    assert_eq!((queue.last_user(), queue.newest()), (128, 127));
    assert_eq!(add(&mut queue, 128, 6), -1);
}

#[test]
fn queue_no_confirmed_word() {
    panics(NOT_CONFIRMED, || queue_of(0).confirmed_input(0));
}

#[test]
fn queue_a_request_while_a_mismatch_stands() {
    let mut queue = InputQueue::new();
    assert_eq!(queue.input(0), (0, InputStatus::Predicted));
    add(&mut queue, 0, 1);
    assert_eq!(queue.first_incorrect_frame(), 0);
    panics(MISMATCH_STANDS, || queue.input(0));
}

#[test]
fn queue_a_request_below_the_oldest_frame() {
    let mut queue = queue_of(3);
    queue.discard_confirmed_frames(1);
    assert_eq!(queue.last_requested(), NULL_FRAME);
    panics(BELOW_THE_OLDEST, || queue.input(0));
    assert_eq!(queue.last_requested(), 0);
    // so that a discard that would have left one word drops none
    queue.discard_confirmed_frames(2);
    assert_eq!(queue.input(1), (5, InputStatus::Confirmed));
}

/// Frame 0 is guessed as 0 by every predictor, so the sheet's need not be set.
#[test]
fn queue_a_discard_at_the_newest_place() {
    let mut queue = queue_of(1);
    queue.discard_confirmed_frames(0);
    assert_eq!(queue.input(0), (0, InputStatus::Predicted));
}

#[test]
fn queue_a_discard_on_an_empty_queue() {
    let mut queue = InputQueue::new();
    queue.discard_confirmed_frames(0);
    full_after_127(queue);
}

/// A predictor is a type, so one out of range cannot be said.
#[test]
fn queue_a_delay_out_of_range() {
    let mut queue = InputQueue::new();
    assert_eq!(queue.set_frame_delay(61), []);
    assert_eq!(add(&mut queue, 0, 5), 61);
}

#[test]
fn queue_what_set_frame_delay_hands_out() {
    assert_eq!(queue_of(1).set_frame_delay(2), [PlayerInput::new(1, 5), PlayerInput::new(2, 5)]);
}

// sync_layer

#[test]
fn layer_confirm_above_a_mismatch() {
    let mut layer = one_mismatch();
    remote(&mut layer, 0, 0, 1);
    assert_eq!(layer.queues()[0].first_incorrect_frame(), 0);
    panics("first_incorrect >= frame", || layer.set_last_confirmed_frame(2, false));
    layer.set_last_confirmed_frame(1, false);
    assert_eq!(layer.last_confirmed_frame(), 1);
}

#[test]
fn layer_consistency_from_a_start_value() {
    let layer = one_mismatch();
    assert_eq!(layer.check_simulation_consistency(NULL_FRAME), 1);
    assert_eq!(layer.check_simulation_consistency(2), 1);
    assert_eq!(layer.check_simulation_consistency(0), 0);
}

#[test]
fn layer_a_status_list_shorter_than_the_seats() {
    let mut layer = layer(2, 0);
    assert_eq!(layer.synchronized_inputs(&[on()]), [(0, InputStatus::Predicted)]);
    assert_eq!(layer.queues()[1].last_requested(), NULL_FRAME);
}

#[test]
fn layer_a_status_list_longer_with_the_rest_gone() {
    let served = layer(1, 2).synchronized_inputs(&[on(), gone()]);
    assert_eq!(served, [(0, InputStatus::Predicted), (0, InputStatus::Disconnected)]);
}

#[test]
fn layer_a_status_list_longer_with_the_rest_there() {
    panics("index out of bounds", || layer(1, 2).synchronized_inputs(&[on(), on()]));
}

#[test]
fn layer_confirmed_inputs_of_another_number_of_statuses() {
    let mut layer = layer(2, 2);
    remote(&mut layer, 0, 0, 5);
    remote(&mut layer, 1, 0, 6);
    let (first, second, blank) = (PlayerInput::new(0, 5), PlayerInput::new(0, 6), PlayerInput::new(-1, 0));
    assert_eq!(layer.confirmed_inputs(0, &[]), []);
    assert_eq!(layer.confirmed_inputs(0, &[on()]), [first]);
    assert_eq!(layer.confirmed_inputs(0, &[on(), on(), gone()]), [first, second, blank]);
    panics("index out of bounds", || layer.confirmed_inputs(0, &[on(), on(), on()]));
}

#[test]
fn layer_a_request_that_a_later_seat_refuses() {
    let mut layer = layer(2, 0);
    layer.synchronized_inputs(&[on(), on()]);
    layer.advance_frame();
    remote(&mut layer, 1, 0, 1);
    panics(MISMATCH_STANDS, || layer.synchronized_inputs(&[on(), on()]));
    assert_eq!(layer.queues()[0].last_requested(), 1);
    assert_eq!(layer.queues()[1].last_requested(), 0);
}

#[test]
fn layer_a_local_input_for_another_frame() {
    panics("left == right", || layer(1, 0).add_local_input(0, PlayerInput::new(1, 0)));
}

#[test]
fn layer_loads_out_of_the_window_or_of_another_frame() {
    let mut layer = layer(1, 1);
    panics("must load frame in the past", || layer.load_frame(0));
    layer.advance_frame();
    panics("left == right", || layer.load_frame(0));
    layer.advance_frame();
    panics("outside of prediction window", || layer.load_frame(0));
    assert_eq!(layer.current_frame(), 2);
}

/// The last saved frame is set at once, and the cell holds what it held until the caller fills it.
#[test]
fn layer_a_save_hands_out_a_cell() {
    let mut layer = layer(1, 2);
    let cell = saved_cell(&mut layer);
    assert_eq!((layer.last_saved_frame(), cell.frame()), (0, NULL_FRAME));
    assert!(layer.saved_state_by_frame(0).is_none());
    panics("frame != NULL_FRAME", || cell.save(NULL_FRAME, Some([1, 2, 3]), None));
    // nothing holds it to the frame that was saved
    cell.save(7, Some([1, 2, 3]), Some(9));
    assert_eq!((cell.frame(), cell.load(), cell.checksum()), (7, Some([1, 2, 3]), Some(9)));
}

#[test]
fn layer_a_cell_is_shared() {
    let mut layer = layer(1, 0);
    let kept = saved_cell(&mut layer);
    kept.save(0, Some([1, 1, 1]), None);
    layer.advance_frame();
    saved_cell(&mut layer).save(1, Some([2, 2, 2]), None);
    assert_eq!((kept.frame(), kept.load()), (1, Some([2, 2, 2])));
    *kept.data().expect("a state").as_mut_dangerous() = [3, 3, 3];
    assert_eq!(layer.saved_state_by_frame(1).and_then(|cell| cell.load()), Some([3, 3, 3]));
}

#[test]
fn layer_a_saved_state_that_is_none() {
    let mut layer = layer(1, 1);
    assert!(layer.saved_state_by_frame(0).is_none());
    saved_cell(&mut layer).save(0, None, None);
    assert_eq!(layer.saved_state_by_frame(0).map(|cell| cell.load()), Some(None));
    layer.advance_frame();
    match layer.load_frame(0) {
        GgrsRequest::LoadGameState { cell, frame } => assert_eq!((frame, cell.load()), (0, None)),
        GgrsRequest::SaveGameState { .. } => panic!("it saves"),
    }
}

#[test]
fn layer_latest_hands_out_a_cell() {
    let mut layer = layer(1, 2);
    saved_cell(&mut layer).save(0, Some([4, 4, 4]), None);
    assert_eq!(layer.latest_saved_state_in_range(0, 9).and_then(|cell| cell.load()), Some([4, 4, 4]));
    assert!(layer.latest_saved_state_in_range(1, 9).is_none());
    assert!(layer.latest_saved_state_in_range(9, 0).is_none());
}

/// Neither a stored word, nor one out of turn, nor a tossed one.
#[test]
fn layer_a_remote_input_answers_nothing() {
    let mut layer = layer(1, 0);
    for frame in [0, 2, 1] {
        let () = layer.add_remote_input(0, PlayerInput::new(frame, 5));
    }
    assert_eq!(layer.queues()[0].newest(), 1);
}

#[test]
fn layer_a_delay_out_of_range() {
    let mut layer = layer(1, 0);
    layer.set_frame_delay(0, 61);
    assert_eq!(layer.add_local_input(0, PlayerInput::new(0, 5)), 61);
}

#[test]
fn layer_frames_below_0_that_panic() {
    let mut layer = layer(1, 2);
    panics("frame >= 0", || layer.saved_state_by_frame(-1));
    panics("cannot load null frame", || layer.load_frame(-1));
    panics("frame >= 0", || layer.load_frame(-2));
    panics("left == right", || layer.add_local_input(0, PlayerInput::new(-1, 0)));
    panics(NOT_CONFIRMED, || layer.confirmed_inputs(-2, &[on()]));
}

#[test]
fn layer_frames_below_0_that_are_taken() {
    let mut layer = layer(1, 0);
    assert_eq!(layer.confirmed_inputs(-1, &[on()]), [PlayerInput::new(-1, 0)]);
    // a cell that was never saved is marked with -1, and found by it
    let cell = layer.latest_saved_state_in_range(-1, -1).expect("a cell");
    assert_eq!((cell.frame(), cell.load()), (-1, None));
    layer.set_last_confirmed_frame(-7, false);
    assert_eq!(layer.last_confirmed_frame(), -7);
    layer.set_frame_delay(0, 1);
    remote(&mut layer, 0, -1, 5);
    assert_eq!(layer.synchronized_inputs(&[on()]), [(5, InputStatus::Confirmed)]);
}

/// The next word makes the wrong slot seen: one word is counted as two, and the slot after it holds no frame 2.
#[test]
fn layer_a_confirm_that_discards_past_the_newest_place() {
    let mut layer = layer(1, 0);
    remote(&mut layer, 0, 0, 5);
    layer.advance_frame();
    layer.advance_frame();
    layer.set_last_confirmed_frame(2, false);
    remote(&mut layer, 0, 1, 6);
    panics(WRONG_SLOT, || layer.synchronized_inputs(&[on()]));
}

#[test]
fn layer_a_seat_that_is_not_there() {
    let mut layer = layer(1, 0);
    panics("index out of bounds", || remote(&mut layer, 4, 0, 0));
    panics("index out of bounds", || layer.add_local_input(4, PlayerInput::new(0, 0)));
    panics("player_handle < self.num_players", || layer.set_frame_delay(4, 0));
}

#[test]
fn layer_a_setup_out_of_range() {
    for (seats, limit) in [(1, 16), (0, 2), (5, 2)] {
        assert_eq!(layer(seats, limit).current_frame(), 0);
    }
}

/// It can be called so often, since no word and no slot is needed for it.
#[test]
fn layer_an_advance_past_the_last_frame() {
    let mut layer = layer(1, 0);
    for _ in 0..1_000_000_001 {
        layer.advance_frame();
    }
    assert_eq!(layer.current_frame(), 1_000_000_001);
}

// compression

#[test]
fn delta_the_inputs_are_a_list_of_vectors() {
    let inputs = vec![vec![1], vec![2, 3]];
    let packet = compression::pack(&[], &inputs);
    assert_eq!(packet, [1, 0, 1, 2, 0, 3, 3]);
    assert_eq!(compression::unpack(&[], &packet), Ok(inputs));
}

#[test]
fn delta_an_input_longer_than_65535_bytes() {
    let packet = compression::pack(&[], &[vec![9; 65537]]);
    assert_eq!((packet.len(), &packet[..3]), (65539, &[1, 0, 9][..]));
}

#[test]
fn delta_room_grows() {
    let inputs = vec![vec![0; 100]; 1000];
    let packet = compression::pack(&[], &inputs);
    assert_eq!(packet.len(), 102_000);
    assert_eq!(compression::unpack(&[], &packet), Ok(inputs));
}

#[test]
fn delta_a_packet_that_ends_in_a_length() {
    assert_eq!(compression::unpack(&[], &[1]), Err("truncated length prefix".into()));
    assert_eq!(compression::unpack(&[], &[1, 0]), Err("truncated input data".into()));
}

/// The stand-in for the run-length step stops with the bytes that it is handed.
#[test]
fn delta_run_length_packing_follows() {
    panics("[1, 0, 5]", || compression::encode(&[], [vec![5]].iter()));
    panics("[7]", || compression::decode(&[], &[7]));
}

// time_sync

#[test]
fn sync_a_frame_below_0() {
    let mut windows = TimeSync::new();
    windows.advance_frame(-1, 0, 60);
    assert_eq!(windows.average_frame_advantage(), 1);
    windows.advance_frame(15, 0, 0);
    assert_eq!(windows.average_frame_advantage(), 0);
}

/// Unwrapped, the two would give 71582788. A third entry lifts the wrapped sum, -2, to 60.
#[test]
fn sync_a_sum_that_does_not_fit() {
    let mut windows = TimeSync::new();
    windows.advance_frame(0, 0, i32::MAX);
    windows.advance_frame(1, 0, i32::MAX);
    if cfg!(debug_assertions) {
        return panics("attempt to add with overflow", || windows.average_frame_advantage());
    }
    assert_eq!(windows.average_frame_advantage(), 0);
    windows.advance_frame(2, 0, 62);
    assert_eq!(windows.average_frame_advantage(), 1);
}
