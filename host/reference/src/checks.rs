//! The table's checks of a call's other arguments, in the order of its rows: the saved run, the time, the bag.

use crate::answers::{BAD_BAG, BAD_TIME};
use crate::decode::decode;
use crate::limits;
use crate::model::Model;
use crate::records::Message;
use crate::saved_run::SavedRun;

/// The model and the run of a call, or the number by which the call is refused.
pub fn model_and_run(file: &[u8], run: &[u8]) -> Result<(Model, SavedRun), u64> {
    let model = decode(file)?;
    let saved = SavedRun::read_fitting(&model, run)?;
    Ok((model, saved))
}

/// The given bag of an advance call, or the number by which its time or bag is refused.
pub fn time_and_bag(open: u64, t: u64, bag: &[u8]) -> Result<Vec<Message>, u64> {
    time(open, t)?;
    given(bag)
}

/// The number by which a moment to advance to is refused.
pub fn time(open: u64, t: u64) -> Result<(), u64> {
    if t < open || t > limits::HIGHEST_TIME {
        return Err(BAD_TIME);
    }
    Ok(())
}

/// The messages of a bag, or the number by which it is refused.
pub fn given(bag: &[u8]) -> Result<Vec<Message>, u64> {
    if !bag.len().is_multiple_of(Message::BYTES)
        || bag.len() / Message::BYTES > limits::GIVEN_MESSAGES
    {
        return Err(BAD_BAG);
    }
    let messages: Vec<Message> = bag.chunks_exact(Message::BYTES).map(Message::read).collect();
    if messages.iter().any(|message| message.port > limits::HIGHEST_PORT) {
        return Err(BAD_BAG);
    }
    Ok(messages)
}
