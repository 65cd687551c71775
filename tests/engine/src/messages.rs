//! Messages between the lent memory and the model. The fields that a code does not have are not looked at, and come back as 0.

use crate::{image, layout};
use model::Message;

/// The model's message of the same fields. It has none for a code that no message has.
pub fn message(lent: &layout::Message) -> Option<Message> {
    let layout::Message { code, t, server, ballot, promise, word, ran, .. } = *lent;
    let (pieces, set) = (image::pieces(&lent.pieces), image::set(&lent.set));
    Some(match code {
        0 => Message::PreAccept { t, ballot, pieces },
        1 => Message::Accept { t, ballot, pieces, set },
        2 => Message::Commit { t, pieces, set },
        3 => Message::Prepare { t, ballot, pieces },
        4 => Message::Inquire { t },
        5 => Message::Fetch { t },
        16 => Message::PreAcceptOk { t, server, ballot, word },
        17 => Message::AcceptOk { t, server, ballot },
        18 => Message::CommitOk { t, server, ran },
        19 => {
            let (arrival, accepted) = (image::word(&lent.arrival), image::vote(&lent.accepted));
            Message::PrepareOk { t, server, ballot, arrival, accepted }
        }
        20 => Message::Done { t, pieces, set },
        21 => Message::Behind { t, server, asked: ballot, promise },
        22 => Message::NotYet { t, server },
        23 => Message::Results { t, server, values: image::values(&lent.values) },
        _ => return None,
    })
}

pub fn message_image(message: &Message) -> layout::Message {
    let mut lent = layout::Message { code: message.code(), t: message.t(), ..layout::Message::default() };
    lent.server = message.server().unwrap_or(0);
    lent.ballot = message.ballot().unwrap_or(0);
    lent.pieces = message.pieces().map_or(Default::default(), image::pieces_image);
    lent.set = message.set().map_or(Default::default(), image::set_image);
    match message {
        Message::PreAcceptOk { word, .. } => lent.word = *word,
        Message::CommitOk { ran, .. } => lent.ran = *ran,
        Message::PrepareOk { arrival, accepted, .. } => {
            lent.arrival = image::word_image(*arrival);
            lent.accepted = image::vote_image(*accepted);
        }
        Message::Behind { promise, .. } => lent.promise = *promise,
        Message::Results { values, .. } => lent.values = image::values_image(values),
        _ => {}
    }
    lent
}
