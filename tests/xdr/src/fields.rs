//! A message as the witness writes it: its fields in decimals, in the order of the bytes.

use model::{Message, Pieces, Set, Values, Vote};

pub fn fields(message: &Message) -> String {
    let mut out = vec![message.code().to_string(), message.t().to_string()];
    match *message {
        Message::PreAccept { ballot, ref pieces, .. } | Message::Prepare { ballot, ref pieces, .. } => {
            out.push(ballot.to_string());
            push_pieces(&mut out, pieces);
        }
        Message::Accept { ballot, ref pieces, ref set, .. } => {
            out.push(ballot.to_string());
            push_pieces(&mut out, pieces);
            push_set(&mut out, set);
        }
        Message::Commit { ref pieces, ref set, .. } | Message::Done { ref pieces, ref set, .. } => {
            push_pieces(&mut out, pieces);
            push_set(&mut out, set);
        }
        Message::Inquire { .. } | Message::Fetch { .. } => {}
        Message::PreAcceptOk { server, ballot, word, .. } => {
            out.extend([server.to_string(), ballot.to_string(), word.to_string()]);
        }
        Message::AcceptOk { server, ballot, .. } => out.extend([server.to_string(), ballot.to_string()]),
        Message::CommitOk { server, ran, .. } => out.extend([server.to_string(), ran.to_string()]),
        Message::PrepareOk { server, ballot, arrival, accepted, .. } => {
            out.extend([server.to_string(), ballot.to_string()]);
            push_optional(&mut out, arrival.map(|word| vec![word.to_string()]));
            push_optional(&mut out, accepted.map(vote_fields));
        }
        Message::Behind { server, asked, promise, .. } => {
            out.extend([server.to_string(), asked.to_string(), promise.to_string()]);
        }
        Message::NotYet { server, .. } => out.push(server.to_string()),
        Message::Results { server, ref values, .. } => {
            out.push(server.to_string());
            push_values(&mut out, values);
        }
    }
    out.join(" ")
}

fn push_pieces(out: &mut Vec<String>, pieces: &Pieces) {
    out.push(pieces.count.to_string());
    for p in pieces.entries() {
        out.extend([p.shard.to_string(), p.key.to_string(), p.kind.to_string(), p.operand.to_string()]);
    }
}

fn push_values(out: &mut Vec<String>, values: &Values) {
    out.push(values.count.to_string());
    for v in values.entries() {
        out.extend([v.value.to_string(), u32::from(v.kept).to_string()]);
    }
}

fn push_set(out: &mut Vec<String>, set: &Set) {
    out.extend(set.0.map(|word| word.to_string()));
}

fn vote_fields(vote: Vote) -> Vec<String> {
    let mut out = vec![vote.ballot.to_string()];
    push_set(&mut out, &vote.set);
    out
}

fn push_optional(out: &mut Vec<String>, item: Option<Vec<String>>) {
    out.push(u32::from(item.is_some()).to_string());
    out.extend(item.into_iter().flatten());
}
