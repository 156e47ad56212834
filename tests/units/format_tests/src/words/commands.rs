//! How commands are told.
use bridge_words::{Command, ListForm, Need, Receiver, Server};
use desk_access::Division;
use hec_tokens::ListedToken;
use notes::Place;
use std::alloc::Global;
use std::process::Abort;

// The two tokens as numbers.
const TOKEN: u128 = 0x1111_1111_2222_3333_4444_5555_5555_5555;

const ACK_TOKEN: u128 = 0xaaaa_aaaa_2222_3333_4444_5555_5555_5555;

fn add(rt: &impl Abort, told: &mut String, text: &str) {
    told.push_str(text).expect(rt, "memory");
}

// A token as rows write it.
fn token_name(token: Option<u128>) -> &'static str {
    match token {
        None => " -",
        Some(TOKEN) => " $T",
        Some(ACK_TOKEN) => " $A",
        Some(_) => " ?",
    }
}

fn form_name(form: ListForm) -> &'static str {
    match form {
        ListForm::Plain => "plain",
        ListForm::Text => "text",
        ListForm::JsonObject => "json",
        ListForm::HecObject => "hec",
    }
}

// A place in brackets, or that there is none.
fn tell_place(rt: &impl Abort, place: Option<&Place>, told: &mut String) {
    match place {
        Some(place) => {
            add(rt, told, " (");
            add(rt, told, place.as_str());
            add(rt, told, ")");
        }
        None => add(rt, told, " -"),
    }
}

// A receiver: of the collector the token, the channel, and how often it is asked.
fn tell_receiver(rt: &impl Abort, alloc: Global, receiver: &Receiver, told: &mut String) {
    match receiver {
        Receiver::Relp => add(rt, told, " relp"),
        Receiver::Lumberjack => add(rt, told, " lumberjack"),
        Receiver::Hec {
            token,
            channel,
            polls,
        } => {
            add(rt, told, " hec");
            add(rt, told, token_name(Some(*token)));
            add(rt, told, token_name(Some(*channel)));
            let polls = format!(in alloc; " {polls}").expect(rt, "memory");
            add(rt, told, &polls);
        }
    }
}

// The tokens of a list, where it has some: each of the first three, with `ack` after one that uses acks, and of more how many they are.
fn tell_list(rt: &impl Abort, alloc: Global, listed: &[ListedToken], told: &mut String) {
    if listed.is_empty() {
        return;
    }
    add(rt, told, " listed");
    for token in listed.iter().take(3) {
        add(rt, told, token_name(Some(token.guid)));
        add(rt, told, if token.acks { " ack" } else { "" });
    }
    if listed.len() > 3 {
        let count = format!(in alloc; " of {}", listed.len()).expect(rt, "memory");
        add(rt, told, &count);
    }
}

// A server: the places of RELP, Lumberjack and the collector, `status` and the place of those who ask where there is one, its workers,
// the connections of each, the token, the token with acks, `listed` and the tokens of a list where there is one, `group` where it
// stores together what came together, and what it forwards to.
fn tell_server(rt: &impl Abort, alloc: Global, server: &Server, told: &mut String) {
    tell_place(rt, server.relp.as_ref(), told);
    tell_place(rt, server.lumberjack.as_ref(), told);
    tell_place(rt, server.hec.as_ref(), told);
    if let Some(status) = &server.status {
        add(rt, told, " status");
        tell_place(rt, Some(status), told);
    }
    let division = match server.division {
        Division::Workers => "",
        Division::Connections => " connections",
    };
    add(rt, told, division);
    let counts = format!(in alloc; " {} {}", server.workers, server.talks).expect(rt, "memory");
    add(rt, told, &counts);
    add(rt, told, token_name(server.token));
    add(rt, told, token_name(server.ack_token));
    tell_list(rt, alloc, server.listed.as_slice(), told);
    add(rt, told, if server.group { " group" } else { "" });
    match &server.forward {
        Some(relay) => {
            tell_receiver(rt, alloc, &relay.receiver, told);
            tell_place(rt, Some(&relay.place), told);
        }
        None => add(rt, told, " -"),
    }
}

// A command.
fn tell_command(rt: &impl Abort, alloc: Global, command: &Command, told: &mut String) {
    let text = match command {
        Command::Format { slots, size } => format!(in alloc; "format {slots} {size}"),
        Command::List { form } => format!(in alloc; "list {}", form_name(*form)),
        Command::Load {
            proto,
            number,
            count,
        } => format!(in alloc; "load {proto:?} {number} {count}"),
        Command::Replay { proto, .. } => format!(in alloc; "replay {proto:?}"),
        Command::Drain { .. } => String::from_str(alloc, "drain"),
        Command::Serve { .. } => String::from_str(alloc, "serve"),
    };
    add(rt, told, &text.expect(rt, "memory"));
    match command {
        Command::Replay {
            token,
            ack_token,
            ..
        } => {
            add(rt, told, token_name(*token));
            add(rt, told, token_name(*ack_token));
        }
        Command::Drain { receiver, place } => {
            tell_receiver(rt, alloc, receiver, told);
            tell_place(rt, place.as_ref(), told);
        }
        Command::Serve { server } => tell_server(rt, alloc, server, told),
        _ => {}
    }
}

/// A command, and which device it wants.
pub fn told(rt: &impl Abort, alloc: Global, command: &Command, need: Need) -> String {
    let mut told = String::new(alloc);
    tell_command(rt, alloc, command, &mut told);
    let need = match need {
        Need::NoCommand => String::from_str(alloc, ", no command"),
        Need::Nothing => String::from_str(alloc, ", no device"),
        Need::Existing => String::from_str(alloc, ", a device"),
        Need::Make { len } => format!(in alloc; ", a device of {len}"),
        Need::Pair { .. } => String::from_str(alloc, ", two devices"),
    };
    add(rt, &mut told, &need.expect(rt, "memory"));
    told
}
