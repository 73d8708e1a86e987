//! Choice from a client and a server KEXINIT.

use crate::kexinit::{layout, list_is_good, Layout};
use crate::methods::method_number;
use crate::wire::Part;

#[derive(Clone, Copy, PartialEq, Eq, Debug, Default)]
pub struct Choice {
    pub number: u8,
    pub method: u8,
    pub host_key: Part,
    pub ignore_client: bool,
    pub ignore_server: bool,
}

/// Judges one payload whole: 10 to 13, then all ten lists for 19. A choice has no position.
fn judge(payload: &[u8]) -> Result<Layout, u8> {
    let layout = layout(payload).map_err(|why| why.number)?;
    if !layout.lists.iter().all(|list| list_is_good(list.of(payload))) {
        return Err(19);
    }
    Ok(layout)
}

/// The names of a judged list. Splitting finds one empty name in an empty list, and no other empty name.
fn names(list: &[u8]) -> impl Iterator<Item = &[u8]> {
    list.split(|&byte| byte == b',').filter(|name| !name.is_empty())
}

/// The first client name that is one of the nine and stands in the server's list.
fn common_method(client: &[u8], server: &[u8]) -> Option<u8> {
    let number = 'search: {
        for name in names(client) {
            let number = method_number(name);
            if number == 0 {
                continue;
            }
            for other in names(server) {
                if other == name {
                    break 'search number;
                }
            }
        }
        return None;
    };
    Some(number)
}

/// The first client name in the server's list, as a part of the client's list.
fn common_host_key(client: &[u8], server: &[u8]) -> Option<Part> {
    let mut start = 0;
    for name in names(client) {
        if names(server).any(|other| other == name) {
            return Some(Part { start, len: name.len() });
        }
        start += name.len() + 1;
    }
    None
}

fn decide(client: &[u8], server: &[u8]) -> Result<Choice, u8> {
    let from_client = judge(client)?;
    let from_server = judge(server)?;
    let [client_kex, client_keys, ..] = from_client.lists.map(|list| list.of(client));
    let [server_kex, server_keys, ..] = from_server.lists.map(|list| list.of(server));

    let method = common_method(client_kex, server_kex).ok_or(20)?;
    let host_key = common_host_key(client_keys, server_keys).ok_or(21)?;

    let differ =
        names(client_kex).next() != names(server_kex).next() || names(client_keys).next() != names(server_keys).next();
    Ok(Choice {
        number: 0,
        method,
        host_key: Part { start: from_client.lists[1].start + host_key.start, len: host_key.len },
        ignore_client: from_client.follows && differ,
        ignore_server: from_server.follows && differ,
    })
}

/// Chooses the method and the host key name. It reports the client's payload first, then the server's, then 20,
/// then 21.
pub fn choose(client: &[u8], server: &[u8]) -> Choice {
    decide(client, server).unwrap_or_else(|number| Choice { number, ..Choice::default() })
}
