//! A client and a server complete an exchange with each other in every method, derive their keys, and rekey: the same exchange begins again
//! and is completed once more. The primitives are stand-ins with fixed outputs: both sides get the same X and K_PQ, and the signature is 64
//! fixed bytes. A real host puts its own in their place. At the end messages that arrive cut, and what can be said of them.
use castulfrisa::exchange::{Complete, Started};
use castulfrisa::{choose, same_version, wipe_stack, write_kexinit, Cause, Classical, Client, Greeting, Kem, Method, Own, Refusal, Server, K};
use castulfrisa::{open_list, Key, Letter, List, EXCHANGE, INIT, KEXINIT_MOST, K_PQ_SIZE, REPLY, ROOM};

/// What aes256-ctr and hmac-sha2-256 want of each letter, A to F.
const LENGTHS: [usize; 6] = [16, 16, 32, 32, 32, 32];

/// A side's KEXINIT.
fn proposal(kex: &[u8], cookie: &[u8; 16]) -> Result<Vec<u8>, Refusal> {
    let (cipher, mac) = (b"aes256-ctr", b"hmac-sha2-256");
    let lists: [&[u8]; 10] = [kex, b"ssh-ed25519", cipher, cipher, mac, mac, b"none", b"none", b"", b""];
    let mut payload = vec![0; KEXINIT_MOST];
    let len = write_kexinit(&mut payload, cookie, &lists, false, 0)?;
    payload.truncate(len);
    Ok(payload)
}

/// From a beginning, the connection's first or a later one, to the keys.
fn complete<'r>(
    method: Method, client: Client<'r, Started>, server: Server<'r, Started>,
) -> Result<(Client<'r, Complete>, Server<'r, Complete>), Cause> {
    let sizes = method.sizes();
    // the primitives' outputs: a NIST point begins with 4
    let (mut c, mut s) = (vec![4; sizes.c_len], vec![4; sizes.s_len]);
    c[..sizes.c_classical].fill(0xc1);
    s[..sizes.s_classical].fill(0x51);
    let x = vec![0x99; sizes.x_len];
    let kem = if sizes.hybrid { Kem::Done(&[0xd1; K_PQ_SIZE]) } else { Kem::Absent };
    let (host_key, signature) = ([0x4b; 51], [0x77; 64]);

    let (mut init, mut reply) = ([0; INIT], [0; REPLY]);
    let (mut client_k, mut server_k) = (K::new(), K::new());
    let (client, init) = client.own_c(&c, &mut init)?;

    let (server, c_read) = server.read_init(init)?;
    assert_eq!(c_read, c);
    let server = server.take_secret(Classical::Given(&x), kem, Own { host_key: &host_key, s: &s })?;
    // server.h() would be signed here
    let (server, reply) = server.sign(&signature, &mut reply, &mut server_k)?;

    let (client, read) = client.read_reply(reply)?;
    assert_eq!((read.host_key, read.s, read.signature), (&host_key[..], &s[..], &signature[..]));
    let client = client.take_secret(Classical::Given(&x), kem)?;
    // and the signature over client.h() verified here
    let client = client.verdict(true, true, &mut client_k)?;

    assert_eq!((client.hash_input(), client.h()), (server.hash_input(), server.h()));
    assert_eq!(client.h().len(), sizes.digest_len);
    assert_eq!(client_k.as_bytes(), server_k.as_bytes());
    assert!(client.hash_input().ends_with(client_k.as_bytes()));
    for (letter, length) in Letter::ALL.into_iter().zip(LENGTHS) {
        let (mut of_client, mut of_server) = (Key::new(), Key::new());
        client.derive(letter, length, &mut of_client)?;
        server.derive(letter, length, &mut of_server)?;
        // a host hands each to its cipher or MAC here: it wipes itself behind this line
        assert_eq!((of_client.as_bytes(), of_client.as_bytes().len()), (of_server.as_bytes(), length));
    }
    Ok((client, server))
}

fn connection(name: &[u8]) -> Result<[usize; 2], Cause> {
    let (ic, is) = (proposal(name, b"client's  cookie")?, proposal(name, b"server's  cookie")?);
    let method = choose(&ic, &is)?.method;
    let greeting = Greeting { vc: b"SSH-2.0-client", vs: b"SSH-2.0-server", ic: &ic, is: &is };
    let (mut client_exchange, mut client_room) = ([0; EXCHANGE], [0; ROOM]);
    let (mut server_exchange, mut server_room) = ([0; EXCHANGE], [0; ROOM]);
    let client = Client::start(method, greeting, &mut client_exchange, &mut client_room)?;
    let server = Server::start(method, greeting, &mut server_exchange, &mut server_room)?;
    let (mut client, mut server) = complete(method, client, server)?;
    let (first, id) = (client.hash_input().len(), client.session());
    assert_eq!((id.id(), id.completed()), (client.h(), 1));
    client.wipe_room();
    server.wipe_room();

    // rekeying: new KEXINITs, any method that they have in common, and here another hash; the session identifier stays
    let kex = [&b"ecdh-sha2-nistp521,"[..], name].concat();
    let (ic, is) = (proposal(&kex, b"client's another")?, proposal(&kex, b"server's another")?);
    let method = choose(&ic, &is)?.method;
    let (client, server) = (client.again(method, &ic, &is)?, server.again(method, &ic, &is)?);
    let (client, server) = complete(method, client, server)?;
    let second = client.hash_input().len();
    assert_eq!((client.session().id(), client.session().completed()), (id.id(), 2));
    assert_eq!(client.session(), server.session());

    // then nothing of K stays, neither in what was lent nor on the stack
    drop((client, server));
    wipe_stack();
    assert!(client_exchange.iter().chain(&client_room).chain(&server_exchange).chain(&server_room).all(|byte| *byte == 0));
    Ok([first, second])
}

/// What is told of an INIT and of a KEXINIT that arrive without their end. A cut INIT ends the exchange.
fn cut() -> Result<[String; 2], Cause> {
    let payload = proposal(b"curve25519-sha256", b"client's  cookie")?;
    let greeting = Greeting { vc: b"SSH-2.0-client", vs: b"SSH-2.0-server", ic: &payload, is: &payload };
    let (mut exchange, mut room) = ([0; EXCHANGE], [0; ROOM]);
    let server = Server::start(Method::Curve25519Sha256, greeting, &mut exchange, &mut room)?;
    let init = server.read_init(&[30, 0, 0, 0, 32, 0xc1, 0xc1]).map(|_| ()).expect_err("a cut INIT");
    assert_eq!((init.refusal(), init.place().map(|place| place.position)), (Refusal::PastEnd, Some(1)));
    let kexinit = open_list(&payload[..payload.len() - 2], List::Kex).expect_err("a cut KEXINIT");
    Ok([init.to_string(), kexinit.to_string()])
}

fn main() {
    if !same_version() {
        eprintln!("the library is of another version than this crate");
        std::process::exit(1);
    }
    for method in Method::ALL {
        let name = method.name();
        match connection(&name) {
            Ok([first, second]) => println!(
                "method {}, {}: complete, {} bytes to hash, six keys; begun again with ecdh-sha2-nistp521: complete, {} bytes to hash, six keys",
                method.number(), name, first, second
            ),
            Err(cause) => {
                eprintln!("method {}, {}: {}", method.number(), name, cause);
                std::process::exit(1);
            }
        }
    }
    match cut() {
        Ok(told) => println!("messages that arrive cut: {}", told.join("; ")),
        Err(cause) => {
            eprintln!("messages that arrive cut: {}", cause);
            std::process::exit(1);
        }
    }
}
