//! Security layers of SASL GSSAPI, between two ends of the library that meet over the replies of a KDC that were recorded. What frames and
//! tokens are to be is that of RFC 4752, section 3, and of RFC 4121, section 4.2.

mod meeting;

use meeting::meet;
use menolavuri::{Cause, Error, Layer, LayerRefusal, Layers, SaslClient, SaslServer, Session};

/// Both ends of a layer.
fn agree(layers: impl Into<Layers>, layer: Layer, user: &str) -> (SaslClient, SaslServer) {
    let most = |none| if none { 0 } else { 65536 };
    let (initiator, acceptor) = meet();
    let layers = layers.into();
    let mut server = SaslServer::new(acceptor, layers, most(layers == Layer::None.into())).unwrap();
    let mut client = SaslClient::new(initiator, layer, most(layer == Layer::None), user).unwrap();
    let offer = server.offer().unwrap();
    let answer = client.answer(&offer).unwrap();
    assert_eq!((offer.len(), answer.len()), (32, 32 + user.len()));
    assert_eq!(server.accept(&answer).unwrap(), user);
    (client, server)
}

fn is_refused<T>(answer: Result<T, Error>, refusal: LayerRefusal) -> bool {
    matches!(answer, Err(Error::Layer(found)) if found == refusal)
}

fn is_caused<T>(answer: Result<T, Error>, cause: Cause) -> bool {
    answer.is_err_and(|error| error.cause() == Some(cause))
}

#[test]
fn data_go_both_ways_in_each_layer() {
    for (layer, longer) in [
        (Layer::None, 0),
        (Layer::Integrity, 28),
        (Layer::Confidentiality, 60),
    ] {
        let (mut client, mut server) = agree(Layers::ALL, layer, "bob");
        assert_eq!(client.layer().unwrap(), layer);
        assert_eq!(server.layer().unwrap(), layer);
        for length in [0, 1, 1000] {
            let data = vec![b'd'; length];
            let frame = client.seal(&data).unwrap();
            assert_eq!(frame[..4], (frame.len() as u32 - 4).to_be_bytes());
            assert_eq!(frame.len(), 4 + length + longer);
            assert_eq!(server.unseal(&frame).unwrap(), data);
            let again = server.unseal(&frame);
            assert!(layer == Layer::None || is_caused(again, Cause::Repeated));
            let frame = server.seal(&data).unwrap();
            assert_eq!(client.unseal(&frame).unwrap(), data);
        }
    }
}

#[test]
fn ends_know_their_peers() {
    let (client, server) = agree(Layer::Confidentiality, Layer::Confidentiality, "");
    assert_eq!(client.session().peer(), "host/server.example.com");
    assert_eq!(server.session().peer(), "alice@example.com");
    assert_eq!(server.session().client(), Some("alice@EXAMPLE.COM"));
}

#[test]
fn only_sizes_that_there_are_can_be_received() {
    for (layers, most) in [(1, 1), (4, 1 << 24), (7, u32::MAX)] {
        let layers = Layers::from_sum(layers).unwrap();
        let server = SaslServer::new(meet().1, layers, most);
        assert!(is_refused(server, LayerRefusal::Layers));
    }
    for (layer, most) in [(Layer::None, 1), (Layer::Integrity, 1 << 24)] {
        let client = SaslClient::new(meet().0, layer, most, "");
        assert!(is_refused(client, LayerRefusal::Layers));
    }
}

#[test]
fn steps_have_their_turn() {
    let (initiator, acceptor) = meet();
    let mut server =
        SaslServer::new(acceptor, Layer::Integrity | Layer::Confidentiality, 65536).unwrap();
    let mut client = SaslClient::new(initiator, Layer::Integrity, 65536, "bob").unwrap();
    assert!(is_refused(server.accept(b"token"), LayerRefusal::State));
    assert!(is_refused(server.layer(), LayerRefusal::State));
    assert!(is_refused(client.seal(b"early"), LayerRefusal::State));
    let offer = server.offer().unwrap();
    assert!(is_refused(server.offer(), LayerRefusal::State));
    let answer = client.answer(&offer).unwrap();
    assert!(is_refused(client.answer(&offer), LayerRefusal::State));
    assert!(is_refused(server.seal(b"early"), LayerRefusal::State));
    assert!(is_refused(server.unseal(b"early"), LayerRefusal::State));
    assert_eq!(server.accept(&answer).unwrap(), "bob");
    assert!(is_refused(server.accept(&answer), LayerRefusal::State));
    assert_eq!(server.layer().unwrap(), Layer::Integrity);
}

#[test]
fn what_was_not_offered_is_not_accepted() {
    let (mut peer, acceptor) = meet();
    let mut server = SaslServer::new(acceptor, Layer::Confidentiality, 65536).unwrap();
    server.offer().unwrap();
    let token = peer.wrap_in_clear(&[2, 0, 1, 0]).unwrap();
    assert!(is_refused(server.accept(&token), LayerRefusal::Layer));
    assert!(is_caused(server.accept(&token), Cause::Repeated));
    let token = peer.wrap_in_clear(&[4, 0, 1, 0, 0xff]).unwrap();
    assert!(is_refused(server.accept(&token), LayerRefusal::Offer));
    let mut token = peer.wrap_in_clear(b"\x04\x00\x01\x00bj\xc3\xb6rn").unwrap();
    token[20] ^= 1;
    assert!(is_caused(server.accept(&token), Cause::Altered));
    token[20] ^= 1;
    assert_eq!(server.accept(&token).unwrap(), "bj\u{f6}rn");
}

#[test]
fn offers_without_the_layer_are_not_answered() {
    let (initiator, mut peer) = meet();
    let mut client = SaslClient::new(initiator, Layer::Integrity, 65536, "").unwrap();
    let token = peer.wrap_in_clear(&[5, 0, 1, 0]).unwrap();
    assert!(is_refused(client.answer(&token), LayerRefusal::Layer));
    let token = peer.wrap_in_clear(&[2, 0, 1]).unwrap();
    assert!(is_refused(client.answer(&token), LayerRefusal::Offer));
    let token = peer.wrap_in_clear(&[3, 0, 1, 0]).unwrap();
    assert_eq!(client.answer(&token).unwrap()[16..20], [2, 1, 0, 0]);
}

/// A client's session, and the server's end with the layer of confidentiality and frames of 100 octets.
fn layered() -> (Session, SaslServer) {
    let (mut peer, acceptor) = meet();
    let mut server = SaslServer::new(acceptor, Layers::ALL, 100).unwrap();
    server.offer().unwrap();
    let token = peer.wrap_in_clear(&[4, 0, 0, 100]).unwrap();
    assert_eq!(server.accept(&token).unwrap(), "");
    (peer, server)
}

fn frame(message: Vec<u8>) -> Vec<u8> {
    [&(message.len() as u32).to_be_bytes()[..], &message].concat()
}

#[test]
fn frames_are_whole_and_of_the_layer() {
    let (mut peer, mut server) = layered();
    assert_eq!(server.seal(&[7; 40]).unwrap().len(), 104);
    assert!(is_refused(server.seal(&[7; 41]), LayerRefusal::TooLarge));
    let clear = frame(peer.wrap_in_clear(b"a").unwrap());
    assert!(is_refused(server.unseal(&clear), LayerRefusal::Frame));
    let long = frame(peer.wrap(&[7; 41]).unwrap());
    assert!(is_refused(server.unseal(&long), LayerRefusal::TooLarge));
    let (mut peer, mut server) = layered();
    let whole = frame(peer.wrap(b"a").unwrap());
    for length in 0..whole.len() {
        assert!(is_refused(
            server.unseal(&whole[..length]),
            LayerRefusal::Frame
        ));
    }
    assert_eq!(server.unseal(&whole).unwrap(), b"a");
}

/// RFC 4752, section 3.1: the messages of a layer are in sequence.
#[test]
fn frames_are_taken_in_order() {
    let (mut peer, mut server) = layered();
    let first = frame(peer.wrap(b"a").unwrap());
    let second = frame(peer.wrap(b"b").unwrap());
    let early = server.unseal(&second).unwrap_err();
    assert_eq!(early.cause(), Some(Cause::Number));
    assert_eq!(server.unseal(&first).unwrap(), b"a");
    assert_eq!(server.unseal(&second).unwrap(), b"b");
    assert!(server.unseal(&first).is_err());
}

#[test]
fn another_thread_goes_on() {
    let (mut client, mut server) = agree(Layers::ALL, Layer::Confidentiality, "");
    let frame = std::thread::spawn(move || client.seal(b"from a thread").unwrap())
        .join()
        .unwrap();
    let data = std::thread::spawn(move || server.unseal(&frame).unwrap())
        .join()
        .unwrap();
    assert_eq!(data, b"from a thread");
}

#[test]
fn refusals_are_told_in_words() {
    let refusals = [
        LayerRefusal::Layers,
        LayerRefusal::State,
        LayerRefusal::Offer,
        LayerRefusal::Layer,
        LayerRefusal::TooLarge,
        LayerRefusal::Frame,
    ];
    for refusal in refusals {
        let words = Error::Layer(refusal).to_string();
        assert_eq!(words, format!("refused by the security layers: {refusal}"));
        assert_eq!(Error::Layer(refusal).cause(), None);
    }
}

#[test]
fn layers_are_sets() {
    let layers = Layer::Integrity | Layer::Confidentiality;
    assert_eq!(Layers::from_sum(6), Some(layers));
    assert_eq!(layers | Layer::None, Layers::ALL);
    assert!(layers.contains(Layer::Integrity) && !layers.contains(Layer::None));
    assert_eq!(Layers::from_sum(0), None);
    assert_eq!(Layers::from_sum(8), None);
}
