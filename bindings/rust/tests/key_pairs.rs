// Key pairs that are shared, borrowed or of a type that is chosen at run time; and the two that the crate has.
use std::sync::Arc;
use toy::Toy;
use yulimosar::{Builder, Dh};

mod toy;

fn passes<S: Dh>(key: S) {
    let mut server = Builder::new("NK").static_key(key).responder_with::<Toy>().unwrap();
    let mut client = Builder::new("NK").remote_static(&[5; 32]).initiator_with::<Toy>().unwrap();
    let mut message = [0; 100];
    let len = client.write(b"", &mut message).unwrap();
    server.read(&mut message[..len]).unwrap();
    assert_eq!(client.hash(), server.hash());
}

#[test]
fn a_key_pair_is_shared() {
    let key = Arc::new(Toy(5));
    passes(key.clone());
    passes(key.as_ref());
    passes(&*key);
    passes(Box::new(Toy(5)) as Box<dyn Dh>);
    passes(key as Arc<dyn Dh + Send + Sync>);
    passes(std::rc::Rc::new(Toy(5)));
}

#[test]
#[cfg(any(feature = "x25519", feature = "openssl"))]
fn two_handshakes_have_one_key_pair() {
    use yulimosar::{Connecting, KeyPair, Step};
    let server = KeyPair::generate().unwrap();
    for _ in 0..2 {
        let mut message = [0; 200];
        let mut client = Builder::new("NK").remote_static(server.public_key()).initiator().unwrap();
        let mut server = Builder::new("NK").static_key(server.clone()).responder().unwrap();
        let len = client.write(b"", &mut message).unwrap();
        server.read(&mut message[..len]).unwrap();
        assert_eq!(client.hash(), server.hash());
    }
    let mut first = Connecting::anonymous(Builder::new("NN").initiator().unwrap()).unwrap();
    assert!(matches!(first.step(), Ok(Step::Send(_))));
}

#[test]
#[cfg(any(feature = "x25519", feature = "openssl"))]
fn a_key_of_small_order_is_refused() {
    let mut client = Builder::new("NK").remote_static(&[0; 32]).initiator().unwrap();
    let error = client.write(b"", &mut [0; 200]).unwrap_err();
    assert!(matches!(error, yulimosar::Error::Zeros | yulimosar::Error::KeyPair(_)));
}

// RFC 7748, 6.1.
#[test]
#[cfg(any(feature = "x25519", feature = "openssl"))]
fn the_standard_s_key_pairs() {
    use yulimosar::KeyPair;
    let bytes = |digits: &str| -> [u8; 32] {
        let digit = |at: usize| u8::from_str_radix(&digits[2 * at..2 * at + 2], 16).unwrap();
        (0..32).map(digit).collect::<Vec<u8>>().try_into().unwrap()
    };
    let secret = bytes("77076d0a7318a57d3c16c17251b26645df4c2f87ebc0992ab177fba51db92c2a");
    let alice = KeyPair::from_secret(&secret).unwrap();
    assert_eq!(alice.public_key(), &bytes("8520f0098930a754748b7ddcb43ef75a0dbf3a0d26381af4eba4a98eaa9b4e6a"));
    let bob = bytes("de9edb7d7b7dc1b4d35b61c2ece435373f8343c85b78674dadfc7e146f882b4f");
    assert_eq!(alice.agree(&bob).unwrap(), bytes("4a5d9d5ba4ce2de1728e3bf480350f25e07e21c947d19e3376f09b3c1e161742"));
    assert_eq!(*alice.secret_key().unwrap(), secret);
}
