//! What is sealed opens, in every set and at every length where a block or a limit is near; what was changed does not.

mod inputs;

use cba::{open, open_into, seal, seal_into, Error, Set, MAX_DATA, MAX_MESSAGE, NONCE_LEN};
use inputs::{bytes, lengths};

const DATA: [usize; 6] = [0, 1, 15, 16, 17, MAX_DATA];

fn sets() -> impl Iterator<Item = Set> {
    (1..=10).map(|number| Set::new(number).expect("ten sets"))
}

#[test]
fn what_is_sealed_opens() {
    for set in sets() {
        let (n, key, nonce) = (set.number(), bytes(set.key_len(), 1), bytes(NONCE_LEN, 2));
        for (i, len) in lengths(MAX_MESSAGE).enumerate() {
            let (data, message) = (bytes(DATA[i % DATA.len()], 3), bytes(len, 4));
            let sealed = seal(n, &key, &nonce, &data, &message).expect("sealed");
            assert_eq!(sealed.len(), len + set.tag_len());
            assert_eq!(open(n, &key, &nonce, &data, &sealed), Ok(message));
        }
    }
}

/// One bit of key, nonce, data or ciphertext is another. With a tag of 4 bytes one such change in 2^32 would open; the
/// same ones are tried in every run, and none does.
#[test]
fn what_was_changed_is_false() {
    for set in sets() {
        for len in [0, 5, 16, 17, 40, 100] {
            let inputs = [set.key_len(), NONCE_LEN, 20, len].map(|n| bytes(n, len as u8));
            let [key, nonce, data, message] = &inputs;
            let sealed = seal(set.number(), key, nonce, data, message).expect("sealed");
            let good = [key.clone(), nonce.clone(), data.clone(), sealed];
            for which in 0..4 {
                for bit in 0..8 * good[which].len() {
                    let mut bad = good.clone();
                    bad[which][bit / 8] ^= 1 << (bit % 8);
                    let opened = open(set.number(), &bad[0], &bad[1], &bad[2], &bad[3]);
                    assert_eq!(opened, Err(Error::False), "set {}, bit {bit}", set.number());
                }
            }
        }
    }
}

#[test]
fn into_a_buffer_is_the_same() {
    for set in sets() {
        let (n, key, nonce) = (set.number(), bytes(set.key_len(), 5), bytes(NONCE_LEN, 6));
        for len in [0, 1, 8, 16, 33, 100] {
            for more in [0, 1, 50] {
                let message = bytes(len, 7);
                let sealed = seal(n, &key, &nonce, b"", &message).expect("sealed");
                let mut out = vec![0xa5; sealed.len() + more];
                assert_eq!(
                    seal_into(n, &key, &nonce, b"", &message, &mut out),
                    Ok(sealed.len())
                );
                assert_eq!(out, [&sealed[..], &vec![0xa5; more]].concat());

                let mut out = vec![0xa5; len + more];
                assert_eq!(open_into(n, &key, &nonce, b"", &sealed, &mut out), Ok(len));
                assert_eq!(out, [&message[..], &vec![0xa5; more]].concat());
            }
        }
    }
}
