//! Suites: exactly those that the library takes, and their names.

use sealed_book::{raw, Cipher, Refusal, Suite};

/// Each pair of bytes is a suite where the library enciphers under it, and else refused as there.
#[test]
fn every_pair_of_bytes() {
    let mut listed = Vec::new();
    for bytes in (0..=u16::MAX).map(u16::to_be_bytes) {
        let [cipher, steps] = bytes;
        let answer = raw::encipher(cipher, steps, &[1; 16], &[2; 16], &mut [3; 16]);
        let suite = Suite::from_bytes(bytes);
        assert_eq!(suite.map(|_| ()), answer, "{bytes:?}");
        if let Ok(suite) = suite {
            assert_eq!(suite.to_bytes(), bytes);
            assert_eq!((suite.cipher() as u8, suite.steps()), (cipher, steps));
            listed.push(suite);
        }
    }
    assert_eq!(listed, Suite::ALL);
}

/// "6, 8, 10, 12 for Scream, 8, 10, 12, 14 for iScream"
#[test]
fn made_from_cipher_and_steps() {
    for cipher in [Cipher::Scream, Cipher::IScream] {
        for steps in 0..=255 {
            let listed = match cipher {
                Cipher::Scream => [6, 8, 10, 12].contains(&steps),
                Cipher::IScream => [8, 10, 12, 14].contains(&steps),
            };
            let suite = Suite::new(cipher, steps);
            assert_eq!(suite.is_ok(), listed, "{cipher} {steps}");
            match suite {
                Ok(suite) => assert_eq!((suite.cipher(), suite.steps()), (cipher, steps)),
                Err(refusal) => assert_eq!(refusal, Refusal::SuiteNotListed),
            }
        }
    }
}

#[test]
fn names() {
    let suites = [
        (Suite::SCREAM_6, "Scream with 6 steps"),
        (Suite::SCREAM_8, "Scream with 8 steps"),
        (Suite::SCREAM_10, "Scream with 10 steps"),
        (Suite::SCREAM_12, "Scream with 12 steps"),
        (Suite::ISCREAM_8, "iScream with 8 steps"),
        (Suite::ISCREAM_10, "iScream with 10 steps"),
        (Suite::ISCREAM_12, "iScream with 12 steps"),
        (Suite::ISCREAM_14, "iScream with 14 steps"),
    ];
    for (suite, name) in suites {
        assert_eq!(suite.to_string(), name);
    }
    assert_eq!(suites.map(|(suite, _)| suite), Suite::ALL);
}
