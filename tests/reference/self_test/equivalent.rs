//! The equivalent inverse cipher held to FIPS 197's appendix C.1 and to InvCipher; wrong
//! readings of its figure, each of which C.1 refuses.

use crate::equivalent::{
    on_example, Figure, Step, ADD_ROUND_KEY, APPENDIX_C, EQ_INV_CIPHER, INV_MIX_COLUMNS,
    INV_SHIFT_ROWS, INV_SUB_BYTES,
};
use crate::mode::aes::{shift_rows, Aes, Block};
use crate::mode::bytes::to_hex;
use crate::random::Random;

/// Appendix C.1, a line for each round: istart, is_box, is_row and im_col, which is ioutput in the last.
const C_1: &str = "
    7ad5fda789ef4e272bca100b3d9ff59f bdb52189f261b63d0b107c9e8b6e776e bd6e7c3df2b5779e0b61216e8b10b689 4773b91ff72f354361cb018ea1e6cf2c
    54d990a16ba09ab596bbf40ea111702f fde596f1054737d235febad7f1e3d04e fde3bad205e5d0d73547964ef1fe37f1 2d7e86a339d9393ee6570a1101904e16
    3e1c22c0b6fcbf768da85067f6170495 d1c4941f7955f40fb46f6c0ad68730ad d1876c0f79c4300ab45594add66ff41f 39daee38f4f1a82aaf432410c36d45b9
    b458124c68b68a014b99f82e5f15554c c65e395df779cf09ccf9e1c3842fed5d c62fe109f75eedc3cc79395d84f9cf5d 9a39bf1d05b20a3a476a0bf79fe51184
    e8dab6901477d4653ff7f5e2e747dd4f c87a79969b0219bc2526773bb016c992 c81677bc9b7ac93b25027992b0261996 18f78d779a93eef4f6742967c47f5ffd
    36339d50f9b539269f2c092dc4406d23 2466756c69d25b236e4240fa8872b332 247240236966b3fa6ed2753288425b6c 85cf8bf472d124c10348f545329c0053
    2d6d7ef03f33e334093602dd5bfb12c7 fab38a1725664d2840246ac957633931 fa636a2825b339c940668a3157244d17 fc1fc1f91934c98210fbfb8da340eb21
    3bd92268fc74fb735767cbe0c0590e2d 49e594f755ca638fda0a59a01f15d7fa 4915598f55e5d7a0daca94fa1f0a63f7 076518f0b52ba2fb7a15c8d93be45e00
    a7be1a6997ad739bd8c9ca451f618b61 895a43e485188fe82d121068cbd8ced8 89d810e8855ace682d1843d8cb128fe4 ef053f7c8b3d32fd4d2a64ad3c93071a
    6353e08c0960e104cd70b751bacad0e7 0050a0f04090e03080d02070c01060b0 00102030405060708090a0b0c0d0e0f0 00112233445566778899aabbccddeeff";

fn standard() -> Vec<&'static str> {
    C_1.split_whitespace().collect()
}

/// The states of C.1 by a figure, in hex.
fn c_1(figure: &Figure) -> Vec<String> {
    let states = on_example(figure, APPENDIX_C[0]);
    states.iter().map(|state| to_hex(state)).collect()
}

/// Every state of C.1.
pub fn vectors(_: &mut Random) -> Result<String, String> {
    let (found, want) = (c_1(&EQ_INV_CIPHER), standard());
    ensure!(found.len() == want.len(), "{} states", found.len());
    for (i, (found, want)) in found.iter().zip(&want).enumerate() {
        ensure!(found == want, "C.1, state {i}: {found}, not {want}");
    }
    Ok(format!("{} states of FIPS 197, C.1", want.len()))
}

/// For keys of the three lengths: the istart of each round is InvCipher's state after the
/// rounds before it, and the last state is InvCipher's result.
pub fn inverses(random: &mut Random) -> Result<String, String> {
    let (blocks, mut values) = (600, 0);
    for i in 0..blocks {
        let key = random.bytes(16 + 8 * (i % 3));
        let (aes, block) = (Aes::new(&key), random.bytes(16).try_into().unwrap());
        let states = EQ_INV_CIPHER.states(&aes, &block);
        ensure!(
            states.len() == 4 * (key.len() / 4 + 6),
            "{} states",
            states.len()
        );
        let starts = states.iter().step_by(4);
        let found: Vec<Block> = starts.chain(states.last()).copied().collect();
        let mut want = vec![];
        aes.inv_cipher(&block, |state| want.push(state));
        ensure!(
            found == want,
            "key {}, block {}: not InvCipher's states",
            to_hex(&key),
            to_hex(&block)
        );
        values += found.len();
    }
    Ok(format!(
        "{values} states of InvCipher, {blocks} blocks and keys"
    ))
}

const SHIFT_ROWS: Step = |s, _| *s = shift_rows(s);

const WRONG: [(&str, Figure); 5] = [
    (
        "every round key mixed",
        Figure {
            mixed: |nr| 0..nr + 1,
            ..EQ_INV_CIPHER
        },
    ),
    (
        "no round key mixed",
        Figure {
            mixed: |_| 0..0,
            ..EQ_INV_CIPHER
        },
    ),
    (
        "AddRoundKey before InvMixColumns",
        Figure {
            round: &[
                INV_SUB_BYTES,
                INV_SHIFT_ROWS,
                ADD_ROUND_KEY,
                INV_MIX_COLUMNS,
            ],
            ..EQ_INV_CIPHER
        },
    ),
    (
        "InvShiftRows to the left",
        Figure {
            round: &[INV_SUB_BYTES, SHIFT_ROWS, INV_MIX_COLUMNS, ADD_ROUND_KEY],
            last: &[INV_SUB_BYTES, SHIFT_ROWS, ADD_ROUND_KEY],
            ..EQ_INV_CIPHER
        },
    ),
    (
        "InvMixColumns in the last round",
        Figure {
            last: EQ_INV_CIPHER.round,
            ..EQ_INV_CIPHER
        },
    ),
];

/// Each gives another plaintext; says how many states of C.1 refuse it.
pub fn wrong_readings(_: &mut Random) -> Result<String, String> {
    let (want, mut said) = (standard(), vec![]);
    for (what, figure) in WRONG {
        let found = c_1(&figure);
        let result = found.last().unwrap();
        ensure!(
            result != want.last().unwrap(),
            "{what}: the plaintext of C.1"
        );
        let refusing = found.iter().zip(&want).filter(|(x, y)| x != y).count();
        ensure!(refusing > 0, "{what}: no state of C.1 refuses it");
        said.push(format!("{what} ({refusing})"));
    }
    Ok(format!(
        "{} refused, each by so many of {} states: {}",
        WRONG.len(),
        want.len(),
        said.join(", ")
    ))
}
