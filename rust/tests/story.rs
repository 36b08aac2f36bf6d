//! The story that the library was asked for.
//!
//! Two letters shared an id. The unit held pieces 0, 2 (marked last) and 5, counted three, and said that
//! the letter had arrived. Here a letter is complete when its last number is known and every number up
//! to it is held.

mod common;

use common::{Lent, HEADS, NOW, SHARE};
use strawhub::{blocks, Block, Delivered, Message, Refusal};

const ID: u32 = 0x5eed;

fn page(n: u8) -> Vec<u8> {
    (0..1_000 + u16::from(n)).map(|i| (i as u8).wrapping_mul(31) ^ n).collect()
}

fn letter() -> Vec<u8> {
    [page(0), page(1), page(2)].concat()
}

#[test]
fn three_pieces_are_no_letter_of_three() {
    let mut lent = Lent::new();
    let mut handler = lent.handler();
    assert_eq!(handler.first_fragment(20, ID, 77, NOW, &page(0)), Ok(None));
    assert_eq!(handler.follow_on_fragment(ID, 2, true, NOW, &page(2)), Ok(None));

    // the other letter's piece 5: the old code counted three here, and lit the lamp
    assert_eq!(handler.follow_on_fragment(ID, 5, false, NOW, &page(5)), Err(Refusal::PieceConflict));
    assert_eq!(Refusal::PieceConflict.number(), 55);

    // the missing piece completes the letter, with its head and exactly its bytes
    let arrived = handler.follow_on_fragment(ID, 1, false, NOW + 1, &page(1)).unwrap();
    assert_eq!(arrived, Some(Message { message_type: 20, message_id: ID, expiration: 77, payload: &letter() }));

    // and the store is empty: each neighbour can open 4 new letters, and the heads of the record are all zero
    assert!(lent.is_empty());
    assert!(lent.record.chunks(SHARE).all(|share| share[..HEADS].iter().all(|&byte| byte == 0)));
}

#[test]
fn the_other_letters_piece_changes_nothing() {
    let mut lent = Lent::new();
    lent.keeps(common::first(ID, &page(0)));
    lent.keeps(common::next(ID, 2, true, &page(2)));
    assert_eq!(lent.refuses(common::next(ID, 5, false, &page(5))), 55);
}

/// The acknowledgement was lost, and the far end sends the whole letter again.
#[test]
fn a_letter_that_comes_again_opens_nothing() {
    let mut lent = Lent::new();
    lent.keeps(common::first(ID, &page(0)));
    lent.keeps(common::next(ID, 2, true, &page(2)));
    assert_eq!(lent.finishes(common::next(ID, 1, false, &page(1)), letter().len()), letter());

    let again = |lent: &mut Lent| {
        assert_eq!(lent.refuses(common::next(ID, 1, false, &page(1))), 57);
        assert_eq!(lent.refuses(common::next(ID, 2, true, &page(2))), 57);
        assert_eq!(lent.refuses(common::first(ID, &page(0))), 57);
    };
    again(&mut lent);
    assert!(lent.is_empty());

    // it is remembered for 30 seconds, and then the id can be used again
    lent.handler().sweep(NOW + 29);
    again(&mut lent);
    lent.handler().sweep(NOW + 30);
    lent.keeps(common::first(ID, &page(0)));
}

/// The same over the wire: the pieces as blocks of one payload, in every order that ends with piece 1.
#[test]
fn the_story_as_blocks_of_a_payload() {
    let pages: Vec<Vec<u8>> = (0..6).map(page).collect();
    let piece = |n: u8| match n {
        0 => Block::FirstFragment { message_type: 20, message_id: ID, expiration: 77, fragment: &pages[0] },
        n => {
            Block::FollowOnFragment { last: n == 2, message_id: ID, fragment_num: n, fragment: &pages[usize::from(n)] }
        }
    };
    for order in [[0, 2, 5, 1], [2, 0, 5, 1], [2, 5, 0, 1]] {
        let mut payload = vec![0; 5_000];
        let mut length = 0;
        for n in order {
            length += piece(n).write(&mut payload[length..]).unwrap();
        }
        let payload = &payload[..length];

        let mut lent = Lent::new();
        let mut handler = lent.handler();
        let mut answers = Vec::new();
        for block in blocks(payload) {
            let (place, block) = block.unwrap();
            match handler.deliver(payload, place, NOW) {
                Ok(Delivered::Nothing) => answers.push(0),
                Ok(Delivered::Rebuilt(message)) => {
                    assert_eq!((message.message_id, message.expiration), (ID, 77));
                    assert_eq!(message.payload, letter());
                    answers.push(60);
                }
                Ok(Delivered::Whole(message)) => panic!("no block is a whole message: {message:?}"),
                Err(refused) => {
                    assert_eq!(refused.place, place);
                    assert!(matches!(block, Block::FollowOnFragment { fragment_num: 5, .. }));
                    answers.push(refused.number());
                }
            }
        }
        assert_eq!(answers.iter().filter(|&&a| a == 55).count(), 1);
        assert_eq!(answers[3], 60);
        assert!(lent.is_empty());
    }
}
