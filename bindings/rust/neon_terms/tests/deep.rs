//! The deepest term a pool can hold, on threads of 2 MB and less; and nodes that no pool can hold.

use neon_terms::{Arrangement, Block, Node, Number, Operation, Pool, Record, Registers};

/// v0, then each node the sum of the one before and v0.
fn chain(second: impl Fn(u64) -> u64) -> Pool {
    let mut words = vec![1 + 65536 * 128 + (1 << 32), 0, 0, 0];
    for last in 0..65534 {
        words.extend([3 + 65536 * 128 + (1 << 32), last + 65536 * second(last), 0, 0]);
    }
    Pool::from_words(words, 65535).expect("the chain keeps the rules")
}

#[test]
fn deepest_text() {
    let pool = chain(|_| 0);
    let text = pool.text(Node(65534)).unwrap();
    assert_eq!(text.len(), 2 + 7 * 65534);
    let mut short = vec![0; text.len() - 1];
    assert_eq!(pool.write_text(Node(65534), &mut short).unwrap_err().number, Number::ShortBuffer);
    assert!(short.iter().all(|byte| *byte == 0));
}

#[test]
fn deepest_value() {
    let pool = chain(|_| 0);
    let start = Registers(std::array::from_fn(|r| r as u128 + 3));
    let value = pool.value(Node(65534), &start, u64::MAX).unwrap();
    assert_eq!((value.bits, value.top, value.visits), (3 * 65535, false, 2 * 65534 + 1));
    assert_eq!(pool.value(Node(65534), &start, value.visits - 1).unwrap_err().number, Number::Visits);
}

#[test]
fn most_visits() {
    let pool = chain(|last| last);
    assert_eq!(pool.value(Node(65534), &Registers::default(), 1_000_000).unwrap_err().number, Number::Visits);
}

#[test]
fn longest_text() {
    let pool = chain(|last| last);
    assert_eq!(pool.text(Node(65534)).unwrap_err().number, Number::ShortBuffer);
}

/// The result of a call on a thread with the given bytes of stack.
fn on_a_thread<T: Send>(stack: usize, call: impl FnOnce() -> T + Send) -> T {
    std::thread::scope(|scope| std::thread::Builder::new().stack_size(stack).spawn_scoped(scope, call).unwrap().join().unwrap())
}

#[test]
fn small_threads() {
    let deep = chain(|_| 0);
    let last = Node(65534);
    let start = Registers(std::array::from_fn(|r| r as u128 + 3));
    let record = Record::new(Operation::SQADD, Arrangement::B16).d(0).n(1).m(2);
    for stack in [64 << 10, 600 << 10] {
        on_a_thread(stack, || {
            assert_eq!(deep.text(last).unwrap().len(), 2 + 7 * 65534);
            assert_eq!(deep.text_length(last, u32::MAX).unwrap(), Some(2 + 7 * 65534));
            assert_eq!(deep.text_length(last, 1 << 20).unwrap(), Some(2 + 7 * 65534));
            assert_eq!(deep.value(last, &start, u64::MAX).unwrap().bits, 3 * 65535);
            assert_eq!(deep.canonical(last).unwrap().0, deep);
            let (pool, registers) = Pool::from_block(&[record; 85]).unwrap();
            assert!(!pool.text(Node(40)).unwrap().is_empty());
            assert_eq!(pool.term(registers[0]), pool.term(registers[0]));
            assert!(Pool::join(&pool, registers[0], &pool, registers[1]).unwrap().0.len() > pool.len());
            assert!(!pool.lane_script(registers[0], registers[1], 7, 0).unwrap().is_empty());
            assert!(Registers::default().run(&[record; 85]).is_ok());
            assert!(Pool::from_block_saturation(&[record; 31]).is_ok());
            assert_eq!(Block::from_bytes(&record.to_word().unwrap().to_le_bytes()).unwrap()[..], [record]);
        });
    }
}

#[test]
fn nodes_that_are_not_there() {
    let pool = Pool::registers();
    for node in [32, 65535, 1 << 62, (1 << 62) + 5, usize::MAX] {
        let node = Node(node);
        assert_eq!(pool.view(node), None);
        assert_eq!(pool.term(node), None);
        let refused = [pool.text(node).err(), pool.canonical(node).err(), pool.registers_of(node).err(), pool.text_length(node, 9).err()];
        assert!(refused.iter().all(|refusal| refusal.is_some_and(|refusal| refusal.number == Number::Source)), "{node:?}");
        assert_eq!(pool.value(node, &Registers::default(), 9).unwrap_err().number, Number::Source);
    }
}
