//! What a delivery costs a delay queue that looks at all that it holds, in plain Rust with std alone. Words: HELD DELIVERIES, as those of
//! `crates/bench`, held: most members' messages wait for one of member 0, and those of one more member are delivered as they come.

use std::collections::VecDeque;
use std::env;

const SIZE: usize = 64;
const WINDOW: usize = 256;
const FREE: usize = 62;

struct Message {
    sender: usize,
    time: [u32; SIZE],
}

struct Queue {
    lists: Vec<VecDeque<Message>>,
}

fn is_ready(message: &Message, now: &[u32; SIZE]) -> bool {
    (0..SIZE).all(|k| if k == message.sender { message.time[k] == now[k] + 1 } else { message.time[k] <= now[k] })
}

impl Queue {
    fn hold(&mut self, message: Message) {
        self.lists[message.sender].push_back(message);
    }

    /// The smallest sender of a message that may be delivered: each held message is looked at, until one is.
    fn next_ready(&self, now: &[u32; SIZE]) -> Option<usize> {
        self.lists.iter().position(|list| list.iter().any(|message| is_ready(message, now)))
    }
}

fn main() {
    let words: Vec<usize> = env::args().skip(1).map(|word| word.parse().expect("a number")).collect();
    let (held, deliveries) = (words[0], words[1]);
    let mut queue = Queue { lists: (0..SIZE).map(|_| VecDeque::new()).collect() };
    for place in 0..held {
        let (sender, number) = (1 + place / WINDOW, 1 + (place % WINDOW) as u32);
        let mut time = [0; SIZE];
        time[0] = 1;
        time[sender] = number;
        queue.hold(Message { sender, time });
    }
    let mut now = [0; SIZE];
    let mut delivered = 0;
    for number in 1..=deliveries {
        let mut time = [0; SIZE];
        time[FREE] = number as u32;
        queue.hold(Message { sender: FREE, time });
        while let Some(sender) = queue.next_ready(&now) {
            let message = queue.lists[sender].pop_front().expect("it is held");
            now[sender] = message.time[sender];
            delivered += 1;
        }
    }
    println!("held {held} delivered {delivered}");
}
