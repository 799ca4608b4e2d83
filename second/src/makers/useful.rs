//! Useful runs: units really cross, over channels that lose, repeat and
//! reorder, while numbers and clocks go round and idle spells come and go.

use super::driver::Driver;
use super::setups;
use crate::bench::Event;
use crate::random::Random;
use crate::script::LARGEST_SCRIPT;

/// How a run behaves, in chances of a hundred and in weights.
#[derive(Clone, Copy)]
pub struct Habits {
    /// Weight of losing a packet.
    loss: u64,
    /// Weight of copying a packet.
    copies: u64,
    /// Weight of a tick.
    ticks: u64,
    /// Chance of an event picked without regard to success.
    wild: u64,
    /// Chance of moving a whole window of units at once.
    bursts: u64,
    /// Chance of several ticks in which nothing else happens.
    idle: u64,
    /// Which packets come out of a channel first.
    order: Order,
}

/// The order in which a channel gives packets up.
#[derive(Clone, Copy)]
enum Order {
    Oldest,
    Newest,
    Any,
}

/// A run of 40 to 2000 steps on any admitted setup.
pub fn script(mut random: Random) -> Vec<u8> {
    let setup = setups::admitted(&mut random);
    let steps = length(&mut random);
    let mut driver = Driver::new(setup, random);
    let habits = Habits::draw(&mut driver.random);
    run(&mut driver, habits, steps);
    driver.finish()
}

/// A count of steps, mostly a few hundred.
pub fn length(random: &mut Random) -> usize {
    let most = random.choose(&[100, 300, 300, 600, 600, 2000]);
    random.between(40, most) as usize
}

/// Plays `steps` steps with these habits, or as many as a script can hold.
pub fn run(driver: &mut Driver, habits: Habits, steps: usize) {
    for _ in 0..steps {
        if driver.has_room_in(LARGEST_SCRIPT) {
            step(driver, habits);
        }
    }
}

/// One event, or a burst or an idle spell that counts as one.
pub fn step(driver: &mut Driver, habits: Habits) {
    if driver.random.chance(habits.bursts) {
        burst(driver, habits);
    } else if driver.random.chance(habits.idle) {
        idle(driver);
    } else if driver.random.chance(habits.wild) {
        let event = driver.wild();
        let _ = driver.play(event);
    } else {
        let event = sensible(driver, habits);
        let _ = driver.play(event);
    }
}

impl Habits {
    pub fn draw(random: &mut Random) -> Self {
        Habits {
            loss: random.choose(&[0, 1, 1, 3]),
            copies: random.choose(&[0, 1, 2, 4]),
            ticks: random.choose(&[1, 1, 3, 6]),
            wild: random.choose(&[0, 3, 10]),
            bursts: random.choose(&[0, 2, 5]),
            idle: random.choose(&[0, 1, 3]),
            order: random.choose(&[Order::Oldest, Order::Newest, Order::Any]),
        }
    }

    /// Old copies stay in the channels as long as they may live while units
    /// move on as fast as they can.
    pub fn hoarding(random: &mut Random) -> Self {
        Habits {
            loss: 0,
            copies: random.choose(&[2, 4, 8]),
            ticks: random.choose(&[1, 2]),
            wild: random.choose(&[0, 3]),
            bursts: random.choose(&[5, 20]),
            idle: random.choose(&[0, 1]),
            order: Order::Newest,
        }
    }
}

/// An event that succeeds, weighed so that units flow.
fn sensible(driver: &mut Driver, habits: Habits) -> Event {
    let mut choices = vec![(habits.ticks, Event::Tick)];
    let unit = driver.unit();
    let bench = &driver.bench;
    if bench.receiver.window < bench.receiver.setup.rw {
        choices.push((5, Event::Room));
    }
    if !bench.acks.full() {
        choices.push((3, Event::Ack));
    }
    if driver.open() {
        choices.push((8, Event::Accept(unit)));
    }
    push_send(driver, &mut choices);
    push_data(driver, habits, &mut choices);
    push_acks(driver, habits, &mut choices);
    driver.random.weigh(&choices)
}

/// Sending: the unit that is wanted, one soon after it, or any.
fn push_send(driver: &mut Driver, choices: &mut Vec<(u64, Event)>) {
    let outstanding = u64::from(driver.bench.sender.outstanding);
    if outstanding == 0 || driver.bench.data.full() {
        return;
    }
    let waiting = driver.waiting();
    if waiting == 0 {
        choices.push((1, Event::Send(driver.random.below(outstanding))));
        return;
    }
    let soon = driver.random.below(waiting.min(4));
    choices.push((6, Event::Send(driver.wanted() + soon)));
    choices.push((1, Event::Send(driver.random.below(outstanding))));
}

/// What may befall a data packet; the fuller the channel, the likelier.
fn push_data(driver: &mut Driver, habits: Habits, choices: &mut Vec<(u64, Event)>) {
    let count = driver.bench.data.count as u64;
    if count == 0 {
        return;
    }
    let any = driver.random.below(count);
    let place = pick(driver, habits.order, count);
    choices.push((4 + count / 2, Event::Data(place)));
    choices.push((habits.loss, Event::DropData(any)));
    if !driver.bench.data.full() {
        choices.push((habits.copies, Event::DuplicateData(any)));
    }
}

/// What may befall an acknowledgement.
fn push_acks(driver: &mut Driver, habits: Habits, choices: &mut Vec<(u64, Event)>) {
    let count = driver.bench.acks.count as u64;
    if count == 0 {
        return;
    }
    let any = driver.random.below(count);
    let place = pick(driver, habits.order, count);
    choices.push((3 + count / 2, Event::Hear(place)));
    choices.push((habits.loss, Event::DropAck(any)));
    if !driver.bench.acks.full() {
        choices.push((habits.copies, Event::DuplicateAck(any)));
    }
}

/// The place of the next packet to arrive; now and then out of order.
fn pick(driver: &mut Driver, order: Order, count: u64) -> u64 {
    if driver.random.chance(10) {
        return driver.random.below(count);
    }
    match order {
        Order::Oldest => 0,
        Order::Newest => count - 1,
        Order::Any => driver.random.below(count),
    }
}

/// The window is opened, filled and delivered in one go. Copies stay behind
/// in the data channel as long as it has places.
fn burst(driver: &mut Driver, habits: Habits) {
    let rw = driver.setup().rw;
    driver.grant(rw);
    while driver.open() {
        let unit = driver.unit();
        let _ = driver.play(Event::Accept(unit));
    }
    while driver.waiting() > 0 {
        let wanted = driver.wanted();
        let _ = driver.send(wanted);
        if driver.random.chance(4 * habits.copies) && !driver.bench.data.full() {
            let newest = driver.bench.data.count as u64 - 1;
            let _ = driver.play(Event::DuplicateData(newest));
        }
        let _ = driver.take_newest();
    }
    if driver.random.chance(80) {
        driver.acknowledge();
    }
}

/// Ticks alone: until recents are gone, until the clock has gone round, or a
/// few.
fn idle(driver: &mut Driver) {
    let life = u64::from(driver.setup().life);
    let nc = driver.setup().nc();
    let few = driver.random.between(2, 6);
    let ticks = driver
        .random
        .choose(&[few, life, life + 1, life + 2, life + 3, nc / 2, nc]);
    for _ in 0..ticks.min(70) {
        let _ = driver.play(Event::Tick);
    }
}
