//! Tight setups: useful runs, mostly with old copies kept back, on setups
//! where B and L are the largest that NS and NC admit; and the same runs under
//! a setup one step outside, which must be refused.

use super::driver::Driver;
use super::setups;
use super::useful::{length, run, Habits};
use crate::random::Random;

pub fn script(mut random: Random) -> Vec<u8> {
    let setup = setups::tight(&mut random);
    if random.chance(20) {
        let outside = setups::outside(&mut random, setup);
        let mut driver = Driver::claiming(outside, setup, random);
        let habits = Habits::draw(&mut driver.random);
        run(&mut driver, habits, 30);
        return driver.finish();
    }
    let habits = if random.chance(60) {
        Habits::hoarding(&mut random)
    } else {
        Habits::draw(&mut random)
    };
    let steps = length(&mut random);
    let mut driver = Driver::new(setup, random);
    run(&mut driver, habits, steps);
    driver.finish()
}
