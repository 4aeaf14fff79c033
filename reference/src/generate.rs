//! Random books for tests, made so that runs reach deep into the rules.
//!
//! Records picked blindly would nearly always be refused, or stop at once. So
//! a book's scripts work on a few cells only, its spots, and while a script is
//! made its labels are guessed as sets of spots. Most choices then keep to the
//! rules, as far as the guess goes; the rest are made without regard to them.

mod alter;
mod damage;
mod deep;
mod guess;
mod idioms;
mod labels;
mod pool;
mod script;
mod world;

pub use alter::{altered, relabelled};
pub use damage::damaged;
pub(crate) use deep::nested;

use crate::book::{Book, Program, Trigger};
use crate::random::Random;
use guess::Guess;
use pool::Pool;
use script::Script;
use world::World;

/// How large a book becomes.
#[derive(Clone, Copy, PartialEq)]
enum Size {
    Tiny,
    Small,
    Middle,
    /// Every section as full as it may be.
    Full,
}

/// A random book that the decoder accepts.
pub fn book(random: &mut Random) -> Book {
    make(random, false)
}

/// A random book in which, two times of five, triggers are made to stop after
/// they have written cells.
pub fn often_failing(random: &mut Random) -> Book {
    let failing = random.chance(40);
    make(random, failing)
}

/// A random book of which three in five are of version 2, mostly with labels
/// for some cells that scripts work on.
pub fn of_either_version(random: &mut Random) -> Book {
    let size = size(random);
    let failing = random.chance(15);
    let mut world = World::new(random, size, failing);
    if random.chance(60) {
        world.labels = Some(labels::records(random, size, &world.spots));
    }
    let mut guess = Guess::new(&world);
    scripts(random, size, &world, &mut guess)
}

/// Books for so many days, one after the other, with scripts that work on the
/// same cells. Those of the later days have cells too, which the day before is
/// to replace.
pub fn days(random: &mut Random, count: usize) -> Vec<Book> {
    let size = random.pick(&[Size::Tiny, Size::Tiny, Size::Small]);
    let failing = random.chance(10);
    let mut world = World::new(random, size, failing);
    if random.chance(40) {
        world.labels = Some(labels::records(random, size, &world.spots));
    }
    let mut guess = Guess::new(&world);
    let mut days = vec![scripts(random, size, &world, &mut guess)];
    while days.len() < count {
        if random.chance(40) {
            world.change_rights(random, size);
        }
        guess.begin_day(&world);
        days.push(scripts(random, size, &world, &mut guess));
    }
    days
}

fn size(random: &mut Random) -> Size {
    random.weighted(&[
        (45, Size::Tiny),
        (40, Size::Small),
        (14, Size::Middle),
        (1, Size::Full),
    ])
}

fn make(random: &mut Random, failing: bool) -> Book {
    if random.below(300) == 0 {
        return deep::book(random);
    }
    let size = size(random);
    let world = World::new(random, size, failing);
    let mut guess = Guess::new(&world);
    scripts(random, size, &world, &mut guess)
}

/// A book of this world, with scripts that begin as guessed.
fn scripts(random: &mut Random, size: Size, world: &World, guess: &mut Guess) -> Book {
    let (for_triggers, for_programs) = match size {
        Size::Tiny => (25, 50),
        Size::Small => (60, 120),
        Size::Middle => (120, 300),
        Size::Full => (250, 400),
    };
    let mut pool = Pool::new();
    pool.allow(for_triggers);
    let triggers = triggers(random, size, world, &mut pool, guess);
    pool.allow(for_programs);
    let programs = programs(random, size, world, &mut pool, guess);
    if size == Size::Full {
        pool.fill();
    }
    Book {
        cells: world.cells.clone(),
        regions: world.regions.clone(),
        rights: world.rights.clone(),
        nodes: pool.nodes,
        programs,
        triggers,
        labels: world.labels.clone(),
    }
}

fn triggers(
    random: &mut Random,
    size: Size,
    world: &World,
    pool: &mut Pool,
    guess: &mut Guess,
) -> Vec<Trigger> {
    let count = match size {
        Size::Tiny => random.weighted(&[(5, 0), (4, 1), (2, 2)]),
        Size::Small => random.weighted(&[(3, 0), (3, 1), (3, 2), (1, 4)]),
        Size::Middle => random.between(1, 6),
        Size::Full => 8,
    };
    let count = count.max(usize::from(world.failing));
    let mut triggers = Vec::with_capacity(count);
    for number in 0..count {
        let user = world.script_user(random);
        let region = world.small_region(random);
        let event = random.weighted(&[(3, 1), (1, 2)]);
        let length = random.between(1, 2);
        let mut start = *guess;
        let mut script = Script::for_trigger(random, world, pool, &mut start, user);
        let body = match world.failing {
            true => script.failing_body(length),
            false => script.block(length, 1),
        };
        let writes = script.touched;
        guess.add_trigger(number, event, world.covers[region], writes);
        triggers.push(Trigger {
            region: region as u8,
            event,
            user,
            body,
        });
    }
    triggers
}

fn programs(
    random: &mut Random,
    size: Size,
    world: &World,
    pool: &mut Pool,
    guess: &mut Guess,
) -> Vec<Program> {
    let count = match size {
        Size::Tiny => random.weighted(&[(1, 0), (16, 1), (3, 2)]),
        Size::Small => random.weighted(&[(6, 1), (3, 2), (1, 3)]),
        Size::Middle => random.between(1, 5),
        Size::Full => 8,
    };
    let mut programs = Vec::with_capacity(count);
    for _ in 0..count {
        let user = world.script_user(random);
        let length = match size {
            Size::Tiny => random.between(1, 3),
            Size::Small => random.between(2, 7),
            _ => random.between(3, 14),
        };
        let mut script = Script::for_program(random, world, pool, guess, user);
        let root = script.program(length);
        programs.push(Program { user, root });
    }
    programs
}
