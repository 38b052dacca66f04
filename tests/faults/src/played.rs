//! The story played once, without a fault.

use crate::bench::Bench;
use crate::calls::Logged;
use crate::disk::Disk;
use crate::program::status;
use crate::story::Command;
use crate::tree::Tree;

/// A command of the story, and how things are before it.
pub struct Scene {
    pub command: Command,
    pub tree: Tree,
    pub disk: Disk,
    pub calls: Vec<Logged>,
    /// What the command left.
    pub after: Tree,
}

/// Plays the story in the bench's folder.
pub fn play(bench: &Bench) -> Result<Vec<Scene>, String> {
    bench.store(&Tree::default())?;
    let mut disk = Disk::with(&Tree::default());
    let mut scenes = Vec::new();
    for command in &bench.judge.story().0 {
        let tree = bench.load()?;
        let before = disk.clone();
        let ended = bench.run(command, None)?;
        if ended.status != Some(status::DONE) {
            return Err(format!("the {command} ends with {}", ended.words()));
        }
        follow(&mut disk, command, &ended.calls);
        let after = bench.load()?;
        scenes.push(Scene {
            command: command.clone(),
            tree,
            disk: before,
            calls: ended.calls,
            after,
        });
    }
    Ok(scenes)
}

/// Does on the disk what the process of a command did.
pub fn follow(disk: &mut Disk, command: &Command, calls: &[Logged]) {
    bring_image(disk, command);
    disk.start_process();
    for logged in calls {
        disk.play(logged);
    }
}

/// The aid's image comes from outside, and is there for good.
pub fn bring_image(disk: &mut Disk, command: &Command) {
    if let Some((name, bytes)) = command.file() {
        disk.put(&name, Some(&bytes));
    }
}

/// The judge learns the books of the story.
pub fn learn(bench: &mut Bench, scenes: &[Scene]) {
    let story = bench.judge.story();
    for (at, scene) in scenes.iter().enumerate() {
        let store = story.standing(at + 1).store;
        bench.judge.learn(&scene.after, store);
    }
}

/// The scenes whose stores have no retired volume: older layouts have none.
pub fn before_retirements(scenes: &[Scene]) -> &[Scene] {
    let retires = |scene: &Scene| matches!(scene.command, Command::Retire { .. });
    let first = scenes.iter().position(retires);
    &scenes[..first.unwrap_or(scenes.len())]
}
