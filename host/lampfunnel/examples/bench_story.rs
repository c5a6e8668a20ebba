//! The bench's story. A recorder has a converter and a judge of grip forces in one namespace, and the display programs
//! in another. A display remembers the number of a helper that is long gone, and signals it. It finds nobody: the
//! converter, which has that very number in its own namespace, lives, and the judge goes on judging.
//!
//! `cargo run --release --offline --example bench_story`

use lampfunnel::{Call, Child, Slot, Table};

struct Story {
    table: Table,
}

impl Story {
    /// Makes a call, and tells the question, the answer and what they mean.
    fn tell(&mut self, caller: Slot, call: Call, meaning: &str) -> Option<Child> {
        let reply = self.table.call(caller, call);
        let answer = reply.map_or_else(|refusal| refusal.number().to_string(), |reply| reply.to_string());
        println!("{:12}  {answer:12}  {meaning}", format!("{caller} {call}"));
        reply.ok()?.born()
    }

    fn birth(&mut self, caller: Slot, call: Call, meaning: &str) -> Child {
        self.tell(caller, call, meaning).expect("there is room for a child")
    }
}

fn main() {
    let mut story = Story { table: Table::fresh() };
    let recorder = Slot::ROOT;
    let judging =
        story.birth(recorder, Call::CloneNew, "the recorder starts a namespace for its judging; its init is at slot 1");
    let converter = story.birth(judging.slot, Call::Clone, "the converter, at slot 2");
    let judge = story.birth(judging.slot, Call::Clone, "the judge of grip forces, at slot 3");
    let display =
        story.birth(recorder, Call::CloneNew, "the display programs get a namespace too; its init is at slot 4");
    let helper = story.birth(display.slot, Call::Clone, "a helper of the display, at slot 5, has number 2 there");
    story.tell(helper.slot, Call::Exit(0), "it ends");
    story.tell(display.slot, Call::Wait, "and is removed: in that namespace number 2 is nobody's now");
    story.tell(
        display.slot,
        Call::Kill(helper.pid.into(), 9),
        "the display signals the old number, which is also the converter's in the other namespace: it finds nobody",
    );
    story.tell(display.slot, Call::Kill(-1, 9), "nor does it find anyone by signalling all that it sees");
    story.tell(converter.slot, Call::Getpid, "the converter lives");
    story.tell(judge.slot, Call::Getpid, "and so does the judge");
    let helper = story.birth(display.slot, Call::Clone, "a new helper gets the next number, and not the old one");
    story.tell(
        recorder,
        Call::Kill(display.pid.into(), 9),
        "the recorder ends the display's init, and with it all of that namespace",
    );
    story.tell(helper.slot, Call::Getpid, "the helper is gone");
    story.tell(judging.slot, Call::Kill(judge.pid.into(), 0), "the judge is still found");
    println!("\n{:?}", story.table);
}
