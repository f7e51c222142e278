//! Document 01's example with types: prints what each step answers.

use bay::{
    Cursor, Edit, EditId, Engine, Input, Next, Operation, Outcome, Page, RequestId, ResourceId,
    Role, Timestamp,
};

fn main() {
    let now = Timestamp::new(5);
    let page = Page {
        changes: Vec::new(),
        next: Next::Done(Cursor::new("A")),
    };
    let delete = Edit {
        id: EditId::new("a"),
        resource: ResourceId::new("r"),
        operation: Operation::Delete,
        role: Role::Owner,
        expires_at: Some(now),
    };
    let mut engine = Engine::fresh();
    println!("{:?}", engine.step(&Input::Sync));
    let outcome = Outcome::Listed(page);
    let request = RequestId::new(0);
    println!("{:?}", engine.step(&Input::Outcome { request, outcome }));
    println!("{:?}", engine.step(&Input::Tick { now }));
    println!("{:?}", engine.step(&Input::Edit(delete)));
    println!("{:?}", engine.step_frame(&[5]));
    println!("{engine:?}");
}
