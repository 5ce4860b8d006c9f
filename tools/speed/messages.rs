//! The messages that are measured.

use mb_base::{Host, Items, Ui};
use mb_msg::{
    Batch, Body, ChangeBody, Commit, Evidence, EvidenceMember, Hashed, Join, Message, NewView,
    NewViewBody, Request, Requests, Shown, StableCert, StableMember, ViewChange,
};
use std::alloc::{AllocError, Global};

fn ui(host: Host) -> Ui {
    Ui {
        host,
        counter: 9,
        cert: [0x33; 32],
    }
}

fn request(alloc: Global) -> Result<Request, AllocError> {
    let mut op = Items::new(alloc);
    for _ in 0..100 {
        op.push(5)?;
    }
    Ok(Request {
        client: 2,
        seq: 7,
        op,
        tag: [0x11; 32],
    })
}

/// A batch of one request.
fn batch(alloc: Global) -> Result<Batch, AllocError> {
    let mut requests = Items::new(alloc);
    requests.push(request(alloc)?)?;
    Ok(Batch {
        requests: Requests::from_items(requests),
    })
}

fn whole_commit(alloc: Global) -> Result<Commit, AllocError> {
    Ok(Commit {
        view: 4,
        pos: 5,
        counter: 6,
        cert: [0x22; 32],
        body: Body::Whole(batch(alloc)?),
        ui: ui(1),
    })
}

/// A COMMIT with an operation of 100 bytes.
pub fn commit(alloc: Global) -> Result<Message, AllocError> {
    Ok(Message::Commit(whole_commit(alloc)?))
}

fn stable(alloc: Global) -> Result<StableCert, AllocError> {
    let mut members = Items::new(alloc);
    for host in 0..4 {
        members.push(StableMember {
            host,
            counter: 8,
            floors: [0x55; 32],
            cert: [0x66; 32],
        })?;
    }
    Ok(StableCert {
        pos: 32,
        state: [0x77; 32],
        members,
    })
}

fn evidence(alloc: Global) -> Result<Evidence, AllocError> {
    let mut members = Items::new(alloc);
    for host in 0..3 {
        members.push(EvidenceMember {
            host,
            counter: 8,
            cert: [0x66; 32],
        })?;
    }
    Ok(Evidence {
        view: 3,
        base: 32,
        end: 96,
        plan: [0x44; 32],
        body: [0x55; 32],
        counter: 6,
        cert: [0x66; 32],
        members,
    })
}

fn join(alloc: Global) -> Result<Join, AllocError> {
    Ok(Join {
        view: 3,
        evidence: Some(evidence(alloc)?),
        stable: stable(alloc)?,
        ui: ui(1),
    })
}

/// Of every five entries one is a JOIN and four are whole COMMITs.
fn entries(alloc: Global, count: u16) -> Result<Items<Shown>, AllocError> {
    let mut all = Items::new(alloc);
    for i in 0..count {
        if i % 5 == 0 {
            all.push(Shown::Join(join(alloc)?))?;
        } else {
            all.push(Shown::Commit(whole_commit(alloc)?))?;
        }
    }
    Ok(all)
}

fn change(alloc: Global, host: Host, count: u16) -> Result<ViewChange, AllocError> {
    Ok(ViewChange {
        view: 4,
        body: Body::Whole(Hashed::new(ChangeBody {
            floor: None,
            stable: stable(alloc)?,
            entries: entries(alloc, count)?,
        })),
        ui: ui(host),
    })
}

fn changes(alloc: Global, count: u16) -> Result<Items<ViewChange>, AllocError> {
    let mut changes = Items::new(alloc);
    for host in 0..4 {
        changes.push(change(alloc, host, count)?)?;
    }
    Ok(changes)
}

/// A NEW_VIEW of four hosts, each of which shows so many entries.
pub fn new_view(alloc: Global, count: u16) -> Result<Message, AllocError> {
    let body = NewViewBody {
        changes: changes(alloc, count)?,
    };
    Ok(Message::NewView(NewView {
        view: 4,
        base: 32,
        end: 96,
        plan: [0x44; 32],
        body: Body::Whole(body),
        ui: ui(4),
    }))
}
