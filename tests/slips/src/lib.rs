//! The model with a slip planted in it, one at a time. Each is the true model, corrected after the step to what the slip would have done.

mod at_counter;
mod at_drive;
mod at_server;
mod slip;

use engine::{image, layout, Due, Engine, Ledger, Lent, Plain, LONGEST};
use model::codec::{decode, encode};
use model::{Drive, Pieces, Refusal, Server, Set};

pub use slip::Slip;

/// The model with one slip.
#[derive(Clone, Copy, Debug)]
pub struct Slipped(pub Slip);

impl Engine for Slipped {
    type Server = Server;
    type Drive = Drive;

    fn fresh(&self, id: u32) -> Result<Server, Refusal> {
        Plain.fresh(id)
    }

    fn take(&self, server: &mut Server, message: &[u8], answer: &mut [u8]) -> Result<usize, Refusal> {
        let message = decode(message)?;
        if answer.len() >= LONGEST {
            return encode(&at_server::step(self.0, server, &message)?, answer);
        }
        let mut tried = server.clone();
        let length = encode(&at_server::step(self.0, &mut tried, &message)?, answer)?;
        *server = tried;
        Ok(length)
    }

    fn run(&self, server: &mut Server) -> Result<u32, Refusal> {
        at_server::run(self.0, server)
    }

    fn run_all(&self, server: &mut Server) -> Result<u32, Refusal> {
        at_server::run_all(self.0, server)
    }

    fn wanted(&self, server: &Server) -> Result<Set, Refusal> {
        Plain.wanted(server)
    }

    fn blank(&self) -> Drive {
        Plain.blank()
    }

    fn start(&self, drive: &mut Drive, coordinator: u32, t: u32, pieces: &Pieces) -> Result<(), Refusal> {
        Plain.start(drive, coordinator, t, pieces)
    }

    fn recover(&self, d: &mut Drive, coordinator: u32, t: u32, pieces: &Pieces, floor: u32) -> Result<(), Refusal> {
        Plain.recover(d, coordinator, t, pieces, floor)
    }

    fn again(&self, drive: &mut Drive) -> Result<(), Refusal> {
        at_drive::again(self.0, drive)
    }

    fn move_on(&self, drive: &mut Drive) -> Result<(), Refusal> {
        at_drive::move_on(self.0, drive)
    }

    fn reply(&self, drive: &mut Drive, message: &[u8]) -> Result<(), Refusal> {
        at_drive::reply(self.0, drive, &decode(message)?)
    }

    fn due(&self, drive: &Drive, message: &mut [u8]) -> Result<Due, Refusal> {
        Plain.due(drive, message)
    }

    fn see_server(&self, server: &Server) -> Server {
        server.clone()
    }

    fn see_ledger(&self, server: &Server) -> Ledger {
        Ledger::of(server)
    }

    fn see_drive(&self, drive: &Drive) -> Drive {
        drive.clone()
    }
}

impl Lent for Slipped {
    fn lend_server(&self, image: &layout::Server) -> Server {
        image::server(image)
    }

    fn lend_drive(&self, image: &layout::Drive) -> Drive {
        image::drive(image)
    }

    fn server_image(&self, server: &Server) -> layout::Server {
        image::server_image(server)
    }

    fn drive_image(&self, drive: &Drive) -> layout::Drive {
        image::drive_image(drive)
    }
}
