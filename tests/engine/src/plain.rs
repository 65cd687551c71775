//! The model behind the door.

use crate::{image, layout, Due, Engine, Ledger, Lent, LONGEST};
use model::codec::{decode, encode};
use model::{drive, run, server, Drive, Pieces, Refusal, Server, Set};

#[derive(Clone, Copy, Debug, Default)]
pub struct Plain;

impl Engine for Plain {
    type Server = Server;
    type Drive = Drive;

    fn fresh(&self, id: u32) -> Result<Server, Refusal> {
        Server::fresh(id)
    }

    /// An answer that doesn't fit takes the whole step back.
    fn take(&self, server: &mut Server, message: &[u8], answer: &mut [u8]) -> Result<usize, Refusal> {
        let message = decode(message)?;
        if answer.len() >= LONGEST {
            return encode(&server::step(server, &message)?, answer);
        }
        let mut tried = server.clone();
        let length = encode(&server::step(&mut tried, &message)?, answer)?;
        *server = tried;
        Ok(length)
    }

    fn run(&self, server: &mut Server) -> Result<u32, Refusal> {
        run::run(server)
    }

    fn run_all(&self, server: &mut Server) -> Result<u32, Refusal> {
        run::run_all(server)
    }

    fn wanted(&self, server: &Server) -> Result<Set, Refusal> {
        run::wanted(server)
    }

    fn blank(&self) -> Drive {
        Drive::default()
    }

    fn start(&self, drive: &mut Drive, coordinator: u32, t: u32, pieces: &Pieces) -> Result<(), Refusal> {
        drive::start(drive, coordinator, t, pieces)
    }

    fn recover(&self, d: &mut Drive, coordinator: u32, t: u32, pieces: &Pieces, floor: u32) -> Result<(), Refusal> {
        drive::recover(d, coordinator, t, pieces, floor)
    }

    fn again(&self, drive: &mut Drive) -> Result<(), Refusal> {
        drive::again(drive)
    }

    fn move_on(&self, drive: &mut Drive) -> Result<(), Refusal> {
        drive::move_on(drive)
    }

    fn reply(&self, drive: &mut Drive, message: &[u8]) -> Result<(), Refusal> {
        drive::reply(drive, &decode(message)?)
    }

    fn due(&self, drive: &Drive, message: &mut [u8]) -> Result<Due, Refusal> {
        let sending = drive::due(drive)?;
        Ok(Due { length: encode(&sending.message, message)?, servers: sending.servers })
    }

    fn see_server(&self, server: &Server) -> Server {
        server.clone()
    }

    fn see_ledger(&self, server: &Server) -> Ledger {
        Ledger::of(server)
    }

    fn see_drive(&self, drive: &Drive) -> Drive {
        drive.clone()
    }
}

impl Lent for Plain {
    fn lend_server(&self, image: &layout::Server) -> Server {
        image::server(image)
    }

    fn lend_drive(&self, image: &layout::Drive) -> Drive {
        image::drive(image)
    }

    fn server_image(&self, server: &Server) -> layout::Server {
        image::server_image(server)
    }

    fn drive_image(&self, drive: &Drive) -> layout::Drive {
        image::drive_image(drive)
    }
}
