//! The proved library behind the same door, through `drobulets::raw`. It is linked only with the feature `archive`.

use crate::{image, layout, Due, Engine, Ledger, Lent};
use drobulets::raw;
use model::{Pieces, Refusal, Set};

/// What the number of a refusal says: 0 is none.
fn judged<T>(number: u32, answer: T) -> Result<T, Refusal> {
    match number {
        0 => Ok(answer),
        _ => Err(Refusal::numbered(number).unwrap_or_else(|| panic!("refusal {number} is none of document 01's"))),
    }
}

#[derive(Clone, Copy, Debug, Default)]
pub struct Archive;

impl Engine for Archive {
    type Server = layout::Server;
    type Drive = layout::Drive;

    fn fresh(&self, id: u32) -> Result<layout::Server, Refusal> {
        let mut server = layout::Server::default();
        let refusal = raw::server_fresh(&mut server, id);
        judged(refusal, server)
    }

    fn take(&self, server: &mut layout::Server, message: &[u8], answer: &mut [u8]) -> Result<usize, Refusal> {
        let said = raw::server_take(server, message, answer);
        judged(said.refusal, said.length as usize)
    }

    fn run(&self, server: &mut layout::Server) -> Result<u32, Refusal> {
        let ran = raw::server_run(server);
        judged(ran.refusal, ran.many)
    }

    fn run_all(&self, server: &mut layout::Server) -> Result<u32, Refusal> {
        let ran = raw::server_run_all(server);
        judged(ran.refusal, ran.many)
    }

    fn wanted(&self, server: &layout::Server) -> Result<Set, Refusal> {
        let wants = raw::server_wanted(server);
        judged(wants.refusal, image::set(&wants.set))
    }

    fn blank(&self) -> layout::Drive {
        layout::Drive::default()
    }

    fn start(&self, drive: &mut layout::Drive, coordinator: u32, t: u32, pieces: &Pieces) -> Result<(), Refusal> {
        judged(raw::drive_start(drive, coordinator, t, image::pieces_image(pieces)), ())
    }

    fn recover(
        &self,
        drive: &mut layout::Drive,
        coordinator: u32,
        t: u32,
        pieces: &Pieces,
        floor: u32,
    ) -> Result<(), Refusal> {
        judged(raw::drive_recover(drive, coordinator, t, image::pieces_image(pieces), floor), ())
    }

    fn again(&self, drive: &mut layout::Drive) -> Result<(), Refusal> {
        judged(raw::drive_again(drive), ())
    }

    fn move_on(&self, drive: &mut layout::Drive) -> Result<(), Refusal> {
        judged(raw::drive_move_on(drive), ())
    }

    fn reply(&self, drive: &mut layout::Drive, message: &[u8]) -> Result<(), Refusal> {
        judged(raw::drive_take(drive, message), ())
    }

    fn due(&self, drive: &layout::Drive, message: &mut [u8]) -> Result<Due, Refusal> {
        let sending = raw::drive_due(drive, message);
        judged(sending.refusal, Due { length: sending.length as usize, servers: sending.servers })
    }

    fn see_server(&self, server: &layout::Server) -> model::Server {
        image::server(server)
    }

    fn see_ledger(&self, server: &layout::Server) -> Ledger {
        image::ledger(server)
    }

    fn see_drive(&self, drive: &layout::Drive) -> model::Drive {
        image::drive(drive)
    }
}

impl Lent for Archive {
    fn lend_server(&self, image: &layout::Server) -> layout::Server {
        *image
    }

    fn lend_drive(&self, image: &layout::Drive) -> layout::Drive {
        *image
    }

    fn server_image(&self, server: &layout::Server) -> layout::Server {
        *server
    }

    fn drive_image(&self, drive: &layout::Drive) -> layout::Drive {
        *drive
    }
}
