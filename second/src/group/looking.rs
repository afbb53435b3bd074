//! What can be looked up in a group. Nothing here needs a carrier.

use super::server::Server;
use super::Group;
use crate::code::{Code, ServerSet};
use crate::refusal::Refusal;
use crate::tag::Tag;

impl Group {
    pub fn code(&self) -> &Code {
        &self.code
    }

    pub fn server(&self, server: usize) -> Result<&Server, Refusal> {
        self.servers.get(server).ok_or(Refusal::NoSuchServer)
    }

    pub fn symbol(&self, server: usize) -> Result<&[u8], Refusal> {
        Ok(self.server(server)?.symbol())
    }

    pub fn own(&self, server: usize, object: usize) -> Result<Tag, Refusal> {
        self.told(server, object, server)
    }

    pub fn told(&self, server: usize, object: usize, teller: usize) -> Result<Tag, Refusal> {
        let at = self.server(server)?;
        self.server(teller)?;
        self.check_object(object)?;
        Ok(at.told(object)[teller])
    }

    pub fn clock(&self, server: usize) -> Result<&[u32], Refusal> {
        Ok(&self.server(server)?.clock)
    }

    pub fn history_len(&self, server: usize) -> Result<usize, Refusal> {
        Ok(self.server(server)?.history.len())
    }

    pub fn recovers(&self, object: usize, servers: &[usize]) -> Result<bool, Refusal> {
        let mut set: ServerSet = 0;
        for server in servers {
            self.server(*server)?;
            set |= 1 << server;
        }
        self.check_object(object)?;
        Ok(self.code.recovers(set, object))
    }
}
