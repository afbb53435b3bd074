use super::Group;
use crate::carrier::Carrier;
use crate::message::{Cells, Message, GREATEST_COUNT, GREATEST_HEIGHT};
use crate::refusal::Refusal;
use crate::tag::Tag;

impl Group {
    pub fn write<C: Carrier + ?Sized>(
        &mut self,
        carrier: &mut C,
        server: usize,
        object: usize,
        cells: &[u8],
    ) -> Result<Tag, Refusal> {
        self.check_server(carrier, server)?;
        self.check_object(object)?;
        Refusal::WrongLength.unless(cells.len() == self.code.cells())?;
        let field = self.code.field();
        Refusal::NoElement.unless(cells.iter().all(|cell| field.contains(*cell)))?;
        let at = &self.servers[server];
        let left = at.clock[server] < GREATEST_COUNT && at.height < GREATEST_HEIGHT;
        Refusal::NumbersUsedUp.unless(left)?;
        Refusal::HistoryFull.unless(!at.history.is_full())?;
        self.check_lanes(carrier, server)?;
        let notice = self.enter_write(server, object, Cells::from(cells));
        self.tell_others(carrier, server, &notice)?;
        Ok(Tag::new(self.servers[server].height, server))
    }

    fn enter_write(&mut self, server: usize, object: usize, value: Cells) -> Message {
        let at = &mut self.servers[server];
        at.clock[server] += 1;
        at.height += 1;
        let tag = Tag::new(at.height, server);
        at.history.enter(object, tag, value.clone());
        at.reads.overtake(object, tag, &value);
        Message::WriteNotice {
            object: object as u32,
            value,
            height: at.height,
            clock: at.clock.as_slice().into(),
        }
    }
}
