use super::Group;
use crate::carrier::Carrier;
use crate::refusal::Refusal;
use crate::tag::Tag;

impl Group {
    /// Applies the lowest ready write; answers its tag, or none if none is ready.
    pub fn apply<C: Carrier + ?Sized>(
        &mut self,
        carrier: &C,
        server: usize,
    ) -> Result<Option<Tag>, Refusal> {
        self.check_server(carrier, server)?;
        let at = &mut self.servers[server];
        // Of equal tags `min_by_key` takes the first, which is the earliest.
        let lowest = (0..at.waiting.len())
            .filter(|index| at.is_ready(&at.waiting[*index]))
            .min_by_key(|index| at.waiting[*index].tag);
        let Some(index) = lowest else {
            return Ok(None);
        };
        Refusal::HistoryFull.unless(!at.history.is_full())?;
        let write = at.waiting.remove(index);
        let maker = write.tag.server as usize;
        at.clock[maker] = write.clock[maker];
        at.height = at.height.max(write.tag.height);
        at.reads.overtake(write.object, write.tag, &write.value);
        at.history.enter(write.object, write.tag, write.value);
        Ok(Some(write.tag))
    }
}
