use super::Group;
use crate::carrier::Carrier;
use crate::refusal::Refusal;
use crate::tag::Tag;

impl Group {
    /// Answers how many entries of the object went.
    pub fn sweep<C: Carrier + ?Sized>(
        &mut self,
        carrier: &C,
        server: usize,
        object: usize,
    ) -> Result<usize, Refusal> {
        self.check_server(carrier, server)?;
        self.check_object(object)?;
        let at = &mut self.servers[server];
        let own = at.own(object);
        let floor = at.told(object).iter().copied().min().unwrap_or(Tag::ZERO);
        let agreed = at.told(object).iter().all(|told| *told == own);
        let reads = &at.reads;
        let needed = |tag| reads.open().any(|read| read.tags[object] == tag);
        let mut removed = at.history.remove_below(object, floor, needed);
        if agreed && at.history.highest(object).0 <= own {
            removed += at.history.remove(object, own);
        }
        Ok(removed)
    }
}
