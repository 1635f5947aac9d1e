//! Everything that can be spoiled, spoiled alone: the plain player beside the
//! proved one.

use crate::lists::Counts;
use crate::ours::Ours;
use cases::calls::alone;
use cases::calls::held::Held;
use cases::calls::spoil::Spoil;

impl Counts {
    /// Every spoil in every state with every call, each from the state anew.
    pub fn each_spoil_alone(&mut self) -> Option<String> {
        for (mut held, list) in alone::states() {
            let mut ours = Ours::load(&held.sheet_bytes);
            for call in &list {
                let plain = held.step(call);
                assert_eq!(plain.refusal, 0, "{call:?}");
                assert_eq!(plain, ours.step(call, &held), "{call:?}");
            }
            let found = self.in_state(&mut held, &ours);
            if let Some(found) = found {
                let (animations, calls) = (&held.sheet.animations, list.len());
                return Some(format!("{animations:?}, after {calls} calls, {found}"));
            }
        }
        None
    }

    fn in_state(&mut self, held: &mut Held, ours: &Ours) -> Option<String> {
        let (player, keys) = (held.player.clone(), held.keys.clone());
        for spoils in alone::spoils(held) {
            let loaded = player.standing == 0 && !player.drag.moved;
            let unedited = loaded && spoils.iter().all(Spoil::is_plain);
            for call in alone::calls() {
                let back: Vec<Spoil> = spoils.iter().map(|spoil| spoil.make(held)).collect();
                let mut spoiled = ours.clone();
                spoils.iter().for_each(|spoil| spoiled.spoil(spoil));
                let plain = held.step(&call);
                let found = self.compare(&call, &plain, held, &mut spoiled, unedited);
                if let Some(found) = found {
                    return Some(format!("{spoils:?}: {found}"));
                }
                back.iter().for_each(|spoil| {
                    spoil.make(held);
                });
                held.put(&player, &keys);
            }
        }
        None
    }
}
