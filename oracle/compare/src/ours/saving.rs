//! The proved saving, and what loading and saving again make of it.

use super::{Ours, fields, refusal};
use cases::calls::held::Held;
use cases::calls::player::Player;
use cases::calls::{Answer, FILL_BYTE, Told};
use dovebolt::Keys;

impl Ours {
    pub(super) fn save(&self, held: &Held, short: u8) -> Answer {
        let mut out = vec![FILL_BYTE; held.buffer_length(short)];
        let saved = self
            .player
            .save_into(&held.sheet_bytes, &self.keys, &mut out);
        Answer {
            refusal: refusal(&saved),
            told: Told::Saved(out),
        }
    }

    /// Whether loading what was saved gives these keys, bit for bit, and a fresh
    /// player, and saving it again the same bytes; else what differs.
    pub fn again(&self, written: &[u8]) -> Result<(), String> {
        let (player, keys) = dovebolt::Player::load(written)
            .map_err(|refusal| format!("loading what was saved: {refusal}"))?;
        if !fields::same(player.as_raw(), &Player::fresh()) {
            return Err("what was saved loads with a player that is not fresh".to_string());
        }
        let loaded = Ours { player, keys };
        if loaded.key_bits() != self.key_bits() {
            return Err("what was saved loads as other keys".to_string());
        }
        let mut out = vec![FILL_BYTE; written.len()];
        let saved = loaded.player.save_into(written, &loaded.keys, &mut out);
        if saved.is_err() || out != written {
            return Err(format!("saved again: {saved:?}, {out:02x?}"));
        }
        Ok(())
    }

    fn key_bits(&self) -> [Vec<u32>; 3] {
        let Keys {
            frames,
            values,
            slopes,
        } = &self.keys;
        [frames, values, slopes].map(|array| array.iter().map(|x| x.to_bits()).collect())
    }
}
