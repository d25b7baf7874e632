//! The end of a session: what is asked of the Rust to show its table.

use super::{entry_read, Session};
use crate::{
    device::{pci::constants::xhci::MAX_SLOTS, xhci::trb::CompletionCode},
    trace::Call,
    watch::Event,
};

/// Bytes in a line of memory.
const ROW: usize = 32;

impl Session {
    /// The lines at the end of a session: the slots in use, the enabled
    /// endpoints, the rows of memory that are not all zero. Slot and endpoint
    /// states are what the Rust logs of itself when given commands that the
    /// state refuses. This changes state and memory, so the session ends here.
    pub async fn end(&mut self) -> Result<Vec<String>, String> {
        let memory = self.memory.contents();
        let mut lines = Vec::new();
        for slot in 1..=MAX_SLOTS {
            if self.live.keys().any(|key| key.0 == slot) {
                lines.push(self.used_slot(slot).await?);
            } else {
                lines.extend(self.enabled_slot(slot).await?);
            }
        }
        let endpoints: Vec<_> = self.live.keys().copied().collect();
        for (slot, endpoint) in endpoints {
            lines.push(self.endpoint(slot, endpoint).await?);
        }
        for (row, bytes) in memory.chunks(ROW).enumerate() {
            if bytes.iter().any(|&byte| byte != 0) {
                let hex: String = bytes.iter().map(|byte| format!("{byte:02x}")).collect();
                lines.push(format!("memory {} {hex}", row * ROW));
            }
        }
        Ok(lines)
    }

    /// Address Device, BSR=1, with an input context at 0 that passes the check:
    /// it has no add flag.
    async fn address(&mut self, slot: u8) -> Result<(), String> {
        self.blank_input();
        self.watch.take();
        let (input, bsr) = (0, true);
        let call = Call::AddressDevice { slot, input, bsr };
        self.perform(call).await.map(|_| ())
    }

    fn blank_input(&self) {
        for address in 0..8 {
            self.memory.poke(address, 0);
        }
    }

    /// Without endpoints a slot is free or Enabled; Evaluate Context tells, and
    /// then Address Device tells the entry that it reads.
    async fn enabled_slot(&mut self, slot: u8) -> Result<Option<String>, String> {
        self.blank_input();
        let evaluate = Call::EvaluateContext { slot, input: 0 };
        let (code, _) = self.perform(evaluate).await?;
        if code != CompletionCode::Success as u64 {
            return Ok(None);
        }
        self.address(slot).await?;
        let entry = entry_read(&self.watch.take()).ok_or("Address Device read no entry")?;
        Ok(Some(format!("slot {slot} 1 0 {entry}")))
    }

    /// With endpoints a slot is in a state that refuses Address Device, BSR=1.
    async fn used_slot(&mut self, slot: u8) -> Result<String, String> {
        self.address(slot).await?;
        let state = self.logged("AddressDevice in state (", ", true)")?;
        let (name, base) = state
            .strip_suffix(')')
            .and_then(|state| state.split_once('('))
            .ok_or("unknown slot state")?;
        let number = match name {
            "Default" => 2,
            "Addressed" => 3,
            "Configured" => 4,
            other => return Err(format!("unknown slot state {other}")),
        };
        let entry = self.entries.get(&slot).ok_or("no entry was read")?;
        Ok(format!("slot {slot} {number} {base} {entry}"))
    }

    /// Reset Endpoint is refused in every state but Halted.
    async fn endpoint(&mut self, slot: u8, endpoint: u8) -> Result<String, String> {
        self.watch.take();
        let (pointer, cycle) = {
            let ring = self.live[&(slot, endpoint)].port.ring.lock().unwrap();
            (ring.pointer, u8::from(ring.cycle))
        };
        let (code, _) = self.perform(Call::ResetEndpoint { slot, endpoint }).await?;
        let number = if code == CompletionCode::Success as u64 {
            3
        } else {
            match self.logged(" in state ", "")?.as_str() {
                "WaitForDoorbell" => 1,
                "WaitForTrbCompletion" => 2,
                "Error" => 4,
                "StoppedWithContinuableTrb" => 5,
                "Stopped" => 6,
                other => return Err(format!("unknown endpoint state {other}")),
            }
        };
        Ok(format!(
            "endpoint {slot} {endpoint} {number} {cycle} {pointer}"
        ))
    }

    /// What the Rust logged between the two marks (to the end if `to` is empty).
    fn logged(&self, from: &str, to: &str) -> Result<String, String> {
        let found = self.watch.take().into_iter().find_map(|event| {
            let Event::Log(line) = event else { return None };
            let (_, rest) = line.rsplit_once(from)?;
            let end = if to.is_empty() {
                rest.len()
            } else {
                rest.find(to)?
            };
            Some(rest[..end].to_owned())
        });
        found.ok_or_else(|| format!("nothing logged with {from:?}"))
    }
}
