//! A session with the original: one call at a time, each awaited and then left
//! to settle until the runtime has nothing to run; what the stand-ins saw of it
//! becomes the answer.

mod end;
mod idle;

use std::{collections::BTreeMap, fmt, future::Future, sync::Arc};

use tokio::{runtime, select, sync::oneshot};

use self::idle::Idle;
use crate::{
    device::{
        bus::Memory,
        pci::constants::xhci::MAX_SLOTS,
        xhci::{
            controller_reset::ResetSender,
            endpoint_launcher::LaunchRequester,
            hotplug_endpoint_handle::HotplugTrbProcessingResult,
            slot_manager::{SlotManager, SlotWorkerHandle},
            trb::{
                AddressDeviceCommandTrbData, CompletionCode, ConfigureEndpointCommandTrbData,
                EvaluateContextCommandTrbData, SetTrDequeuePointerCommandTrbData,
            },
        },
    },
    trace::Call,
    watch::{EndpointPort, Event, LogTap, Look, Watch},
};

/// Bytes of guest memory, all zero at first.
const MEMORY: usize = 65_536;

/// The eight numbers of an answer.
#[derive(Debug, Default, Clone, Copy, PartialEq, Eq)]
pub struct Answer {
    pub code: u64,
    pub slot: u64,
    pub launched: u64,
    pub terminated: u64,
    pub root_port: u64,
    pub stored: u64,
    pub submit: u64,
    pub cancel: u64,
}

impl fmt::Display for Answer {
    fn fmt(&self, f: &mut fmt::Formatter<'_>) -> fmt::Result {
        let Self {
            code,
            slot,
            launched,
            terminated,
            root_port,
            stored,
            submit,
            cancel,
        } = self;
        write!(
            f,
            "{code} {slot} {launched} {terminated} {root_port} {stored} {submit} {cancel}"
        )
    }
}

/// A read or a store of the device in guest memory.
pub enum Access {
    Read { address: u64, length: usize },
    Store { address: u64, bytes: Vec<u8> },
}

impl fmt::Display for Access {
    fn fmt(&self, f: &mut fmt::Formatter<'_>) -> fmt::Result {
        match self {
            Self::Read { address, length } => write!(f, "read {address} {length}"),
            Self::Store { address, bytes } => {
                write!(f, "store {address} {} ", bytes.len())?;
                bytes.iter().try_for_each(|byte| write!(f, "{byte:02x}"))
            }
        }
    }
}

/// What a call comes to.
pub enum Outcome {
    Answer(Answer),
    /// A guest store: nothing to print.
    Silent,
    /// A guest store outside memory.
    BadRecord,
    /// The Rust left its domain; the session is over.
    Undefined(String),
}

/// Codes that the session gives where the Rust has no answer to give.
const NOT_IN_FLIGHT: u64 = 196;
const LIMIT_TOO_HIGH: u64 = 197;

struct Live {
    port: Arc<EndpointPort>,
    /// Guest address of the endpoint's context.
    context: u64,
}

pub struct Session {
    memory: Arc<Memory>,
    watch: Watch,
    idle: Idle,
    manager: SlotManager,
    worker: SlotWorkerHandle,
    /// The enabled endpoints, by slot and endpoint.
    live: BTreeMap<(u8, u8), Live>,
    /// The DCBAA entry that the last Address Device of a slot read.
    entries: BTreeMap<u8, u64>,
    /// Reads and stores of the last call, in order.
    accesses: Vec<Access>,
}

impl Session {
    /// Run `body` with a fresh session.
    pub fn run<R>(body: impl AsyncFnOnce(&mut Session) -> R) -> R {
        let watch = Watch::on();
        let idle = Idle::default();
        let runtime = runtime::Builder::new_current_thread()
            .on_thread_park({
                let idle = idle.clone();
                move || idle.arrived()
            })
            .build()
            .expect("a current-thread runtime");
        let _logs = tracing::subscriber::set_default(LogTap(watch.clone()));

        let memory = Arc::new(Memory::new(MEMORY, watch.clone()));
        let launcher = LaunchRequester::new(runtime.handle().clone(), watch.clone());
        let manager = SlotManager::new(memory.clone(), runtime.handle(), launcher);
        let worker = manager.create_slot_worker_handle();
        let mut session = Session {
            memory,
            watch,
            idle,
            manager,
            worker,
            live: BTreeMap::new(),
            entries: BTreeMap::new(),
            accesses: Vec::new(),
        };
        runtime.block_on(body(&mut session))
    }

    /// Reads and stores of the last call, in order.
    pub fn accesses(&self) -> &[Access] {
        &self.accesses
    }

    pub async fn call(&mut self, call: Call) -> Outcome {
        self.accesses.clear();
        if let Call::GuestStore { address, value } = call {
            return if self.memory.poke(address, value) {
                Outcome::Silent
            } else {
                Outcome::BadRecord
            };
        }
        let done = self.perform(call).await;
        let events = self.watch.take();
        match self.answer(call, done, events) {
            Ok(answer) => Outcome::Answer(answer),
            Err(reason) => Outcome::Undefined(reason),
        }
    }

    /// Make the call and let it settle: completion code and slot id.
    async fn perform(&mut self, call: Call) -> Result<(u64, u64), String> {
        let worker = self.worker.clone();
        let none = (0, 0);
        match call {
            Call::SetLimit { limit } => match u8::try_from(limit) {
                Ok(limit) if limit <= MAX_SLOTS => {
                    self.manager.config_reg.write(limit);
                    Ok(none)
                }
                _ => Ok((LIMIT_TOO_HIGH, 0)),
            },
            Call::SetDcbaap { dcbaap } => {
                self.manager.dcbaap.write(dcbaap);
                Ok(none)
            }
            Call::EnableSlot => self.finish(worker.enable_slot()).await.map(|r| match r {
                Ok(slot) => (CompletionCode::Success as u64, slot.into()),
                Err(code) => (code as u64, 0),
            }),
            Call::DisableSlot { slot } => self.command(worker.disable_slot(slot)).await,
            Call::AddressDevice { slot, input, bsr } => {
                let data = AddressDeviceCommandTrbData {
                    slot_id: slot,
                    input_context_pointer: input,
                    block_set_address_request: bsr,
                };
                self.command(worker.address_device(data)).await
            }
            Call::ConfigureEndpoint { slot, input, dc } => {
                let data = ConfigureEndpointCommandTrbData {
                    slot_id: slot,
                    input_context_pointer: input,
                    deconfigure: dc,
                };
                self.command(worker.configure_endpoint(data)).await
            }
            Call::EvaluateContext { slot, input } => {
                let data = EvaluateContextCommandTrbData {
                    slot_id: slot,
                    input_context_pointer: input,
                };
                self.command(worker.evaluate_context(data)).await
            }
            Call::ResetDevice { slot } => self.command(worker.reset_device(slot)).await,
            Call::ResetAll => {
                let (send, recv) = oneshot::channel();
                let sent = self.manager.reset_sender().send_reset(send);
                let done = async { sent.and(Ok(recv.await?)) };
                self.finish(done).await.map(|()| none)
            }
            Call::StopEndpoint { slot, endpoint } => {
                self.command(worker.stop_endpoint(slot, endpoint)).await
            }
            Call::ResetEndpoint { slot, endpoint } => {
                self.command(worker.reset_endpoint(slot, endpoint)).await
            }
            Call::SetDequeue {
                slot,
                endpoint,
                pointer,
                cycle,
            } => {
                let data = SetTrDequeuePointerCommandTrbData {
                    slot_id: slot,
                    endpoint_id: endpoint,
                    dequeue_pointer: pointer,
                    dequeue_cycle_state: cycle,
                };
                self.command(worker.set_tr_dequeue_pointer(data)).await
            }
            Call::Doorbell {
                slot,
                endpoint,
                report,
            } => {
                self.offer(slot, endpoint, Some(report));
                let rung = self.manager.doorbell(slot, endpoint);
                self.idle.reached().await;
                self.offer(slot, endpoint, None);
                rung.map(|()| none).map_err(|e| e.to_string())
            }
            Call::HostOk {
                slot,
                endpoint,
                report,
            } => {
                self.offer(slot, endpoint, Some(report));
                let result = HotplugTrbProcessingResult::Ok;
                let done = self.host_event(slot, endpoint, result).await;
                self.offer(slot, endpoint, None);
                done
            }
            Call::HostStall { slot, endpoint, at } => {
                self.host_event(slot, endpoint, HotplugTrbProcessingResult::Stall(at))
                    .await
            }
            Call::HostTransactionError { slot, endpoint, at } => {
                let result = HotplugTrbProcessingResult::TransactionError(at);
                self.host_event(slot, endpoint, result).await
            }
            Call::HostTrbError { slot, endpoint } => {
                self.host_event(slot, endpoint, HotplugTrbProcessingResult::TrbError)
                    .await
            }
            Call::GuestStore { .. } => unreachable!("handled by call"),
        }
    }

    /// Await an answer and settle; an idle runtime without an answer is a fault.
    async fn finish<T>(
        &self,
        answer: impl Future<Output = anyhow::Result<T>>,
    ) -> Result<T, String> {
        let got = select! {
            biased;
            got = answer => got.map_err(|e| e.to_string()),
            () = self.idle.reached() => return Err("no answer came".into()),
        };
        self.idle.reached().await;
        got
    }

    async fn command(
        &self,
        answer: impl Future<Output = anyhow::Result<CompletionCode>>,
    ) -> Result<(u64, u64), String> {
        self.finish(answer).await.map(|code| (code as u64, 0))
    }

    /// Lay out, or take away, the report of the endpoint's next look.
    fn offer(&self, slot: u8, endpoint: u8, report: Option<Look>) {
        if let Some(live) = self.live.get(&(slot, endpoint)) {
            live.port.ring.lock().unwrap().report = report;
        }
    }

    async fn host_event(
        &self,
        slot: u8,
        endpoint: u8,
        result: HotplugTrbProcessingResult,
    ) -> Result<(u64, u64), String> {
        match self.live.get(&(slot, endpoint)) {
            Some(live) if live.port.is_in_flight() => {
                let sent = live.port.completions.send(result);
                self.idle.reached().await;
                sent.map(|()| (0, 0)).map_err(|e| e.to_string())
            }
            _ => Ok((NOT_IN_FLIGHT, 0)),
        }
    }

    /// Fold what was seen of a call into its answer, or say how the Rust left
    /// its domain.
    fn answer(
        &mut self,
        call: Call,
        done: Result<(u64, u64), String>,
        events: Vec<Event>,
    ) -> Result<Answer, String> {
        let mut answer = Answer::default();
        let mut last_state_store = None;
        let mut faults = Vec::new();
        let mut replaced = Vec::new();
        if let (Call::AddressDevice { slot, .. }, Some(entry)) = (call, entry_read(&events)) {
            self.entries.insert(slot, entry);
        }

        for event in events {
            match event {
                Event::Store { address, bytes } => {
                    // Stores of one byte are states; only a worker that
                    // terminates stores a 0.
                    if let [value] = bytes[..] {
                        last_state_store = Some((address, value));
                        if value == 0 {
                            answer.terminated |= self.ended(call, address);
                        }
                    }
                    self.accesses.push(Access::Store { address, bytes });
                }
                Event::Read { address, length } => {
                    self.accesses.push(Access::Read { address, length });
                }
                Event::Launched { port, root_port } => {
                    // launch's own store of RUNNING tells the context's address
                    let Some((context, 1)) = last_state_store else {
                        faults.push("launched without a store of 1".into());
                        continue;
                    };
                    answer.launched |= 1 << port.endpoint;
                    answer.root_port = root_port.into();
                    let key = (port.slot, port.endpoint);
                    replaced.extend(self.live.insert(key, Live { port, context }));
                }
                Event::Submitted => answer.submit += 1,
                Event::Cancelled => answer.cancel += 1,
                Event::Outside {
                    what,
                    address,
                    length,
                } => faults.push(format!("{what} of {length} bytes at {address}")),
                Event::RingFault { what } => faults.push(what.into()),
                Event::Panicked { slot, endpoint } => faults.push(format!(
                    "worker of slot {slot} endpoint {endpoint} panicked"
                )),
                Event::Log(line) => {
                    if line.starts_with("Doorbell for disabled slot") {
                        answer.code = CompletionCode::SlotNotEnabledError as u64;
                    } else if line.starts_with("Doorbell for disabled endpoint") {
                        answer.code = CompletionCode::EndpointNotEnabledError as u64;
                    } else if line.starts_with("SlotWorker stopped") {
                        faults.push(line);
                    }
                }
            }
        }
        answer.stored = self.memory.take_stored();

        if matches!(call, Call::ResetAll) {
            // all endpoints have ended, and the answer's masks are 0
            replaced.extend(std::mem::take(&mut self.live).into_values());
        }
        if replaced.iter().any(|old| old.port.is_alive())
            || self.live.values().any(|live| !live.port.is_alive())
        {
            faults.push("a worker lives on, or ended by itself".into());
        }
        if !faults.is_empty() {
            return Err(faults.join("; "));
        }
        let (code, slot) = done?;
        if answer.code == 0 {
            answer.code = code;
        }
        answer.slot = slot;
        Ok(answer)
    }

    /// The mask of the endpoint, of the call's slot, with this context; it is
    /// taken from the enabled ones.
    fn ended(&mut self, call: Call, context: u64) -> u64 {
        let key = self
            .live
            .iter()
            .find(|(key, live)| Some(key.0) == call.slot() && live.context == context)
            .map(|(key, _)| *key);
        match key {
            Some(key) => {
                self.live.remove(&key);
                1 << key.1
            }
            None => 0,
        }
    }
}

/// The DCBAA entry that a call read, inside memory or not: of the reads before
/// the call's first store, the only one of 8 bytes.
fn entry_read(events: &[Event]) -> Option<u64> {
    events
        .iter()
        .take_while(|event| !matches!(event, Event::Store { .. }))
        .find_map(|event| match event {
            Event::Read { address, length: 8 }
            | Event::Outside {
                what: "read",
                address,
                length: 8,
            } => Some(*address),
            _ => None,
        })
}
