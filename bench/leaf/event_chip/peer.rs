//! The calls of `event_chip` in plain Rust, with the pending events in one set of bits.
#[derive(Clone, Copy, PartialEq)]
pub enum Fixed {
    Tmr,
    Gbl,
    Pwr,
    Slp,
    Rtc,
}

#[derive(Clone, Copy, PartialEq)]
pub enum Event {
    Fixed(Fixed),
    Gpe(u8),
}

pub struct Listed {
    pub event: Event,
    pub level: bool,
    pub refs: u8,
}

#[derive(Clone, Copy, PartialEq)]
pub enum EventKind {
    Unknown,
    Edge,
    Level,
    Always,
}

#[derive(Clone, Copy)]
pub struct EventState {
    pub status: bool,
    pub line: bool,
    pub held: bool,
    pub count: u8,
    pub storm: u8,
}

#[derive(Clone, Copy)]
pub struct Slot {
    pub kind: EventKind,
    pub state: EventState,
}

pub struct EventChip {
    slots: Vec<Slot>,
    ranks: [u64; 5],
}

impl EventKind {
    #[inline]
    pub fn is_listed(self) -> bool {
        matches!(self, EventKind::Edge | EventKind::Level)
    }

    #[inline]
    pub fn is_level(self) -> bool {
        self == EventKind::Level
    }
}

#[inline]
fn rank(event: Event) -> usize {
    match event {
        Event::Fixed(fixed) => fixed as usize,
        Event::Gpe(number) => 5 + number as usize,
    }
}

impl EventChip {
    pub fn new(listed: &[Listed], controller: Option<Event>) -> EventChip {
        let state = EventState { status: false, line: false, held: false, count: 0, storm: 0 };
        let mut slots = vec![Slot { kind: EventKind::Unknown, state }; 261];
        for item in listed {
            let kind = if item.level { EventKind::Level } else { EventKind::Edge };
            slots[rank(item.event)] = Slot { kind, state: EventState { count: item.refs, ..state } };
        }
        for event in [Some(Event::Fixed(Fixed::Gbl)), controller].into_iter().flatten() {
            slots[rank(event)] = Slot { kind: EventKind::Always, state };
        }
        EventChip { slots, ranks: [0; 5] }
    }

    #[inline]
    pub fn slot(&self, event: Event) -> Slot {
        self.slots[rank(event)]
    }

    #[inline]
    fn change(&mut self, event: Event, change: impl Fn(EventKind, &mut EventState)) {
        let rank = rank(event);
        let Slot { kind, state } = &mut self.slots[rank];
        change(*kind, state);
        let enabled = *kind == EventKind::Always || state.count > 0;
        let parked = *kind == EventKind::Level && state.storm == 16;
        if state.status && enabled && !state.held && !parked {
            self.ranks[rank / 64] |= 1 << (rank % 64);
        } else {
            self.ranks[rank / 64] &= !(1 << (rank % 64));
        }
    }

    #[inline]
    pub fn raise(&mut self, event: Event) {
        self.change(event, |_, state| state.status = true);
    }

    #[inline]
    pub fn assert_line(&mut self, event: Event) {
        self.change(event, |_, state| {
            state.status = true;
            state.line = true;
            state.storm = 0;
        });
    }

    #[inline]
    pub fn drop_line(&mut self, event: Event) {
        self.change(event, |_, state| {
            state.line = false;
            state.storm = 0;
        });
    }

    #[inline]
    pub fn claim(&mut self, event: Event) {
        self.change(event, |kind, state| {
            state.held = kind.is_listed();
            state.status &= kind.is_level();
        });
    }

    #[inline]
    pub fn finish(&mut self, event: Event) {
        self.change(event, |kind, state| {
            state.held = false;
            if kind.is_level() {
                state.status = state.line;
            }
            state.storm = if state.line { (state.storm + 1).min(16) } else { 0 };
        });
    }

    #[inline]
    pub fn up(&mut self, event: Event) {
        self.change(event, |_, state| state.count = state.count.saturating_add(1));
    }

    #[inline]
    pub fn down(&mut self, event: Event) {
        self.change(event, |_, state| state.count = state.count.saturating_sub(1));
    }

    #[inline]
    pub fn pending(&self, event: Event) -> bool {
        let Slot { kind, state } = self.slots[rank(event)];
        let enabled = kind == EventKind::Always || state.count > 0;
        let parked = kind == EventKind::Level && state.storm == 16;
        state.status && enabled && !state.held && !parked
    }

    #[inline]
    pub fn first_pending(&self) -> Option<Event> {
        let word = self.ranks.iter().position(|word| *word != 0)?;
        let rank = 64 * word + self.ranks[word].trailing_zeros() as usize;
        Some(match rank {
            0 => Event::Fixed(Fixed::Tmr),
            1 => Event::Fixed(Fixed::Gbl),
            2 => Event::Fixed(Fixed::Pwr),
            3 => Event::Fixed(Fixed::Slp),
            4 => Event::Fixed(Fixed::Rtc),
            _ => Event::Gpe((rank - 5) as u8),
        })
    }

    #[inline]
    pub fn parked(&self, event: Event) -> bool {
        let Slot { kind, state } = self.slots[rank(event)];
        kind == EventKind::Level && state.storm == 16
    }
}
