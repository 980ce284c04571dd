//! The board: the books of the homes, the messages in flight and the recorded rings, stepped in
//! place by request, release, deliver and drain.
//!
//! Sets of processes and of objects are bit sets. A row of up to 16 numbers is packed in one u64.
//! The counts that make up the load are kept beside the books they count.

pub const MOST_NODES: u8 = 8;
pub const MOST_PROCESSES: u8 = 16;
pub const MOST_OBJECTS: u8 = 16;
pub const MOST_MESSAGES: u8 = 64;
pub const MOST_LOAD: u32 = 64;

/// The answer numbers, in the order of document 01's table.
pub mod answer {
    pub const DONE: u8 = 0;
    pub const BAD_COUNT: u8 = 1;
    pub const BAD_HOME: u8 = 2;
    pub const NO_PROCESS: u8 = 3;
    pub const NO_OBJECT: u8 = 4;
    pub const NO_MODE: u8 = 5;
    pub const WAITING: u8 = 6;
    pub const HAS_RELEASED: u8 = 7;
    pub const HOLDING: u8 = 8;
    pub const NOT_HOLDING: u8 = 9;
    pub const LOADED: u8 = 10;
    pub const NO_MESSAGE: u8 = 11;
    pub const CUT_SHORT: u8 = 12;
    pub const BAD_FORM: u8 = 13;
    pub const SPARE_BIT: u8 = 14;
    pub const ODD_BYTE: u8 = 15;
    pub const TOO_MANY: u8 = 16;
    pub const OUT_OF_SHAPE: u8 = 17;
    pub const SHORT_ROOM: u8 = 18;
}
use answer::*;

/// Modes: 0 shared, 1 exclusive.
#[derive(Clone, Copy, PartialEq, Eq, Debug)]
pub enum Mode {
    Shared,
    Exclusive,
}

impl Mode {
    pub fn of_number(number: u8) -> Option<Mode> {
        match number {
            0 => Some(Mode::Shared),
            1 => Some(Mode::Exclusive),
            _ => None,
        }
    }
}

pub fn bit(number: u8) -> u16 {
    1 << number
}

/// The numbers below a count, as a set.
pub fn below(count: u8) -> u16 {
    ((1u32 << count) - 1) as u16
}

/// The members of a set by rising number.
pub fn rising(mut set: u16) -> impl Iterator<Item = u8> {
    std::iter::from_fn(move || {
        if set == 0 {
            return None;
        }
        let lowest = set.trailing_zeros() as u8;
        set &= set - 1;
        Some(lowest)
    })
}

/// A set of numbers, each with a mode: what a process holds, who holds an object, who stands in a line.
#[derive(Clone, Copy, PartialEq, Eq, Debug, Default)]
pub struct ByMode {
    pub shared: u16,
    pub exclusive: u16,
}

impl ByMode {
    pub fn all(self) -> u16 {
        self.shared | self.exclusive
    }

    pub fn mode_of(self, number: u8) -> Option<Mode> {
        if self.exclusive & bit(number) != 0 {
            Some(Mode::Exclusive)
        } else if self.shared & bit(number) != 0 {
            Some(Mode::Shared)
        } else {
            None
        }
    }

    /// Those whose mode conflicts with this one: two holds conflict unless both are shared.
    pub fn conflicting(self, mode: Mode) -> u16 {
        match mode {
            Mode::Shared => self.exclusive,
            Mode::Exclusive => self.all(),
        }
    }

    /// Replaces what was there for this number.
    pub fn put(&mut self, number: u8, mode: Mode) {
        self.strike(number);
        match mode {
            Mode::Shared => self.shared |= bit(number),
            Mode::Exclusive => self.exclusive |= bit(number),
        }
    }

    pub fn strike(&mut self, number: u8) {
        self.shared &= !bit(number);
        self.exclusive &= !bit(number);
    }

    /// Every number is in the set allowed, and none has two modes.
    fn in_range(self, allowed: u16) -> bool {
        self.all() & !allowed == 0 && self.shared & self.exclusive == 0
    }
}

/// Up to 16 numbers below 16, four bits each, the front in the lowest bits. Its length is kept by
/// its owner; places past the length hold zero.
#[derive(Clone, Copy, PartialEq, Eq, Debug, Default)]
pub struct Row(pub u64);

impl Row {
    pub fn at(self, place: u8) -> u8 {
        (self.0 >> (4 * place)) as u8 & 15
    }

    /// Writes at a place that holds zero.
    pub fn put(&mut self, place: u8, number: u8) {
        self.0 |= u64::from(number) << (4 * place);
    }

    pub fn drop_front(&mut self) {
        self.0 >>= 4;
    }

    pub fn put_before_front(&mut self, number: u8) {
        self.0 = self.0 << 4 | u64::from(number);
    }

    pub fn first(self, length: u8) -> impl Iterator<Item = u8> {
        (0..length).map(move |place| self.at(place))
    }

    fn zero_from(self, length: u8) -> bool {
        length >= 16 || self.0 >> (4 * length) == 0
    }

    /// The numbers in the first places as a set, if they are all different.
    fn different(self, length: u8) -> Option<u16> {
        let mut set = 0;
        for number in self.first(length) {
            if set & bit(number) != 0 {
                return None;
            }
            set |= bit(number);
        }
        Some(set)
    }
}

#[derive(Clone, Copy, PartialEq, Eq, Debug)]
pub struct Wait {
    pub object: u8,
    pub mode: Mode,
}

/// The home of a process records: which objects it holds and in which mode, the object it waits
/// for and the mode (or none), and whether it has ever released.
#[derive(Clone, Copy, PartialEq, Eq, Debug, Default)]
pub struct Process {
    pub holds: ByMode,
    pub wait: Option<Wait>,
    pub released: bool,
}

/// The home of an object records its holders with modes, and its line: waiting processes with
/// modes, oldest first.
#[derive(Clone, Copy, PartialEq, Eq, Debug, Default)]
pub struct Object {
    pub holders: ByMode,
    pub standing: ByMode,
    pub line: Row,
}

impl Object {
    pub fn line_length(&self) -> u8 {
        self.standing.all().count_ones() as u8
    }

    /// Holders that conflict with this process: its own hold never does.
    fn blocking_holders(&self, process: u8, mode: Mode) -> u16 {
        self.holders.conflicting(mode) & !bit(process)
    }

    /// The processes of the line ahead of this one, as a set.
    fn ahead_of(&self, process: u8) -> u16 {
        let mut ahead = 0;
        for standing in self.line.first(self.line_length()) {
            if standing == process {
                break;
            }
            ahead |= bit(standing);
        }
        ahead
    }

    fn join(&mut self, process: u8, mode: Mode) {
        let end = self.line_length();
        self.line.put(end, process);
        self.standing.put(process, mode);
    }

    fn front(&self) -> Option<(u8, Mode)> {
        let front = self.line.at(0);
        match self.standing.all() {
            0 => None,
            _ => self.standing.mode_of(front).map(|mode| (front, mode)),
        }
    }

    fn front_becomes_holder(&mut self, front: u8, mode: Mode) {
        self.line.drop_front();
        self.standing.strike(front);
        self.holders.put(front, mode);
    }

    fn in_shape(&self, processes: u16) -> bool {
        let length = self.line_length();
        self.holders.in_range(processes)
            && self.standing.in_range(processes)
            && self.line.zero_from(length)
            && self.line.different(length) == Some(self.standing.all())
    }
}

/// A message is a request, a grant, a release or a list. A list on its way to a home has no object.
/// The entries of a list stand in an array beside it.
#[derive(Clone, Copy, PartialEq, Eq, Debug, Default)]
pub enum Message {
    #[default]
    Free,
    Request {
        process: u8,
        object: u8,
        mode: Mode,
    },
    Grant {
        process: u8,
        object: u8,
        mode: Mode,
    },
    Release {
        process: u8,
        object: u8,
    },
    ListToHome,
    ListToObject {
        object: u8,
    },
}

/// Its entries are different processes in order of joining; the first is the starter, each later
/// entry names the earlier entry that led to it.
#[derive(Clone, Copy, PartialEq, Eq, Debug, Default)]
pub struct List {
    pub entries: Row,
    pub leads: Row,
    /// The entries as a set.
    pub listed: u16,
    pub length: u8,
    /// The place of the entry being asked.
    pub next: u8,
}

impl List {
    pub fn started_by(starter: u8) -> List {
        let mut list = List::default();
        list.add(starter, 0);
        list.next = 1;
        list
    }

    pub fn add(&mut self, process: u8, lead: u8) {
        self.entries.put(self.length, process);
        self.leads.put(self.length, lead);
        self.listed |= bit(process);
        self.length += 1;
    }

    fn starter(&self) -> u8 {
        self.entries.at(0)
    }

    fn asked(&self) -> u8 {
        self.entries.at(self.next)
    }

    /// Adds those not yet listed: first holders by rising number, then those ahead in line from
    /// the front. `ahead` is the set of those ahead in conflict.
    fn add_blocking(&mut self, lead: u8, holders: u16, ahead: u16, line: Row) {
        for process in rising(holders & !self.listed) {
            self.add(process, lead);
        }
        let mut left = ahead & !self.listed;
        let mut place = 0;
        while left != 0 {
            let process = line.at(place);
            if left & bit(process) != 0 {
                self.add(process, lead);
                left &= !bit(process);
            }
            place += 1;
        }
    }

    /// Starter first, then along the leads to the entry being asked: written by going back.
    fn ring(&self) -> Ring {
        let mut ring = Ring::default();
        let mut place = self.next;
        loop {
            ring.processes.put_before_front(self.entries.at(place));
            ring.length += 1;
            if place == 0 {
                return ring;
            }
            place = self.leads.at(place);
        }
    }

    fn in_shape(&self, processes: u16) -> bool {
        (2..=16).contains(&self.length)
            && self.entries.zero_from(self.length)
            && self.leads.zero_from(self.length)
            && self.entries.different(self.length) == Some(self.listed)
            && self.listed & !processes == 0
            && self.leads.at(0) == 0
            && (1..self.length).all(|place| self.leads.at(place) < place)
            && (1..self.length).contains(&self.next)
    }
}

/// The place of one starter among the recorded rings; length 0 is a place not filled.
#[derive(Clone, Copy, PartialEq, Eq, Debug, Default)]
pub struct Ring {
    pub processes: Row,
    pub length: u8,
}

impl Ring {
    pub fn filled(&self) -> bool {
        self.length != 0
    }

    pub fn iter(&self) -> impl Iterator<Item = u8> {
        self.processes.first(self.length)
    }

    fn in_shape(&self, starter: u8, processes: u16) -> bool {
        if !self.filled() {
            return self.processes == Row(0);
        }
        (2..=16).contains(&self.length)
            && self.processes.at(0) == starter
            && self.processes.zero_from(self.length)
            && self.processes.different(self.length).is_some_and(|set| set & !processes == 0)
    }
}

#[derive(Clone, PartialEq, Eq, Debug)]
pub struct Board {
    pub node_count: u8,
    pub process_count: u8,
    pub object_count: u8,
    pub process_homes: [u8; 16],
    pub object_homes: [u8; 16],
    pub processes: [Process; 16],
    pub objects: [Object; 16],
    /// The message numbers in flight.
    pub in_flight: u64,
    pub messages: [Message; 64],
    pub lists: [List; 64],
    pub rings: [Ring; 16],
    /// How many messages in flight are requests.
    pub requests: u8,
    /// How many processes stand in lines.
    pub standing: u8,
}

impl Board {
    /// All zeros, which is out of shape.
    pub fn zeros() -> Board {
        Board {
            node_count: 0,
            process_count: 0,
            object_count: 0,
            process_homes: [0; 16],
            object_homes: [0; 16],
            processes: [Process::default(); 16],
            objects: [Object::default(); 16],
            in_flight: 0,
            messages: [Message::Free; 64],
            lists: [List::default(); 64],
            rings: [Ring::default(); 16],
            requests: 0,
            standing: 0,
        }
    }

    /// An opening has empty books and no message. Homes past the counts are ignored.
    pub fn open(
        nodes: u8,
        processes: u8,
        objects: u8,
        process_homes: &[u8; 16],
        object_homes: &[u8; 16],
    ) -> Result<Board, u8> {
        if !counts_in_range(nodes, processes, objects) {
            return Err(BAD_COUNT);
        }
        let process_homes_used = &process_homes[..processes as usize];
        let object_homes_used = &object_homes[..objects as usize];
        let homes = process_homes_used.iter().chain(object_homes_used);
        if homes.into_iter().any(|&home| home >= nodes) {
            return Err(BAD_HOME);
        }
        let mut board = Board::zeros();
        board.node_count = nodes;
        board.process_count = processes;
        board.object_count = objects;
        board.process_homes[..processes as usize].copy_from_slice(process_homes_used);
        board.object_homes[..objects as usize].copy_from_slice(object_homes_used);
        Ok(board)
    }

    // The calls of document 01: 17 first, then the refusals of the call in their order.

    pub fn request(&mut self, process: u8, object: u8, mode: u8) -> u8 {
        if !self.in_shape() {
            return OUT_OF_SHAPE;
        }
        self.request_in_shape(process, object, mode)
    }

    pub fn release(&mut self, process: u8, object: u8) -> u8 {
        if !self.in_shape() {
            return OUT_OF_SHAPE;
        }
        self.release_in_shape(process, object)
    }

    pub fn deliver(&mut self, number: u8) -> u8 {
        if !self.in_shape() {
            return OUT_OF_SHAPE;
        }
        self.deliver_in_shape(number)
    }

    /// Delivers the lowest-numbered message again and again until none is left or the budget is
    /// used. Gives the answer number and how many deliveries were made.
    pub fn drain(&mut self, budget: u64) -> (u8, u64) {
        if !self.in_shape() {
            return (OUT_OF_SHAPE, 0);
        }
        let mut made = 0;
        while made < budget && self.in_flight != 0 {
            self.arrive(self.in_flight.trailing_zeros() as u8);
            made += 1;
        }
        (DONE, made)
    }

    // The same for an owner who knows that the board is in shape, as every board that commands
    // reach from an opening is.

    /// The home notes the wait and sends a request.
    pub fn request_in_shape(&mut self, process: u8, object: u8, mode: u8) -> u8 {
        if process >= self.process_count {
            return NO_PROCESS;
        }
        if object >= self.object_count {
            return NO_OBJECT;
        }
        let Some(mode) = Mode::of_number(mode) else {
            return NO_MODE;
        };
        let book = &self.processes[process as usize];
        if book.wait.is_some() {
            return WAITING;
        }
        if book.released {
            return HAS_RELEASED;
        }
        if book.holds.all() & bit(object) != 0 {
            return HOLDING;
        }
        if self.load() > MOST_LOAD - 2 {
            return LOADED;
        }
        self.processes[process as usize].wait = Some(Wait { object, mode });
        self.requests += 1;
        self.send(Message::Request { process, object, mode });
        DONE
    }

    /// The home drops the hold, notes that the process has released, and sends a release. The
    /// object's book changes only on delivery.
    pub fn release_in_shape(&mut self, process: u8, object: u8) -> u8 {
        if process >= self.process_count {
            return NO_PROCESS;
        }
        if object >= self.object_count {
            return NO_OBJECT;
        }
        let book = &self.processes[process as usize];
        if book.wait.is_some() {
            return WAITING;
        }
        if book.holds.all() & bit(object) == 0 {
            return NOT_HOLDING;
        }
        if self.load() > MOST_LOAD - 1 {
            return LOADED;
        }
        let book = &mut self.processes[process as usize];
        book.holds.strike(object);
        book.released = true;
        self.send(Message::Release { process, object });
        DONE
    }

    pub fn deliver_in_shape(&mut self, number: u8) -> u8 {
        if number >= MOST_MESSAGES || self.in_flight >> number & 1 == 0 {
            return NO_MESSAGE;
        }
        self.arrive(number);
        DONE
    }

    // Questions.

    /// Messages in flight, plus processes standing in lines, plus requests in flight.
    pub fn load(&self) -> u32 {
        self.in_flight.count_ones() + u32::from(self.standing) + u32::from(self.requests)
    }

    /// The number of filled places.
    pub fn tally(&self) -> usize {
        self.rings.iter().filter(|ring| ring.filled()).count()
    }

    /// The holders of an object by rising number, with modes.
    pub fn holders(&self, object: u8) -> impl Iterator<Item = (u8, Mode)> {
        let holders = self.objects[object as usize].holders;
        rising(holders.all()).filter_map(move |p| holders.mode_of(p).map(|mode| (p, mode)))
    }

    /// The line of an object from the front, with modes.
    pub fn line(&self, object: u8) -> impl Iterator<Item = (u8, Mode)> {
        let book = self.objects[object as usize];
        let standing = book.standing;
        let line = book.line.first(book.line_length());
        line.filter_map(move |p| standing.mode_of(p).map(|mode| (p, mode)))
    }

    pub fn in_shape(&self) -> bool {
        counts_in_range(self.node_count, self.process_count, self.object_count)
            && self.homes_in_shape()
            && self.process_books_in_shape()
            && self.object_books_in_shape()
            && self.messages_in_shape()
            && self.nobody_stands_twice()
            && self.rings_in_shape()
            && self.load() <= MOST_LOAD
    }

    // Messages.

    /// A new message takes the lowest free number. In shape, the load leaves one.
    fn send(&mut self, message: Message) -> usize {
        let number = (!self.in_flight).trailing_zeros() as usize;
        self.in_flight |= 1 << number;
        self.messages[number] = message;
        number
    }

    fn send_list(&mut self, message: Message, list: List) {
        let number = self.send(message);
        self.lists[number] = list;
    }

    /// The number is freed first, then the message acts.
    fn arrive(&mut self, number: u8) {
        let place = number as usize;
        let message = std::mem::take(&mut self.messages[place]);
        self.in_flight &= !(1 << number);
        match message {
            Message::Free => {}
            Message::Request { process, object, mode } => {
                self.requests -= 1;
                self.request_arrives(process, object, mode);
            }
            Message::Grant { process, object, mode } => self.grant_arrives(process, object, mode),
            Message::Release { process, object } => self.release_arrives(process, object),
            Message::ListToHome => {
                let list = std::mem::take(&mut self.lists[place]);
                self.list_at_home(list);
            }
            Message::ListToObject { object } => {
                let list = std::mem::take(&mut self.lists[place]);
                self.list_at_object(object, list);
            }
        }
    }

    /// If the line is empty and no holder conflicts, the process becomes a holder and a grant is
    /// sent. Otherwise it joins the end of the line, and a list is started (none if it waits for
    /// nobody).
    fn request_arrives(&mut self, process: u8, object: u8, mode: Mode) {
        let book = &mut self.objects[object as usize];
        let holders = book.blocking_holders(process, mode);
        let in_line = book.standing.all();
        if in_line == 0 && holders == 0 {
            book.holders.put(process, mode);
            self.send(Message::Grant { process, object, mode });
            return;
        }
        let ahead = book.standing.conflicting(mode);
        book.join(process, mode);
        let line = book.line;
        self.standing += 1;
        if holders | ahead != 0 {
            let mut list = List::started_by(process);
            list.add_blocking(0, holders, ahead, line);
            self.send_list(Message::ListToHome, list);
        }
    }

    /// The home ends any wait of the process and notes the hold in the granted mode.
    fn grant_arrives(&mut self, process: u8, object: u8, mode: Mode) {
        let book = &mut self.processes[process as usize];
        book.wait = None;
        book.holds.put(object, mode);
    }

    /// The holder, if it is there, is struck. Then, while the front of the line conflicts with no
    /// holder, it becomes a holder, leaves the line, and a grant is sent.
    fn release_arrives(&mut self, process: u8, object: u8) {
        let place = object as usize;
        self.objects[place].holders.strike(process);
        while let Some((front, mode)) = self.objects[place].front() {
            if self.objects[place].blocking_holders(front, mode) != 0 {
                break;
            }
            self.objects[place].front_becomes_holder(front, mode);
            self.standing -= 1;
            self.send(Message::Grant { process: front, object, mode });
        }
    }

    /// If the process waits for an object, the list goes to that object's home with the object's
    /// number; otherwise the entry is done.
    fn list_at_home(&mut self, list: List) {
        match self.processes[list.asked() as usize].wait {
            Some(wait) => self.send_list(Message::ListToObject { object: wait.object }, list),
            None => self.entry_done(list),
        }
    }

    /// If the process is not in this line, the entry is done. If it is, and the starter is among
    /// those it waits for, a ring is recorded and the list ends. If not, those it waits for that
    /// are not yet listed are added, and the entry is done.
    fn list_at_object(&mut self, object: u8, mut list: List) {
        let book = &self.objects[object as usize];
        let asked = list.asked();
        if let Some(mode) = book.standing.mode_of(asked) {
            let holders = book.blocking_holders(asked, mode);
            let ahead = book.ahead_of(asked) & book.standing.conflicting(mode);
            if (holders | ahead) & bit(list.starter()) != 0 {
                self.record(&list);
                return;
            }
            list.add_blocking(list.next, holders, ahead, book.line);
        }
        self.entry_done(list);
    }

    /// After a done entry the list goes to the home of the next entry, or ends if there is none.
    fn entry_done(&mut self, mut list: List) {
        list.next += 1;
        if list.next < list.length {
            self.send_list(Message::ListToHome, list);
        }
    }

    /// One place for each starter; a filled place is kept.
    fn record(&mut self, list: &List) {
        let place = &mut self.rings[list.starter() as usize];
        if !place.filled() {
            *place = list.ring();
        }
    }

    // Shape, part by part.

    fn homes_in_shape(&self) -> bool {
        let good = |homes: &[u8; 16], count: u8| {
            let (used, unused) = homes.split_at(count as usize);
            used.iter().all(|&home| home < self.node_count) && unused.iter().all(|&home| home == 0)
        };
        good(&self.process_homes, self.process_count) && good(&self.object_homes, self.object_count)
    }

    fn process_books_in_shape(&self) -> bool {
        let objects = below(self.object_count);
        let (used, unused) = self.processes.split_at(self.process_count as usize);
        let good = |book: &Process| {
            book.holds.in_range(objects) && book.wait.is_none_or(|wait| wait.object < self.object_count)
        };
        used.iter().all(good) && unused.iter().all(|book| *book == Process::default())
    }

    fn object_books_in_shape(&self) -> bool {
        let processes = below(self.process_count);
        let (used, unused) = self.objects.split_at(self.object_count as usize);
        let standing: u32 = used.iter().map(|book| u32::from(book.line_length())).sum();
        used.iter().all(|book| book.in_shape(processes))
            && unused.iter().all(|book| *book == Object::default())
            && u32::from(self.standing) == standing
    }

    fn messages_in_shape(&self) -> bool {
        let mut requests = 0;
        for (number, message) in self.messages.iter().enumerate() {
            if (self.in_flight >> number & 1 == 0) != (*message == Message::Free) {
                return false;
            }
            if !self.message_in_shape(message, &self.lists[number]) {
                return false;
            }
            requests += u8::from(matches!(message, Message::Request { .. }));
        }
        self.requests == requests
    }

    fn message_in_shape(&self, message: &Message, list: &List) -> bool {
        let named = |process: u8, object: u8| {
            process < self.process_count && object < self.object_count && *list == List::default()
        };
        match *message {
            Message::Free => *list == List::default(),
            Message::Request { process, object, .. } => named(process, object),
            Message::Grant { process, object, .. } => named(process, object),
            Message::Release { process, object } => named(process, object),
            Message::ListToHome => list.in_shape(below(self.process_count)),
            Message::ListToObject { object } => {
                object < self.object_count && list.in_shape(below(self.process_count))
            }
        }
    }

    /// No process stands twice over all lines and request messages taken together.
    fn nobody_stands_twice(&self) -> bool {
        let in_lines = self.objects.iter().map(|book| book.standing.all());
        let asking = self.messages.iter().map(|message| match *message {
            Message::Request { process, .. } => bit(process),
            _ => 0,
        });
        let mut seen = 0;
        in_lines.chain(asking).all(|set| {
            let fresh = seen & set == 0;
            seen |= set;
            fresh
        })
    }

    fn rings_in_shape(&self) -> bool {
        let processes = below(self.process_count);
        let (used, unused) = self.rings.split_at(self.process_count as usize);
        (0u8..).zip(used).all(|(starter, ring)| ring.in_shape(starter, processes))
            && unused.iter().all(|ring| *ring == Ring::default())
    }
}

/// 1 to 8 nodes, 1 to 16 processes, 1 to 16 objects.
fn counts_in_range(nodes: u8, processes: u8, objects: u8) -> bool {
    (1..=MOST_NODES).contains(&nodes)
        && (1..=MOST_PROCESSES).contains(&processes)
        && (1..=MOST_OBJECTS).contains(&objects)
}
