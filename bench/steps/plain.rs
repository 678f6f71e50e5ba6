
// ---- the replica in plain Rust: behind the frames and the hash of `../frames/plain.rs`
//
// The same work as `main.rattle`, with the standard library alone: a map of blocks by digest, the rules of a replica, and
// its steps as they are stored. The way down a branch goes from parent to parent, by digest. Copies are made where they
// are kept, and nowhere else.

use std::collections::{BTreeMap, HashMap};

const REQUEST: u8 = 1;
const PROPOSAL: u8 = 2;
const VOTE: u8 = 3;
const NEW_VIEW: u8 = 4;
const REPLY: u8 = 5;

const MARKS: [u64; 3] = [1_000, 10_000, 100_000];
const SPAN: u64 = 500;
const MOST_BLOCKS: usize = 1_048_576;
const MOST_OF_HEIGHT: u32 = 64;

type Digest = [u8; 32];

#[allow(dead_code)]
#[derive(Debug)]
enum Fault {
    BadTag,
    WrongJustify,
    UnknownParent,
    BadHeight,
    Crowded,
    Full,
    Conflict,
}

struct Keyring {
    config: Config,
    own: u16,
    replicas: Vec<KeyedHashers>,
    clients: Vec<KeyedHashers>,
}

fn key(one: u16, other: u16) -> KeyedHashers {
    let bytes = [&b"hsim"[..], &one.min(other).to_be_bytes(), &one.max(other).to_be_bytes()].concat();
    KeyedHashers::new(&sha256(&bytes))
}

fn head(label: u8, sender: u16, receiver: u16) -> [u8; 5] {
    let [s0, s1] = sender.to_be_bytes();
    let [r0, r1] = receiver.to_be_bytes();
    [label, s0, s1, r0, r1]
}

impl Keyring {
    fn new(config: Config, own: u16) -> Keyring {
        let replicas = (0..u16::from(config.n())).map(|replica| key(own, replica)).collect();
        let clients = (0..u16::from(config.clients)).map(|client| key(own, 256 + client)).collect();
        Keyring { config, own, replicas, clients }
    }

    /// Whether the tag for this replica in a vector is the one that the sender makes.
    fn verify(&self, label: u8, sender: u16, content: &[u8], vector: &[u8]) -> bool {
        let key = if sender < 256 { &self.replicas[usize::from(sender)] } else { &self.clients[usize::from(sender - 256)] };
        let right = key.clone().hmac(&head(label, sender, self.own), content);
        let place = TAG * usize::from(self.own);
        let differing = vector[place..place + TAG].iter().zip(&right).fold(0, |sum, (a, b)| sum | (a ^ b));
        differing == 0
    }

    /// Appends the tag for each replica.
    fn push_vector(&self, label: u8, content: &[u8], out: &mut Vec<u8>) {
        for (receiver, key) in self.replicas.iter().enumerate() {
            out.extend_from_slice(&key.clone().hmac(&head(label, self.own, receiver as u16), content));
        }
    }

    /// The reply `STORED` to a command.
    fn reply(&self, client: u16, seq: u64, place: u64) -> Vec<u8> {
        let mut frame = vec![VERSION_TWO, REPLY];
        frame.extend_from_slice(&self.own.to_be_bytes());
        frame.extend_from_slice(&client.to_be_bytes());
        frame.extend_from_slice(&seq.to_be_bytes());
        frame.extend_from_slice(&place.to_be_bytes());
        frame.extend_from_slice(&8u32.to_be_bytes());
        frame.extend_from_slice(b"STORED\r\n");
        let key = &self.clients[usize::from(client)];
        let tag = key.clone().hmac(&head(REPLY, self.own, 256 + client), &frame[2..]);
        frame.extend_from_slice(&tag);
        frame
    }

    fn leader(&self, view: u64) -> u16 {
        (view % u64::from(self.config.n())) as u16
    }
}

struct Checked {
    counted: Vec<u16>,
    clear: bool,
}

fn check_proposal(ring: &Keyring, genesis: &Digest, proposal: &Proposal) -> Result<Checked, Fault> {
    if !ring.verify(PROPOSAL, ring.leader(proposal.view), proposal.content, proposal.vector) {
        return Err(Fault::BadTag);
    }
    let certificate = &proposal.certificate;
    let mut counted = Vec::with_capacity(usize::from(certificate.votes.left));
    for vote in certificate.votes {
        if ring.verify(VOTE, vote.voter, certificate.digest, vote.vector) {
            counted.push(vote.voter);
        }
    }
    let good = if certificate.digest == genesis {
        certificate.votes.left == 0
    } else {
        counted.len() >= usize::from(ring.config.quorum())
    };
    if !good {
        return Err(Fault::BadTag);
    }
    let mut commands = proposal.core.commands;
    let clear = commands.all(|c| ring.verify(REQUEST, 256 + c.client, c.content, c.vector));
    Ok(Checked { counted, clear })
}

fn check_vote(ring: &Keyring, digest: &Digest, vote: &Vote) -> Result<(), Fault> {
    if ring.verify(VOTE, vote.voter, digest, vote.vector) { Ok(()) } else { Err(Fault::BadTag) }
}

#[derive(Clone, Copy)]
struct BlockRef {
    digest: Digest,
    height: u64,
}

/// A certificate that is kept: its votes as they are spelled.
struct KeptCertificate {
    digest: Digest,
    count: u8,
    votes: Box<[u8]>,
}

impl KeptCertificate {
    fn copy(certificate: &Certificate) -> KeptCertificate {
        KeptCertificate {
            digest: *certificate.digest,
            count: certificate.votes.left,
            votes: certificate_votes(certificate).into(),
        }
    }

    fn write(&self, out: &mut Vec<u8>) {
        out.extend_from_slice(&self.digest);
        out.push(self.count);
        out.extend_from_slice(&self.votes);
    }
}

/// The votes of a certificate, as they are spelled.
fn certificate_votes<'a>(certificate: &Certificate<'a>) -> &'a [u8] {
    let votes = &certificate.votes;
    &votes.cursor.rest[..usize::from(votes.left) * (2 + votes.config.vector_len())]
}

#[allow(dead_code)]
struct KeptBlock {
    core: Box<[u8]>,
    parent: Digest,
    height: u64,
    justify_height: u64,
    certificate: KeptCertificate,
    clear: bool,
}

struct KeptVote {
    voter: u16,
    vector: Box<[u8]>,
}

struct KeptVotes {
    height: u64,
    votes: Vec<KeptVote>,
}

#[allow(dead_code)]
enum Step {
    TookNew { digest: Digest, counted: Vec<u16>, voted: bool },
    TookAgain { core: Box<[u8]>, certificate: KeptCertificate, counted: Vec<u16>, clear: bool, voted: bool },
    GotVote { block: Digest, vote: KeptVote },
    TimedOut,
    Beat,
}

#[derive(Clone, Copy)]
struct Rules {
    voted: u64,
    lock: BlockRef,
    executed: BlockRef,
}

struct Replica {
    ring: Keyring,
    genesis: Digest,
    blocks: HashMap<Digest, KeptBlock>,
    counts: Vec<u32>,
    rules: Rules,
    high: BlockRef,
    certificate: KeptCertificate,
    leaf: BlockRef,
    view: u64,
    votes: HashMap<Digest, KeptVotes>,
    steps: Vec<Step>,
    executed: Executed,
    replies: Vec<Vec<u8>>,
}

/// What was executed: the history, the last number of each client, and the cache.
#[derive(Default)]
struct Executed {
    rows: Vec<(u16, u64, usize)>,
    payloads: Vec<u8>,
    last: [u64; 16],
    items: BTreeMap<Vec<u8>, (u32, Vec<u8>, u64)>,
}

impl Executed {
    /// Enters a command. One that is fresh is applied, and its place is given.
    fn enter(&mut self, command: &Command<'_>) -> Option<u64> {
        self.payloads.extend_from_slice(command.payload);
        self.rows.push((command.client, command.seq, self.payloads.len()));
        let last = &mut self.last[usize::from(command.client)];
        if command.seq <= *last {
            return None;
        }
        *last = command.seq;
        self.set(command.payload);
        Some(self.rows.len() as u64)
    }

    /// Applies `set KEY FLAGS 0 BYTES`, as all commands of the chain are.
    fn set(&mut self, payload: &[u8]) {
        let end = payload.iter().position(|byte| *byte == b'\r').expect("a line");
        let line = std::str::from_utf8(&payload[..end]).expect("letters");
        let fields: Vec<&str> = line.split(' ').collect();
        let data = payload[end + 2..payload.len() - 2].to_vec();
        let count = self.items.len() as u64 + 1;
        self.items.insert(fields[1].into(), (fields[2].parse().expect("flags"), data, count));
    }
}

impl Replica {
    fn new(config: Config, own: u16) -> Replica {
        let genesis = sha256(&[0; 49]);
        let first = BlockRef { digest: genesis, height: 0 };
        Replica {
            ring: Keyring::new(config, own),
            genesis,
            blocks: HashMap::new(),
            counts: Vec::new(),
            rules: Rules { voted: 0, lock: first, executed: first },
            high: first,
            certificate: KeptCertificate { digest: genesis, count: 0, votes: Box::new([]) },
            leaf: first,
            view: 0,
            votes: HashMap::new(),
            steps: Vec::new(),
            executed: Executed::default(),
            replies: Vec::new(),
        }
    }

    /// Executes the blocks above this height up to the last executed one, lowest first.
    fn execute_above(&mut self, height: u64) {
        let mut path = Vec::new();
        let mut at = self.rules.executed;
        while at.height > height {
            path.push(at.digest);
            at = BlockRef { digest: self.blocks[&at.digest].parent, height: at.height - 1 };
        }
        for digest in path.iter().rev() {
            let mut cursor = Cursor { rest: &self.blocks[digest].core };
            let core = cursor.core(self.ring.config).expect("a core");
            for command in core.commands {
                if let Some(place) = self.executed.enter(&command) {
                    self.replies.push(self.ring.reply(command.client, command.seq, place));
                }
            }
        }
    }

    fn height(&self, digest: &Digest) -> Option<u64> {
        match self.blocks.get(digest) {
            Some(block) => Some(block.height),
            None if *digest == self.genesis => Some(0),
            None => None,
        }
    }

    fn justified(&self, digest: &Digest) -> Option<BlockRef> {
        match self.blocks.get(digest) {
            Some(block) => Some(BlockRef { digest: block.certificate.digest, height: block.justify_height }),
            None if *digest == self.genesis => Some(BlockRef { digest: self.genesis, height: 0 }),
            None => None,
        }
    }

    /// The block of this height on the branch of a block.
    fn ancestor_at(&self, digest: &Digest, height: u64) -> Option<Digest> {
        let mut at = *digest;
        let mut top = self.height(&at)?;
        if top < height {
            return None;
        }
        while top > height {
            at = self.blocks.get(&at)?.parent;
            top -= 1;
        }
        Some(at)
    }

    fn extends(&self, digest: &Digest, lower: &Digest) -> bool {
        self.height(lower).is_some_and(|height| self.ancestor_at(digest, height).as_ref() == Some(lower))
    }

    fn is_clear_above(&self, digest: &Digest, height: u64) -> bool {
        let Some(mut top) = self.height(digest) else {
            return false;
        };
        let mut at = *digest;
        while top > height {
            let Some(block) = self.blocks.get(&at).filter(|block| block.clear) else {
                return false;
            };
            at = block.parent;
            top -= 1;
        }
        true
    }

    /// Whether a new block may be put on its parent.
    fn may_stand(&self, core: &Core, certificate: &Certificate) -> Result<(), Fault> {
        let parent = self.height(core.parent).ok_or(Fault::UnknownParent)?;
        if core.height - 1 != parent {
            return Err(Fault::BadHeight);
        }
        if self.ancestor_at(core.parent, core.justify_height).as_ref() != Some(certificate.digest) {
            return Err(Fault::WrongJustify);
        }
        if self.counts.get(core.height as usize - 1).is_some_and(|count| *count >= MOST_OF_HEIGHT) {
            return Err(Fault::Crowded);
        }
        if self.blocks.len() + 1 >= MOST_BLOCKS {
            return Err(Fault::Full);
        }
        Ok(())
    }

    fn may_vote(&self, branch: &Digest, height: u64, justify_height: u64) -> bool {
        let rules = &self.rules;
        height > rules.voted
            && (self.extends(branch, &rules.lock.digest) || justify_height > rules.lock.height)
            && self.is_clear_above(branch, justify_height)
    }

    /// The rules after a new block that justifies this one, but for the vote.
    fn taking(&self, first: BlockRef) -> Result<Rules, Fault> {
        let mut rules = self.rules;
        let Some(second) = self.justified(&first.digest) else {
            return Ok(rules);
        };
        let Some(third) = self.justified(&second.digest) else {
            return Ok(rules);
        };
        let decides = second.height == third.height + 1 && first.height == second.height + 1;
        let executed = &rules.executed.digest;
        if decides && !self.extends(&third.digest, executed) && !self.extends(executed, &third.digest) {
            return Err(Fault::Conflict);
        }
        if second.height > rules.lock.height {
            rules.lock = second;
        }
        if decides && third.height > rules.executed.height {
            rules.executed = third;
        }
        Ok(rules)
    }

    fn vote_out(&self, digest: &Digest, voted: bool) -> Option<(u16, Vec<u8>)> {
        if !voted {
            return None;
        }
        let mut frame = Vec::with_capacity(36 + TAG * self.ring.replicas.len());
        frame.extend_from_slice(&[VERSION_TWO, VOTE]);
        frame.extend_from_slice(digest);
        frame.extend_from_slice(&self.ring.own.to_be_bytes());
        self.ring.push_vector(VOTE, digest, &mut frame);
        Some((self.ring.leader(self.view), frame))
    }

    fn take_again(&mut self, proposal: &Proposal, checked: Checked, digest: Digest) -> Option<(u16, Vec<u8>)> {
        let block = &self.blocks[&digest];
        let voted = proposal.view == self.view
            && block.clear
            && self.may_vote(&digest, block.height, block.justify_height);
        if voted {
            self.rules.voted = self.rules.voted.max(block.height);
        }
        let out = self.vote_out(&digest, voted);
        self.steps.push(Step::TookAgain {
            core: proposal.core.raw.into(),
            certificate: KeptCertificate::copy(&proposal.certificate),
            counted: checked.counted,
            clear: checked.clear,
            voted,
        });
        out
    }

    fn take_proposal(&mut self, proposal: &Proposal, checked: Checked) -> Result<Option<(u16, Vec<u8>)>, Fault> {
        let (core, certificate) = (&proposal.core, &proposal.certificate);
        let digest = sha256(core.raw);
        if let Some(block) = self.blocks.get(&digest) {
            if block.certificate.digest != *certificate.digest {
                return Err(Fault::WrongJustify);
            }
            return Ok(self.take_again(proposal, checked, digest));
        }
        self.may_stand(core, certificate)?;
        let justified = BlockRef { digest: *certificate.digest, height: core.justify_height };
        let mut rules = self.taking(justified)?;
        let voted = proposal.view == self.view
            && checked.clear
            && self.may_vote(core.parent, core.height, core.justify_height);
        if voted {
            rules.voted = rules.voted.max(core.height);
        }
        let out = self.vote_out(&digest, voted);
        let executed = self.rules.executed.height;
        self.rules = rules;
        if justified.height > self.high.height {
            self.raise(justified, KeptCertificate::copy(certificate));
        }
        self.blocks.insert(digest, KeptBlock {
            core: core.raw.into(),
            parent: *core.parent,
            height: core.height,
            justify_height: core.justify_height,
            certificate: KeptCertificate::copy(certificate),
            clear: checked.clear,
        });
        if core.height as usize > self.counts.len() {
            self.counts.push(0);
        }
        self.counts[core.height as usize - 1] += 1;
        self.steps.push(Step::TookNew { digest, counted: checked.counted, voted });
        self.execute_above(executed);
        Ok(out)
    }

    fn raise(&mut self, block: BlockRef, certificate: KeptCertificate) {
        self.high = block;
        self.certificate = certificate;
        self.leaf = block;
        self.votes.retain(|_, kept| kept.height > block.height);
    }

    fn take_vote(&mut self, digest: &Digest, vote: &Vote) -> Result<(), Fault> {
        let height = self.height(digest).ok_or(Fault::UnknownParent)?;
        if height > self.high.height {
            self.count_vote(BlockRef { digest: *digest, height }, vote);
        }
        let vote = KeptVote { voter: vote.voter, vector: vote.vector.into() };
        self.steps.push(Step::GotVote { block: *digest, vote });
        Ok(())
    }

    fn count_vote(&mut self, block: BlockRef, vote: &Vote) {
        let quorum = usize::from(self.ring.config.quorum());
        let kept = self.votes.entry(block.digest).or_insert_with(|| KeptVotes { height: block.height, votes: Vec::new() });
        if kept.votes.iter().any(|other| other.voter == vote.voter) {
            return;
        }
        let place = kept.votes.iter().position(|other| vote.voter < other.voter).unwrap_or(kept.votes.len());
        kept.votes.insert(place, KeptVote { voter: vote.voter, vector: vote.vector.into() });
        if kept.votes.len() < quorum {
            return;
        }
        let mut votes = Vec::new();
        for vote in &kept.votes {
            votes.extend_from_slice(&vote.voter.to_be_bytes());
            votes.extend_from_slice(&vote.vector);
        }
        self.raise(block, KeptCertificate { digest: block.digest, count: quorum as u8, votes: votes.into() });
    }

    /// A proposal of a block without commands, where the replica leads.
    fn beat(&mut self) -> Option<Vec<u8>> {
        self.steps.push(Step::Beat);
        if self.ring.leader(self.view) != self.ring.own {
            return None;
        }
        let mut core = self.leaf.digest.to_vec();
        core.extend_from_slice(&(self.leaf.height + 1).to_be_bytes());
        core.extend_from_slice(&self.high.height.to_be_bytes());
        core.push(0);
        let mut frame = vec![VERSION_TWO, PROPOSAL];
        frame.extend_from_slice(&self.view.to_be_bytes());
        frame.extend_from_slice(&core);
        self.certificate.write(&mut frame);
        self.leaf = BlockRef { digest: sha256(&core), height: self.leaf.height + 1 };
        let content = frame[2..].to_vec();
        self.ring.push_vector(PROPOSAL, &content, &mut frame);
        Some(frame)
    }

    fn timeout(&mut self) -> Vec<u8> {
        self.steps.push(Step::TimedOut);
        self.view = self.view.saturating_add(1);
        let mut frame = vec![VERSION_TWO, NEW_VIEW];
        frame.extend_from_slice(&self.view.to_be_bytes());
        frame.extend_from_slice(&self.ring.own.to_be_bytes());
        self.certificate.write(&mut frame);
        let content = frame[2..].to_vec();
        self.ring.push_vector(NEW_VIEW, &content, &mut frame);
        frame
    }
}

/// What a frame comes to after its check.
enum Input<'a> {
    Proposal(Proposal<'a>, Checked),
    Vote(&'a Digest, Vote<'a>),
}

fn checked<'a>(replica: &Replica, bytes: &'a [u8]) -> Input<'a> {
    match read(replica.ring.config, bytes) {
        Some(Frame::Proposal(proposal)) => {
            let checked = check_proposal(&replica.ring, &replica.genesis, &proposal).expect("right tags");
            Input::Proposal(proposal, checked)
        }
        Some(Frame::Vote(digest, vote)) => {
            check_vote(&replica.ring, digest, &vote).expect("right tags");
            Input::Vote(digest, vote)
        }
        _ => panic!("a proposal or a vote"),
    }
}

fn next_frame(source: &mut impl Read, frame: &mut Vec<u8>) -> bool {
    let mut length = [0; 4];
    if source.read_exact(&mut length).is_err() {
        return false;
    }
    frame.resize(u32::from_be_bytes(length) as usize, 0);
    source.read_exact(frame).expect("a whole frame");
    true
}

fn weight(before: u64, frame: &[u8]) -> u64 {
    frame.iter().fold(before, |sum, byte| sum.wrapping_mul(31).wrapping_add(u64::from(*byte)))
}

fn is_watched(height: u64) -> bool {
    MARKS.iter().any(|mark| height <= *mark && mark - height < SPAN)
}

fn main() {
    use std::fmt::Write;
    let number: u16 = std::env::args().nth(1).expect("a number").parse().expect("a number");
    let config = Config { faults: 1, clients: 16 };
    let mut replica = Replica::new(config, number);
    let mut source = std::io::BufReader::new(std::io::stdin());
    let mut told = String::new();
    let mut frame = Vec::new();
    let (mut height, mut sum) = (0u64, 0u64);
    while next_frame(&mut source, &mut frame) {
        let is_proposal = frame[1] == PROPOSAL;
        if is_proposal {
            height += 1;
        } else if number != 0 {
            continue;
        }
        let started = Instant::now();
        let input = checked(&replica, &frame);
        let check = started.elapsed().as_nanos();
        let started = Instant::now();
        let out = match input {
            Input::Proposal(proposal, checked) => replica.take_proposal(&proposal, checked).expect("a right block"),
            Input::Vote(digest, vote) => {
                replica.take_vote(digest, &vote).expect("a right vote");
                None
            }
        };
        let step = started.elapsed().as_nanos();
        if let Some((_, frame)) = &out {
            sum = weight(sum, frame);
        }
        for frame in replica.replies.drain(..) {
            sum = weight(sum, &frame);
        }
        if is_watched(height) {
            let name = if is_proposal { "proposal" } else { "vote" };
            writeln!(told, "{name} {height} {check} {step}").expect("memory");
        }
    }
    if let Some(frame) = replica.beat() {
        sum = weight(sum, &frame);
    }
    sum = weight(sum, &replica.timeout());
    print!("{told}");
    println!("{height} blocks, {} steps, sum {sum}", replica.steps.len());
}
