//! The script of `link_script`, as docs/RULES.md states it. Only good lines are meant: what cannot be read is answered `-`, as
//! is every call that the part refuses and the Rust has no rule for.
use crate::bloom_token_log::{optimal_k_num, BloomTokenLog};
use crate::crypto::{HandshakeTokenKey, HmacKey};
use crate::packet::InitialHeader;
use crate::schemes::{Bench, Ccm, Hmac};
use crate::token::{IncomingToken, NoneTokenLog, NoneTokenStore, Token, TokenPayload, TokenStore};
use crate::token_memory_cache::TokenMemoryCache;
use crate::{
    Bytes, ConnectionId, Duration, ResetToken, Rng, ServerConfig, SystemTime, TimeSource, TokenLog,
    ValidationTokenConfig, MAX_CID_SIZE, RESET_TOKEN_SIZE, UNIX_EPOCH,
};
use std::collections::HashSet;
use std::io::Write;
use std::net::{IpAddr, Ipv6Addr, SocketAddr};
use std::panic::{catch_unwind, AssertUnwindSafe};
use std::sync::atomic::{AtomicU64, Ordering};
use std::sync::Arc;

const LAST_CLOCK: u64 = 4_294_967_295_999_999_999;
const LONGEST: u64 = 1_073_741_824_000_000_000;
const RESET_PLACES: usize = 4;
const MIN_RESET_LEN: usize = 21;

/// The clock reading of the call that is made.
struct Now(Arc<AtomicU64>);

impl TimeSource for Now {
    fn now(&self) -> SystemTime {
        at(self.0.load(Ordering::Relaxed))
    }
}

fn at(nanos: u64) -> SystemTime {
    UNIX_EPOCH + Duration::from_nanos(nanos)
}

struct Drawn(u128);

impl Rng for Drawn {
    fn drawn(&mut self) -> u128 {
        self.0
    }
}

/// What quinn-proto's `Incoming` keeps of an arrival that is not rejected.
struct Open {
    address: SocketAddr,
    destination: ConnectionId,
    retried: bool,
}

struct Session {
    config: ServerConfig,
    store: Box<dyn TokenStore>,
    clock: Arc<AtomicU64>,
    open: Option<Open>,
    resets: Vec<ResetToken>,
}

struct Words<'a>(Vec<&'a str>);

impl<'a> Words<'a> {
    fn next(&mut self) -> Option<&'a str> {
        (!self.0.is_empty()).then(|| self.0.remove(0))
    }

    fn number<T: std::str::FromStr>(&mut self) -> Option<T> {
        self.next()?.parse().ok()
    }

    fn bytes(&mut self) -> Option<Vec<u8>> {
        let word = self.next()?;
        if word == "-" {
            return Some(Vec::new());
        }
        let digits: Option<Vec<u8>> = word
            .chars()
            .map(|c| c.to_digit(16).map(|d| d as u8))
            .collect();
        Some(
            digits?
                .chunks(2)
                .map(|pair| pair[0] << 4 | pair[1])
                .collect(),
        )
    }

    fn name(&mut self) -> Option<&'a str> {
        self.next().map(|word| if word == "-" { "" } else { word })
    }

    fn ip(&mut self) -> Option<IpAddr> {
        if self.0.first()?.contains('.') {
            return self.next()?.parse().ok();
        }
        let octets: [u8; 16] = self.bytes()?.try_into().ok()?;
        Some(Ipv6Addr::from(octets).into())
    }

    fn length(&mut self, word: &str, usual: usize) -> Option<usize> {
        if self.0.first() != Some(&word) {
            return Some(usual);
        }
        self.next();
        self.number()
    }
}

fn shown(bytes: &[u8]) -> String {
    if bytes.is_empty() {
        return "-".into();
    }
    bytes.iter().map(|b| format!("{b:02x}")).collect()
}

/// How many fingerprints a set takes before the Rust makes a Bloom filter of it: its `HashSet` is asked.
fn sure(budget: usize) -> usize {
    let mut set = HashSet::new();
    (0u64..)
        .find(|n| {
            set.insert(*n);
            set.capacity() * size_of::<u64>() > budget / 2
        })
        .unwrap() as usize
}

/// Whether a token says an issue time past the part's range: there the two differ, as is stated. Far past it the Rust panics.
fn is_late(key: &dyn HandshakeTokenKey, token: &[u8]) -> bool {
    let decoded = catch_unwind(AssertUnwindSafe(|| Token::decode(key, token)));
    let Ok(token) = decoded else {
        return true;
    };
    token.is_some_and(|token| match token.payload {
        TokenPayload::Retry { issued, .. } | TokenPayload::Validation { issued, .. } => {
            issued > at(LAST_CLOCK)
        }
    })
}

impl Session {
    fn seal(&self, payload: TokenPayload, low: u64, high: u64) -> String {
        let token = Token::new(
            payload,
            &mut Drawn(u128::from(high) << 64 | u128::from(low)),
        );
        format!("token {}", shown(&token.encode(&*self.config.token_key)))
    }

    fn issue(&self, words: &mut Words) -> Option<String> {
        let (low, high, ip, clock) = (
            words.number()?,
            words.number()?,
            words.ip()?,
            words.number()?,
        );
        let (room, working) = (words.length("room", 81)?, words.length("working", 96)?);
        if room < 81 || working < 96 || clock > LAST_CLOCK {
            return None;
        }
        Some(self.seal(
            TokenPayload::Validation {
                ip,
                issued: at(clock),
            },
            low,
            high,
        ))
    }

    fn arrive(&mut self, words: &mut Words) -> Option<String> {
        let (token, destination) = (words.bytes()?, words.bytes()?);
        let address = SocketAddr::new(words.ip()?, words.number()?);
        let (clock, working) = (words.number()?, words.length("working", 96)?);
        self.open = None;
        if working < 96 || destination.len() > MAX_CID_SIZE || clock > LAST_CLOCK {
            return None;
        }
        let destination = ConnectionId::new(&destination);
        self.clock.store(clock, Ordering::Relaxed);
        let open = |retried| {
            Some(Open {
                address,
                destination,
                retried,
            })
        };
        if is_late(&*self.config.token_key, &token) {
            self.open = open(false);
            return None;
        }
        let header = InitialHeader {
            dst_cid: destination,
            token: Bytes(token),
        };
        let Ok(incoming) = IncomingToken::from_header(&header, &self.config, address) else {
            return Some("rejected".into());
        };
        self.open = open(incoming.retry_src_cid.is_some());
        let kind = if incoming.validated {
            "validated"
        } else {
            "unvalidated"
        };
        let source = incoming
            .retry_src_cid
            .map_or("none".into(), |id| shown(&id));
        Some(format!(
            "{kind} source {source} original {}",
            shown(&incoming.orig_dst_cid)
        ))
    }

    fn retry(&mut self, words: &mut Words) -> Option<String> {
        let (low, high, clock) = (words.number()?, words.number()?, words.number()?);
        let (room, working) = (words.length("room", 81)?, words.length("working", 96)?);
        let Some(open) = &self.open else {
            return Some("no slip".into());
        };
        if room < 81 || working < 96 || clock > LAST_CLOCK || open.retried {
            return None;
        }
        let payload = TokenPayload::Retry {
            address: open.address,
            orig_dst_cid: open.destination,
            issued: at(clock),
        };
        let answer = self.seal(payload, low, high);
        self.open = None;
        Some(answer)
    }

    fn spend(&mut self, word: &str) -> Option<String> {
        Some(self.open.take().map_or("no slip", |_| word).into())
    }

    fn insert(&self, words: &mut Words) -> Option<String> {
        let (name, token) = (words.name()?, words.bytes()?);
        if name.len() > 255 || token.len() > 512 {
            return None;
        }
        self.store.insert(name, Bytes(token));
        Some("stored".into())
    }

    fn take(&self, words: &mut Words) -> Option<String> {
        let (name, room) = (words.name()?, words.length("room", 512)?);
        if room < 512 || name.len() > 255 {
            return None;
        }
        Some(
            self.store
                .take(name)
                .map_or("none".into(), |token| format!("taken {}", shown(&token))),
        )
    }

    fn reset(&self, words: &mut Words) -> Option<String> {
        let kind = words.next()?;
        let key = words.bytes()?;
        let key: Box<dyn HmacKey> = match kind {
            "hmac" => Box::new(Hmac(key)),
            _ => Box::new(Bench(key.try_into().ok()?)),
        };
        let (id, working) = (words.bytes()?, words.length("working", 160)?);
        if working < 160 || id.len() > MAX_CID_SIZE {
            return None;
        }
        let token = ResetToken::new(&*key, ConnectionId::new(&id));
        Some(format!("reset {}", shown(&token)))
    }

    /// The Rust's table stands in a file that is not at hand. This one is ours; that two tokens are equal is told by the Rust.
    fn remember(&mut self, words: &mut Words) -> Option<String> {
        let token: [u8; RESET_TOKEN_SIZE] = words.bytes()?.try_into().ok()?;
        let token = ResetToken::from(token);
        if !self.resets.contains(&token) {
            if self.resets.len() == RESET_PLACES {
                return None;
            }
            self.resets.push(token);
        }
        Some("remembered".into())
    }

    fn datagram(&self, words: &mut Words) -> Option<String> {
        let datagram = words.bytes()?;
        let is_reset = datagram.len() >= MIN_RESET_LEN
            && datagram
                .last_chunk::<RESET_TOKEN_SIZE>()
                .is_some_and(|end| self.resets.contains(&ResetToken::from(*end)));
        Some(if is_reset { "a reset" } else { "no reset" }.into())
    }

    fn call(&mut self, line: &str) -> Option<String> {
        let mut words = Words(line.split(' ').collect());
        match words.next()? {
            "issue" => self.issue(&mut words),
            "arrive" => self.arrive(&mut words),
            "retry" => self.retry(&mut words),
            "accept" => self.spend("accepted"),
            "refuse" => self.spend("refused slip"),
            "ignore" => self.spend("ignored"),
            "insert" => self.insert(&mut words),
            "take" => self.take(&mut words),
            "reset" => self.reset(&mut words),
            "remember" => self.remember(&mut words),
            "datagram" => self.datagram(&mut words),
            "k" => Some(format!(
                "k {}",
                optimal_k_num(
                    words.number::<u32>()? as usize,
                    words.number::<u32>()?.into()
                )
            )),
            _ => None,
        }
    }
}

/// The parts that the head asks for, as far as it is read.
#[derive(Default)]
struct Head {
    key: Option<Arc<dyn HandshakeTokenKey>>,
    log: Option<Arc<dyn TokenLog>>,
    lifetimes: Option<(Duration, Duration)>,
}

/// A log with the limits that the part has.
fn bloom(budget: u32, k: u32) -> Option<Arc<dyn TokenLog>> {
    if !(1..=64).contains(&k) || budget > 16_777_216 {
        return None;
    }
    Some(Arc::new(BloomTokenLog::new(budget as usize, k)))
}

impl Head {
    fn scheme(&mut self, words: &mut Words) -> Option<String> {
        let kind = words.next()?;
        let key = words.bytes()?;
        self.key = Some(match kind {
            "bench" => Arc::new(Bench(key.try_into().ok()?)),
            _ => Arc::new(Ccm::new(key.try_into().ok()?)),
        });
        Some(format!("scheme {kind}"))
    }

    fn log(&mut self, words: &mut Words) -> Option<String> {
        let kind = words.next()?;
        if kind == "none" {
            self.log = Some(Arc::new(NoneTokenLog));
            return Some("log none".into());
        }
        let budget = words.number()?;
        let told = match kind {
            "turning" => {
                self.log = Some(bloom(budget, words.number()?)?);
                "turning".into()
            }
            _ => {
                let k = optimal_k_num(budget as usize, words.number::<u32>()?.into());
                self.log = Some(bloom(budget, k)?);
                format!("expected k {k}")
            }
        };
        Some(format!("log {told} sure {}", sure(budget as usize)))
    }

    fn gate(&mut self, words: &mut Words) -> Option<String> {
        let (retry, validation) = (words.number()?, words.number()?);
        if retry > LONGEST || validation > LONGEST {
            return None;
        }
        self.lifetimes = Some((
            Duration::from_nanos(retry),
            Duration::from_nanos(validation),
        ));
        Some("gate".into())
    }

    fn store(self, words: &mut Words) -> Option<Session> {
        let store: Box<dyn TokenStore> = match words.next()? {
            "none" => Box::new(NoneTokenStore),
            _ => {
                let (names, tokens) = (words.number()?, words.number()?);
                if names > 1024 || tokens > 16 {
                    return None;
                }
                Box::new(TokenMemoryCache::new(names, tokens))
            }
        };
        let clock = Arc::new(AtomicU64::new(0));
        let (retry_token_lifetime, lifetime) = self.lifetimes?;
        let config = ServerConfig {
            token_key: self.key?,
            retry_token_lifetime,
            validation_token: ValidationTokenConfig {
                lifetime,
                log: self.log?,
            },
            time_source: Arc::new(Now(clock.clone())),
        };
        Some(Session {
            config,
            store,
            clock,
            open: None,
            resets: Vec::new(),
        })
    }
}

/// Runs a script; a head line that the part refuses ends it.
pub(crate) fn run(text: &str, out: &mut impl Write) {
    let mut lines = text
        .lines()
        .filter(|line| !line.is_empty() && !line.starts_with('#'));
    let mut head = Head::default();
    for part in [Head::scheme, Head::log, Head::gate] {
        let Some(line) = lines.next() else { return };
        let mut words = Words(line.split(' ').skip(1).collect());
        let answer = part(&mut head, &mut words);
        writeln!(out, "{}", answer.as_deref().unwrap_or("-")).unwrap();
        if answer.is_none() {
            return;
        }
    }
    let Some(line) = lines.next() else { return };
    let kind = line.split(' ').nth(1).unwrap_or_default();
    let Some(mut session) = head.store(&mut Words(line.split(' ').skip(1).collect())) else {
        writeln!(out, "-").unwrap();
        return;
    };
    writeln!(out, "store {kind}").unwrap();
    for line in lines {
        writeln!(out, "{}", session.call(line).as_deref().unwrap_or("-")).unwrap();
    }
}
