//! The runtime that the files are generic over, and one with a clock that a test sets.
use std::{
    future::Future,
    pin::Pin,
    sync::atomic::{AtomicU64, Ordering},
    task::{Context, Poll},
    time::Duration,
};

pub trait Instant: Copy + Clone + Unpin {
    fn elapsed(&self) -> Duration;
}

pub trait Counter {
    fn increment(&mut self, by: usize);
}

pub trait Histogram {
    fn record(&mut self, value: f64);
}

pub trait MetricsHandle: Clone + Unpin {
    fn counter(&self, name: &'static str) -> impl Counter;
    fn histogram(&self, name: &'static str) -> impl Histogram;
}

pub trait Runtime: Clone + Unpin + 'static {
    type Instant: Instant;
    type Timer: Future<Output = ()> + Unpin;
    type MetricsHandle: MetricsHandle;
    fn now() -> Self::Instant;
    fn timer(after: Duration) -> Self::Timer;
    fn rng() -> Generator;
    fn time_since_epoch() -> Duration;
    fn gzip_decompress(bytes: impl AsRef<[u8]>) -> Option<Vec<u8>>;
}

/// The second that it is now.
pub static NOW: AtomicU64 = AtomicU64::new(0);

fn now() -> u64 {
    NOW.load(Ordering::Relaxed)
}

/// mod.rs calls these on a generator with only `rand::Rng` in scope, so here they are its own methods.
pub struct Generator;

impl Generator {
    pub fn next_u32(&mut self) -> u32 {
        rand::random()
    }
    pub fn next_u64(&mut self) -> u64 {
        rand::random()
    }
    pub fn fill_bytes(&mut self, bytes: &mut [u8]) {
        rand::RngCore::fill_bytes(&mut rand::thread_rng(), bytes)
    }
}

#[derive(Clone, Copy)]
pub struct At(u64);

impl Instant for At {
    fn elapsed(&self) -> Duration {
        Duration::from_secs(now().saturating_sub(self.0))
    }
}

/// Ready from a second on.
pub struct Timer(u64);

impl Future for Timer {
    type Output = ();
    fn poll(self: Pin<&mut Self>, _: &mut Context<'_>) -> Poll<()> {
        if now() >= self.0 {
            Poll::Ready(())
        } else {
            Poll::Pending
        }
    }
}

#[derive(Clone)]
pub struct NoMetrics;
pub struct Nothing;

impl Counter for Nothing {
    fn increment(&mut self, _: usize) {}
}

impl Histogram for Nothing {
    fn record(&mut self, _: f64) {}
}

impl MetricsHandle for NoMetrics {
    fn counter(&self, _: &'static str) -> impl Counter {
        Nothing
    }
    fn histogram(&self, _: &'static str) -> impl Histogram {
        Nothing
    }
}

#[derive(Clone)]
pub struct Rt;

impl Runtime for Rt {
    type Instant = At;
    type Timer = Timer;
    type MetricsHandle = NoMetrics;
    fn now() -> At {
        At(now())
    }
    fn timer(after: Duration) -> Timer {
        Timer(now() + after.as_secs())
    }
    fn rng() -> Generator {
        Generator
    }
    fn time_since_epoch() -> Duration {
        Duration::from_secs(now())
    }
    /// No oracle: hands back a copy.
    fn gzip_decompress(bytes: impl AsRef<[u8]>) -> Option<Vec<u8>> {
        Some(bytes.as_ref().to_vec())
    }
}
