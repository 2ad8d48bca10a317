//! Lent room with guards around it: the lent part stands in a longer list of noise, at odd addresses
//! where its elements are made of bytes, and after a call everything outside what the call may write
//! is held to what stood there before.

use crate::generator::Generator;

const GUARD: usize = 16;

/// An element of a lent list: so many grains (bytes or numbers) next to each other.
pub trait Lent: Copy + PartialEq {
    type Grain: Copy + PartialEq;
    const GRAINS: usize;
    fn noise(generator: &mut Generator) -> Self::Grain;
    fn view(grains: &[Self::Grain]) -> &[Self];
    fn view_mut(grains: &mut [Self::Grain]) -> &mut [Self];
    fn grains(list: &[Self]) -> &[Self::Grain];
}

macro_rules! lent_number {
    ($number:ty) => {
        impl Lent for $number {
            type Grain = $number;
            const GRAINS: usize = 1;
            fn noise(generator: &mut Generator) -> $number {
                generator.draw() as $number
            }
            fn view(grains: &[$number]) -> &[$number] {
                grains
            }
            fn view_mut(grains: &mut [$number]) -> &mut [$number] {
                grains
            }
            fn grains(list: &[$number]) -> &[$number] {
                list
            }
        }
    };
}

lent_number!(u8);
lent_number!(u16);
lent_number!(u32);

impl<const N: usize> Lent for [u8; N] {
    type Grain = u8;
    const GRAINS: usize = N;
    fn noise(generator: &mut Generator) -> u8 {
        generator.draw() as u8
    }
    fn view(grains: &[u8]) -> &[[u8; N]] {
        grains.as_chunks().0
    }
    fn view_mut(grains: &mut [u8]) -> &mut [[u8; N]] {
        grains.as_chunks_mut().0
    }
    fn grains(list: &[[u8; N]]) -> &[u8] {
        list.as_flattened()
    }
}

pub struct Guarded<T: Lent> {
    now: Vec<T::Grain>,
    before: Vec<T::Grain>,
    /// The lent part, in grains.
    start: usize,
    end: usize,
}

impl<T: Lent> Guarded<T> {
    /// `content` in the middle of noise.
    pub fn holding(content: &[T], generator: &mut Generator) -> Guarded<T> {
        let start = GUARD + generator.index(GUARD);
        let end = start + content.len() * T::GRAINS;
        let mut now = Vec::with_capacity(end + GUARD);
        now.extend((0..start).map(|_| T::noise(generator)));
        now.extend_from_slice(T::grains(content));
        now.extend((0..GUARD).map(|_| T::noise(generator)));
        let before = now.clone();
        Guarded { now, before, start, end }
    }

    /// Room of `length` elements, noise throughout.
    pub fn room(length: usize, generator: &mut Generator) -> Guarded<T> {
        let start = GUARD + generator.index(GUARD);
        let end = start + length * T::GRAINS;
        let now: Vec<T::Grain> = (0..end + GUARD).map(|_| T::noise(generator)).collect();
        let before = now.clone();
        Guarded { now, before, start, end }
    }

    pub fn lend(&self) -> &[T] {
        T::view(&self.now[self.start..self.end])
    }

    pub fn lend_mut(&mut self) -> &mut [T] {
        T::view_mut(&mut self.now[self.start..self.end])
    }

    /// Nothing has changed, guards included.
    pub fn untouched(&self) -> bool {
        self.now == self.before
    }

    /// The first elements read as expected; all else, guards included, as before.
    pub fn reads(&self, expected: &[T]) -> bool {
        let end = self.start + expected.len() * T::GRAINS;
        end <= self.end
            && self.now[..self.start] == self.before[..self.start]
            && self.now[self.start..end] == *T::grains(expected)
            && self.now[end..] == self.before[end..]
    }
}
