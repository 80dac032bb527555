//! Random calls whose arguments fit a table.
use crate::{
    calls::Call,
    image::{self, Image, SLOTS},
    rng::Rng,
};

/// A handle and a locality: mostly those of a slot.
pub fn target(rng: &mut Rng, image: &Image) -> ([u8; 16], u32) {
    let i = rng.below(SLOTS);
    let handle = match rng.below(6) {
        0 => [0; 16],
        1 => rng.bytes(),
        _ => image::handle(image, i),
    };
    let locality = if rng.once_in(6) {
        rng.below(9) as u32
    } else {
        image::locality(image, i)
    };
    (handle, locality)
}

/// Candidates of a random count and length around the limits; some are taken, zero or all 0xff.
pub fn candidates(rng: &mut Rng, image: &Image, to: &mut Vec<u8>) {
    to.clear();
    let spoilt = rng.once_in(2);
    for _ in 0..rng.pick(&[0, 1, 2, 7, 8, 9]) {
        match if spoilt { rng.below(3) } else { rng.below(5) } {
            0 => to.extend([0; 16]),
            1 | 2 => to.extend(image::handle(image, rng.below(SLOTS))),
            3 => to.extend([0xff; 16]),
            _ => to.extend(rng.bytes::<16>()),
        }
    }
    let cut = rng.pick(&[0, 0, 0, 1, 15]);
    to.truncate(to.len().saturating_sub(cut));
}

/// A random call on a table.
pub fn any<'a>(rng: &mut Rng, image: &Image, buffer: &'a mut Vec<u8>) -> Call<'a> {
    let (handle, locality) = target(rng, image);
    let inside = rng.below(SLOTS);
    let slot = rng.pick(&[inside, inside, 31, 32, 33, usize::MAX]);
    let flags = (rng.below(4) as u32) << 30 | rng.below(2) as u32;
    match rng.below(9) {
        0 => Call::Validate,
        1 => Call::Lookup { handle, locality },
        2 => {
            candidates(rng, image, buffer);
            Call::Initialize {
                flags,
                locality,
                candidates: buffer,
            }
        }
        3 | 4 => {
            candidates(rng, image, buffer);
            Call::Rotate {
                handle,
                locality,
                flags,
                candidates: buffer,
            }
        }
        5 => Call::Destroy { handle, locality },
        6 => Call::Descendants { slot },
        7 => Call::Path { slot },
        _ => Call::Count {
            state: rng.below(5) as u8,
        },
    }
}
