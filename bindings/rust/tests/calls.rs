//! The wrapper against document 01's worked examples. What the calls do is proved elsewhere; this looks at the wrapping.
use duottarok::*;

const NEW: &[u8; IMAGE_SIZE] = include_bytes!("../../../samples/new.img");
const CHAIN: &[u8; IMAGE_SIZE] = include_bytes!("../../../samples/chain.img");

#[test]
fn default_once() {
    let mut image = *NEW;
    assert_eq!(initialize_context(&mut image, INIT_DEFAULT, 7, &[]), Ok([0; 16]));
    let before = image;
    assert_eq!(
        initialize_context(&mut image, INIT_DEFAULT, 7, &[]),
        Err(Refusal::ArgumentNotSupported)
    );
    assert_eq!(image, before, "a refusal changes nothing");
    assert_eq!(count(&image, State::Active), Ok(1));
    assert_eq!(count(&image, State::Inactive), Ok(SLOTS - 1));
}

#[test]
fn simulation_beside_a_default() {
    let mut image = *NEW;
    initialize_context(&mut image, INIT_DEFAULT, 7, &[]).unwrap();
    assert_eq!(
        initialize_context(&mut image, INIT_SIMULATION, 7, &[5; 16]),
        Ok([5; 16])
    );
    assert_eq!(lookup(&image, &[5; 16], 7), Ok(1));
    assert_eq!(
        validate(&image),
        Err(Refusal::Validation(ValidationError::MixedContextLocality))
    );
}

#[test]
fn candidates_run_out() {
    let mut image = *NEW;
    let call = |image: &mut [u8], c: &[u8]| initialize_context(image, INIT_SIMULATION, 7, c);
    assert_eq!(
        call(&mut image, &[0; 7 * 16]),
        Err(Refusal::Added(AddedError::CandidatesShort))
    );
    assert_eq!(
        call(&mut image, &[0; 8 * 16]),
        Err(Refusal::Internal(InternalError::HandleGenerationExhausted))
    );
}

#[test]
fn rotate_and_destroy() {
    let mut image = *NEW;
    let handle = initialize_context(&mut image, INIT_SIMULATION, 7, &[5; 16]).unwrap();
    let handle = rotate_context(&mut image, &handle, 7, 0, &[6; 16]).unwrap();
    assert_eq!(handle, [6; 16]);
    assert_eq!(
        rotate_context(&mut image, &handle, 7, ROTATE_TARGET_IS_DEFAULT, &[]),
        Ok([0; 16])
    );
    assert_eq!(destroy_context(&mut image, &[0; 16], 7), Ok(()));
    assert_eq!(destroy_context(&mut image, &[0; 16], 7), Err(Refusal::InvalidLocality));
}

#[test]
fn a_chain_of_32() {
    let slots: Vec<u8> = (0..32).collect();
    assert_eq!(path(CHAIN, 31).unwrap().slots(), slots);
    assert_eq!(path(CHAIN, 32), Err(Refusal::Internal(InternalError::ContextIndexOob)));
    assert_eq!(descendants(CHAIN, 0), Ok(0xffff_fffe));
    assert_eq!(validate(CHAIN), Ok(()));
}

#[test]
fn refusals_have_their_numbers() {
    assert_eq!(
        Refusal::Validation(ValidationError::VersionMismatch).numbers(),
        (0x0300_0000, 0x1a)
    );
    assert_eq!(Refusal::Added(AddedError::WalkLoops).numbers(), (0x0400_0000, 2));
    assert_eq!(Refusal::from_word(0x91 << 32), Err(Refusal::MaxTcis));
    assert_eq!(
        Refusal::from_word(0x0300_0000 << 32),
        Err(Refusal::Validation(ValidationError::MultipleNormalConnectedComponents))
    );
}
