//! Stand-in for the description of a run and for the drivers that walk it.
//!
//! A separator is a list of byte strings, each observed by one call: the version byte, the
//! protocol's name, one string for each step, one for each instance. A driver observes them when
//! it is made, then plays the steps in order and stops the run at any other.

use core::marker::PhantomData;

use p3_field::{ExtensionField, Field, Residue};

use crate::{
    ByteSponge, CanObserve, CanSampleUniformBits, GrindingChallenger, draw_element, observe_element,
};

/// A base field whose elements are drawn from words and observed as bytes.
pub trait TranscriptField: Field + ExtensionField<Self> {
    fn from_word(word: u32) -> Self;
    fn to_bytes(self) -> [u8; 4];
}

impl<const P: u32> TranscriptField for Residue<P> {
    fn from_word(word: u32) -> Self {
        Self::new(word)
    }

    fn to_bytes(self) -> [u8; 4] {
        self.value().to_le_bytes()
    }
}

/// What a sponge's alphabet is.
pub trait Unit {}

/// The alphabet of a sponge over a base field.
#[derive(Clone, Copy, Debug)]
pub struct FieldUnit<F>(PhantomData<F>);

impl<F> Unit for FieldUnit<F> {}

/// How field elements reach a sponge over the same field.
#[derive(Clone, Copy, Debug)]
pub struct FieldToFieldCodec<F>(PhantomData<F>);

/// A value that the sponge has met.
#[derive(Clone, Copy, Debug)]
pub struct TranscriptBound<T>(T);

impl<T> TranscriptBound<T> {
    pub fn into_inner(self) -> T {
        self.0
    }
}

#[derive(Clone, Copy, Debug, PartialEq, Eq)]
pub enum Hierarchy {
    Begin = 0,
    End = 1,
    Atomic = 2,
}

#[derive(Clone, Copy, Debug, PartialEq, Eq)]
pub enum Kind {
    Message = 0,
    Challenge = 1,
    Pow = 2,
    Protocol = 3,
}

#[derive(Clone, Copy, Debug, PartialEq, Eq)]
pub enum Length {
    Scalar,
    Fixed(usize),
}

/// What a step carries.
#[derive(Clone, Copy, Debug, PartialEq, Eq)]
enum Carried {
    Marker = 0,
    Opaque = 1,
    Base = 2,
    Extension = 3,
    Bits = 4,
}

/// One step of a run.
#[derive(Clone, Debug, PartialEq, Eq)]
pub struct Interaction {
    hierarchy: Hierarchy,
    kind: Kind,
    carried: Carried,
    width: usize,
    length: Length,
    label: &'static str,
}

impl Interaction {
    /// A bracket's opener or closer.
    pub fn marker<T: ?Sized>(hierarchy: Hierarchy, kind: Kind, label: &'static str) -> Self {
        Self::made(hierarchy, kind, Carried::Marker, 0, Length::Scalar, label)
    }

    /// A value whose bytes are another layer's business.
    pub fn opaque(hierarchy: Hierarchy, kind: Kind, label: &'static str, length: Length) -> Self {
        Self::made(hierarchy, kind, Carried::Opaque, 0, length, label)
    }

    /// Elements of `EF`: of the base field, or of an extension with its degree.
    pub fn algebra<F: TranscriptField, EF: ExtensionField<F>>(
        hierarchy: Hierarchy,
        kind: Kind,
        label: &'static str,
        length: Length,
    ) -> Self {
        if EF::IS_BASE {
            Self::made(hierarchy, kind, Carried::Base, 0, length, label)
        } else {
            Self::made(
                hierarchy,
                kind,
                Carried::Extension,
                EF::DEGREE,
                length,
                label,
            )
        }
    }

    /// Numbers of `bits` bits.
    pub fn uniform_bits(
        hierarchy: Hierarchy,
        kind: Kind,
        label: &'static str,
        bits: usize,
        length: Length,
    ) -> Self {
        Self::made(hierarchy, kind, Carried::Bits, bits, length, label)
    }

    const fn made(
        hierarchy: Hierarchy,
        kind: Kind,
        carried: Carried,
        width: usize,
        length: Length,
        label: &'static str,
    ) -> Self {
        Self {
            hierarchy,
            kind,
            carried,
            width,
            length,
            label,
        }
    }

    /// Byte 0, hierarchy, kind, type, width and length as eight bytes big-endian, label.
    fn bytes(&self) -> Vec<u8> {
        let length = match self.length {
            Length::Scalar => 0,
            Length::Fixed(length) => length as u64,
        };
        let mut bytes = vec![0, self.hierarchy as u8, self.kind as u8, self.carried as u8];
        bytes.extend((self.width as u64).to_be_bytes());
        bytes.extend(length.to_be_bytes());
        bytes.extend(self.label.as_bytes());
        bytes
    }
}

/// The steps of a run, every bracket closed.
#[derive(Clone, Debug, PartialEq, Eq)]
pub struct InteractionPattern(Vec<Interaction>);

impl InteractionPattern {
    /// # Errors
    ///
    /// The label of a bracket that is not closed, or is closed under another label.
    pub fn new(steps: Vec<Interaction>) -> Result<Self, &'static str> {
        let mut open = Vec::new();
        for step in &steps {
            match step.hierarchy {
                Hierarchy::Begin => open.push(step.label),
                Hierarchy::End if open.pop() != Some(step.label) => return Err(step.label),
                Hierarchy::End | Hierarchy::Atomic => {}
            }
        }
        open.pop().map_or(Ok(Self(steps)), Err)
    }
}

/// Version, name, steps and instances of a run.
#[derive(Clone, Debug)]
pub struct DomainSeparator<U> {
    version: u8,
    name: Vec<u8>,
    pattern: InteractionPattern,
    instances: Vec<Vec<u8>>,
    _unit: PhantomData<U>,
}

impl<U: Unit> DomainSeparator<U> {
    pub fn new(version: u8, name: &[u8], pattern: InteractionPattern) -> Self {
        Self {
            version,
            name: name.to_vec(),
            pattern,
            instances: Vec::new(),
            _unit: PhantomData,
        }
    }

    /// One further instance.
    pub fn instance(&mut self, bytes: &[u8]) -> &mut Self {
        self.instances.push(bytes.to_vec());
        self
    }

    /// The byte strings that are observed, in order.
    pub fn pieces(&self) -> Vec<Vec<u8>> {
        let mut pieces = vec![vec![self.version], self.name.clone()];
        pieces.extend(self.pattern.0.iter().map(Interaction::bytes));
        pieces.extend(self.instances.iter().map(|instance| {
            let mut bytes = vec![1];
            bytes.extend((instance.len() as u64).to_be_bytes());
            bytes.extend(instance);
            bytes
        }));
        pieces
    }
}

/// Walks a description. Leaving it unfinished, unless by `abort`, stops the run.
#[derive(Debug)]
struct Driver {
    steps: Vec<Interaction>,
    played: usize,
    released: bool,
}

impl Driver {
    fn new<U: Unit, C: ByteSponge>(challenger: &mut C, separator: &DomainSeparator<U>) -> Self {
        for piece in separator.pieces() {
            challenger.observe_bytes(&piece);
        }
        Self {
            steps: separator.pattern.0.clone(),
            played: 0,
            released: false,
        }
    }

    fn play(&mut self, step: &Interaction) {
        assert!(!self.released, "a step after the end of the run");
        assert_eq!(
            self.steps.get(self.played),
            Some(step),
            "a step that the run does not describe here"
        );
        self.played += 1;
    }

    fn finish(&mut self) {
        self.released = true;
        assert_eq!(self.played, self.steps.len(), "steps left unplayed");
    }
}

impl Drop for Driver {
    fn drop(&mut self) {
        if !self.released && !std::thread::panicking() {
            panic!("a run was left open");
        }
    }
}

/// Steps that both sides play alike.
pub trait SymmetricSteps {
    type Challenger: ByteSponge;

    /// Plays a step and lends the sponge for it.
    #[doc(hidden)]
    fn play(&mut self, step: &Interaction) -> &mut Self::Challenger;

    /// Draws `count` numbers of `bits` bits.
    fn challenge_uniform_bits<F>(
        &mut self,
        label: &'static str,
        bits: usize,
        count: usize,
    ) -> Vec<TranscriptBound<usize>>
    where
        Self::Challenger: CanSampleUniformBits<F>,
    {
        let challenger = self.play(&Interaction::uniform_bits(
            Hierarchy::Atomic,
            Kind::Challenge,
            label,
            bits,
            Length::Fixed(count),
        ));
        (0..count)
            .map(|_| TranscriptBound(challenger.sample_uniform_bits(bits)))
            .collect()
    }
}

macro_rules! side {
    ($name:ident $(<$wire:lifetime>)?) => {
        impl<C: ByteSponge, U> SymmetricSteps for $name<$($wire,)? &mut C, U> {
            type Challenger = C;

            fn play(&mut self, step: &Interaction) -> &mut C {
                self.driver.play(step);
                self.challenger
            }
        }

        impl<C: ByteSponge, U: Unit> $name<$($wire,)? &mut C, U> {
            /// The sponge, lent to a delegate.
            pub fn challenger_mut(&mut self) -> &mut C {
                self.challenger
            }

            pub fn begin_protocol<T: ?Sized>(&mut self, label: &'static str) {
                self.play(&Interaction::marker::<T>(
                    Hierarchy::Begin,
                    Kind::Protocol,
                    label,
                ));
            }

            pub fn end_protocol<T: ?Sized>(&mut self, label: &'static str) {
                self.play(&Interaction::marker::<T>(
                    Hierarchy::End,
                    Kind::Protocol,
                    label,
                ));
            }

            /// A commitment, by the scheme's own bytes.
            pub fn observe_opaque<T>(&mut self, label: &'static str, value: T)
            where
                C: CanObserve<T>,
            {
                self.play(&Interaction::opaque(
                    Hierarchy::Atomic,
                    Kind::Message,
                    label,
                    Length::Scalar,
                ))
                .observe(value);
            }

            pub fn challenge_extension<F, EF, Codec>(
                &mut self,
                label: &'static str,
            ) -> TranscriptBound<EF>
            where
                F: TranscriptField,
                EF: ExtensionField<F>,
            {
                let step = Interaction::algebra::<F, EF>(
                    Hierarchy::Atomic,
                    Kind::Challenge,
                    label,
                    Length::Scalar,
                );
                TranscriptBound(draw_element::<F, EF, C>(self.play(&step)))
            }

            pub fn observe_extension<F, EF, Codec>(
                &mut self,
                label: &'static str,
                value: &EF,
            ) -> TranscriptBound<EF>
            where
                F: TranscriptField,
                EF: ExtensionField<F>,
            {
                let step = Interaction::algebra::<F, EF>(
                    Hierarchy::Atomic,
                    Kind::Message,
                    label,
                    Length::Scalar,
                );
                observe_element::<F, EF, C>(self.play(&step), value);
                TranscriptBound(*value)
            }

            /// Whether the step due here takes `count` elements.
            fn takes<F, EF>(&self, label: &'static str, count: usize) -> Option<Interaction>
            where
                F: TranscriptField,
                EF: ExtensionField<F>,
            {
                let step = Interaction::algebra::<F, EF>(
                    Hierarchy::Atomic,
                    Kind::Message,
                    label,
                    Length::Fixed(count),
                );
                (self.driver.steps.get(self.driver.played) == Some(&step)).then_some(step)
            }

            fn observe_all<F, EF>(&mut self, step: &Interaction, values: &[EF])
            where
                F: TranscriptField,
                EF: ExtensionField<F>,
            {
                let challenger = self.play(step);
                for value in values {
                    observe_element::<F, EF, C>(challenger, value);
                }
            }
        }
    };
}

/// The writer's driver. Our writer does not use it; it stands so that the crate's own writer
/// side has a meaning.
#[derive(Debug)]
pub struct ProverState<H, U> {
    challenger: H,
    driver: Driver,
    _unit: PhantomData<U>,
}

side!(ProverState);

impl<'a, C: ByteSponge, U: Unit> ProverState<&'a mut C, U> {
    pub fn new(challenger: &'a mut C, separator: &DomainSeparator<U>) -> Self {
        let driver = Driver::new(challenger, separator);
        Self {
            challenger,
            driver,
            _unit: PhantomData,
        }
    }

    pub fn observe_extensions<F, EF, Codec>(&mut self, label: &'static str, values: &[EF])
    where
        F: TranscriptField,
        EF: ExtensionField<F>,
    {
        let step = self
            .takes::<F, EF>(label, values.len())
            .expect("as many values as the run describes");
        self.observe_all::<F, EF>(&step, values);
    }

    /// Searching for a witness is not built.
    pub fn observe_pow<F: TranscriptField>(&mut self, _label: &'static str, _bits: usize) -> F {
        unimplemented!("the crate's writer is not built")
    }

    /// Ends the run; the bytes that it wrote by itself, which are none.
    pub fn finalize(mut self) -> Vec<u8> {
        self.driver.finish();
        Vec::new()
    }
}

/// The reader's driver.
#[derive(Debug)]
pub struct VerifierState<'w, H, U> {
    challenger: H,
    driver: Driver,
    wire: &'w [u8],
    _unit: PhantomData<U>,
}

side!(VerifierState<'_>);

/// A step's value is not what the run describes.
#[derive(Clone, Copy, Debug, PartialEq, Eq)]
pub struct StepFailure;

impl<'a, 'w, C: ByteSponge, U: Unit> VerifierState<'w, &'a mut C, U> {
    pub fn new(challenger: &'a mut C, separator: &DomainSeparator<U>, wire: &'w [u8]) -> Self {
        let driver = Driver::new(challenger, separator);
        Self {
            challenger,
            driver,
            wire,
            _unit: PhantomData,
        }
    }

    /// # Errors
    ///
    /// When the count is not the one described; then nothing is observed.
    pub fn observe_extensions<F, EF, Codec>(
        &mut self,
        label: &'static str,
        values: &[EF],
    ) -> Result<(), StepFailure>
    where
        F: TranscriptField,
        EF: ExtensionField<F>,
    {
        let step = self
            .takes::<F, EF>(label, values.len())
            .ok_or(StepFailure)?;
        self.observe_all::<F, EF>(&step, values);
        Ok(())
    }

    /// # Errors
    ///
    /// When the witness does not clear; it has been observed and the bits drawn all the same.
    pub fn observe_pow<F: TranscriptField>(
        &mut self,
        label: &'static str,
        bits: usize,
        witness: F,
    ) -> Result<(), StepFailure>
    where
        C: GrindingChallenger<Witness = F>,
    {
        let step =
            Interaction::algebra::<F, F>(Hierarchy::Atomic, Kind::Pow, label, Length::Fixed(bits));
        let cleared = self.play(&step).check_witness(bits, witness);
        cleared.then_some(()).ok_or(StepFailure)
    }

    /// Ends the run before its last step.
    pub fn abort(&mut self) {
        self.driver.released = true;
    }

    /// # Errors
    ///
    /// When bytes of the wire are left unread.
    pub fn finalize(mut self) -> Result<(), StepFailure> {
        self.driver.finish();
        self.wire.is_empty().then_some(()).ok_or(StepFailure)
    }
}
