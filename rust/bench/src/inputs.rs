//! The bytes that are decoded or carried out: many short inputs, one behind the other in memory.

use compare::encoding::Shape;
use compare::form::Form;
use compare::random::Random;

pub struct Inputs {
    pub name: &'static str,
    bytes: Vec<u8>,
    ends: Vec<usize>,
}

impl Inputs {
    pub fn new(name: &'static str) -> Inputs {
        Inputs {
            name,
            bytes: Vec::new(),
            ends: Vec::new(),
        }
    }

    pub fn push(&mut self, code: &[u8]) {
        self.bytes.extend_from_slice(code);
        self.ends.push(self.bytes.len());
    }

    pub fn len(&self) -> usize {
        self.ends.len()
    }

    pub fn iter(&self) -> impl Iterator<Item = &[u8]> + Clone {
        let starts = std::iter::once(0).chain(self.ends.iter().copied());
        starts
            .zip(&self.ends)
            .map(|(start, &end)| &self.bytes[start..end])
    }

    /// Instructions that every feature together accepts.
    pub fn accepted(count: usize) -> Inputs {
        let mut random = Random::new(1);
        let mut inputs = Inputs::new("accepted");
        for _ in 0..count {
            inputs.push(&any_shape(&mut random));
        }
        inputs
    }

    /// The same with a memory operand.
    pub fn memory(count: usize) -> Inputs {
        let mut random = Random::new(1);
        let mut shapes = Shape::all();
        shapes.retain(|shape| shape.memory);
        let mut inputs = Inputs::new("memory");
        for _ in 0..count {
            inputs.push(&random.pick(&shapes).encode(&mut random));
        }
        inputs
    }

    /// Accepted, with a bit flipped, truncated, and random bytes behind a prefix, in turn.
    pub fn mixed(count: usize) -> Inputs {
        let mut random = Random::new(2);
        let mut inputs = Inputs::new("mixed");
        for i in 0..count {
            let mut code = any_shape(&mut random);
            match i % 4 {
                0 => {}
                1 => code[1 + random.below(3)] ^= 1 << random.below(8),
                2 => code.truncate(random.below(code.len())),
                _ => code[1..].fill_with(|| random.byte()),
            }
            inputs.push(&code);
        }
        inputs
    }

    /// One form alone, so that every branch is predicted: VPSHUFD of 512-bit registers, without an
    /// opmask. Registers and immediates are random.
    pub fn one_form(count: usize) -> Inputs {
        let mut random = Random::new(9);
        let is_wanted = |form: &Form| {
            let plain = !form.shape.memory && !form.masked;
            form.shape.row.name == "VPSHUFD" && form.bytes() == 64 && plain
        };
        let forms: Vec<_> = Form::all().into_iter().filter(is_wanted).collect();
        assert_eq!(forms.len(), 1, "forms of the input");
        let mut inputs = Inputs::new("one form");
        for _ in 0..count {
            inputs.push(&forms[0].encode(&mut random));
        }
        inputs
    }
}

fn any_shape(random: &mut Random) -> Vec<u8> {
    let shapes = Shape::all();
    shapes[random.below(shapes.len())].encode(random)
}
