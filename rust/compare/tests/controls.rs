//! The controls that request 1 names, in every lane of every form: a step of the library takes what
//! the control says, and leaves the same bytes as one of the reference.

use compare::form::Form;
use compare::random::Random;
use compare::stepping::{Case, Comparison};
use compare::tally::Table;

const LEAST: u64 = 20_000;

/// A control, and the element of its own lane that it takes; none is a zero.
type Control = (u8, Option<usize>);

const VPSHUFB: [Control; 6] = [
    (0x00, Some(0)),
    (0x0F, Some(15)),
    (0x10, Some(0)),
    (0x7F, Some(15)),
    (0x80, None),
    (0xFF, None),
];

const VPERMILPS: [Control; 8] = [
    (0, Some(0)),
    (1, Some(1)),
    (2, Some(2)),
    (3, Some(3)),
    (4, Some(0)),
    (5, Some(1)),
    (6, Some(2)),
    (7, Some(3)),
];

/// The instruction, the operand that its control is in, and which of its forms have that.
type Kind = (&'static str, &'static str, fn(Form) -> bool);

const KINDS: [Kind; 5] = [
    ("VPSHUFB", "register", is_register),
    ("VPSHUFB", "memory", is_memory),
    ("VPERMILPS", "register", is_register),
    ("VPERMILPS", "memory", is_memory),
    ("VPERMILPS", "broadcast", |form| form.broadcast),
];

fn is_register(form: Form) -> bool {
    !form.shape.memory
}

fn is_memory(form: Form) -> bool {
    form.shape.memory && !form.broadcast
}

#[test]
fn library_agrees_with_reference() {
    let mut random = Random::new(1);
    let mut table = Table::new("compared controls", &[0]);
    for (name, operand, has_operand) in KINDS {
        let controls = match name {
            "VPSHUFB" => &VPSHUFB[..],
            _ => &VPERMILPS,
        };
        let is_kind = |form: &Form| {
            form.shape.row.name == name && form.has_register_control() && has_operand(*form)
        };
        let mut comparison = Comparison::default();
        for form in Form::all().into_iter().filter(is_kind) {
            for &control in controls {
                check_control(&mut comparison, form, control, &mut random);
            }
        }
        table.line(&format!("{name}, {operand}"), comparison.counts);
    }
    table.finish(LEAST);
}

/// Under an opmask with all bits, none and some, and with a destination that is another register, the
/// first source, or the control.
fn check_control(comparison: &mut Comparison, form: Form, control: Control, random: &mut Random) {
    let opmasks = [u64::MAX, 0, random.number()];
    let opmasks = if form.masked { &opmasks[..] } else { &[0] };
    for &opmask in opmasks {
        for destination in [1, 2, 3] {
            let step = Step::new(form, destination, opmask, random);
            step.check_lanes(comparison, control);
        }
    }
}

/// A step from register 2, with its control in register 3 or in memory.
struct Step {
    form: Form,
    destination: u8,
    opmask: u64,
    case: Case,
}

impl Step {
    fn new(form: Form, destination: u8, opmask: u64, random: &mut Random) -> Step {
        let shape = form.shape;
        let mut code = form.encode(random);
        shape.set_destination(&mut code, destination);
        shape.set_first(&mut code, 2);
        if !shape.memory {
            shape.set_third(&mut code, 3);
        }
        if form.masked {
            shape.set_mask(&mut code, 4, form.zeroing);
        }
        let mut case = Case::new(random);
        case.set_code(code, form.memory(), random);
        case.masks[4] = opmask;
        Step {
            form,
            destination,
            opmask,
            case,
        }
    }

    fn size(&self) -> usize {
        self.form.shape.row.element
    }

    /// Elements of the operand that the control is in: one for a broadcast.
    fn controls(&self) -> usize {
        if self.form.broadcast {
            return 1;
        }
        self.form.bytes() / self.size()
    }

    /// The control in all elements, in those of each lane, and in each single one. The others have
    /// random controls.
    fn check_lanes(&self, comparison: &mut Comparison, control: Control) {
        let count = self.controls();
        let in_lane = 16 / self.size();
        self.check(comparison, control, 0..count);
        if count == 1 {
            return;
        }
        for start in (0..count).step_by(in_lane) {
            self.check(comparison, control, start..start + in_lane);
        }
        for j in 0..count {
            self.check(comparison, control, j..j + 1);
        }
    }

    fn check(
        &self,
        comparison: &mut Comparison,
        (control, taken): Control,
        elements: std::ops::Range<usize>,
    ) {
        let mut case = self.case.clone();
        let operand = if self.form.shape.memory {
            &mut case.memory[..]
        } else {
            &mut case.file[3 * 64..]
        };
        for j in elements.clone() {
            operand[j * self.size()] = control;
        }
        assert_eq!(comparison.check(&case), 0, "the generator made\n{case}");
        let governed = if self.form.broadcast {
            0..self.form.bytes() / self.size()
        } else {
            elements
        };
        for j in governed {
            let expected = self.expected(&case, j, taken);
            let start = 64 * usize::from(self.destination) + j * self.size();
            let found = &comparison.file()[start..start + self.size()];
            assert_eq!(found, expected, "element {j} of\n{case}");
        }
    }

    /// Element `j` of the destination.
    fn expected<'a>(&self, case: &'a Case, j: usize, taken: Option<usize>) -> &'a [u8] {
        const ZEROS: [u8; 16] = [0; 16];
        let size = self.size();
        let element = |register: usize, j: usize| &case.file[64 * register + j * size..][..size];
        let is_open = !self.form.masked || self.opmask >> j & 1 == 1;
        let lane = j - j % (16 / size);
        match (is_open, taken) {
            (true, Some(k)) => element(2, lane + k),
            (true, None) => &ZEROS[..size],
            (false, _) if self.form.zeroing => &ZEROS[..size],
            (false, _) => element(self.destination.into(), j),
        }
    }
}
