//! The stack that each call of the library takes (`compare::stack`).

use crate::requests::{self, Request};
use compare::library::{self, CLOSED, FULL, LABELS, MAXIMAL, PAGE};
use compare::model;
use compare::shapes;
use compare::stack::Stack;

/// More than any call takes.
const BYTES: usize = 4 << 20;

/// Patterns are the first so many forms of a list.
const MOST_FORMS: usize = 300;

/// No list takes more pages than these.
const MOST_PAGES: usize = 1000;

/// What the calls are given: a request, its sheet, the trees of its fleet, its register, and forms of its list.
struct Input {
    request: Request,
    sheet: Vec<u8>,
    trees: Vec<Vec<u16>>,
    register: model::Register,
    forms: Vec<Vec<u16>>,
}

impl Input {
    fn register(&self) -> library::Register<'_> {
        library::Register { nodes: &self.register.nodes, holders: &self.register.holders }
    }

    fn at_profiles(&self) -> [library::Request; 3] {
        [FULL, CLOSED, MAXIMAL].map(|profile| self.request.at(profile).asked())
    }
}

fn input(request: Request) -> Input {
    let mut forms: Vec<Vec<u16>> = vec![];
    let mut output = [0; 16];
    let mut answer = library::start(&request.fleet, request.asked(), &mut output);
    while answer > 0 && forms.len() < MOST_FORMS {
        let form = output[..answer as usize % 100].to_vec();
        answer = library::step(&request.fleet, request.asked(), &form, &mut output);
        forms.push(form);
    }
    let fleet = &request.fleet;
    Input { sheet: model::bytes_of(fleet), trees: model::vehicles(fleet), register: model::Register::of(fleet), forms, request }
}

/// Makes calls of one kind on the stack.
type Calls = fn(&Input, &mut Stack);

const CALLS: [(&str, Calls); 15] = [
    ("read", |input, stack| {
        let mut output = [0; 4096];
        stack.run(|| assert!(library::read(&input.sheet, &mut output) > 0));
    }),
    ("write", |input, stack| {
        let mut output = [0; 16388];
        stack.run(|| assert!(library::write(&input.request.fleet, &mut output) > 0));
    }),
    ("vehicle", |input, stack| stack.run(|| assert!(library::vehicle(&input.request.fleet, input.trees.len()) > 0))),
    ("form", |input, stack| {
        let mut output = [0; 256];
        input.trees.iter().for_each(|tree| stack.run(|| assert!(library::form(tree, &mut output) > 0)));
    }),
    ("support", |input, stack| {
        input.forms.iter().for_each(|form| stack.run(|| assert!(library::support(&input.request.fleet, form) > 0)));
    }),
    ("place", |input, stack| {
        let mut output = [0; 16];
        input.forms.iter().for_each(|form| stack.run(|| assert!(library::place(&input.request.fleet, 1, form, &mut output) >= 0)));
    }),
    ("start", |input, stack| {
        let mut output = [0; 16];
        for asked in input.at_profiles() {
            stack.run(|| assert!(library::start(&input.request.fleet, asked, &mut output) >= 0));
        }
    }),
    ("step", |input, stack| {
        let mut output = [0; 16];
        for asked in input.at_profiles() {
            input.forms.iter().for_each(|form| stack.run(|| assert!(library::step(&input.request.fleet, asked, form, &mut output) >= 0)));
        }
    }),
    ("batch", |input, stack| {
        let (mut output, mut found) = ([0; 16 * 1024], [0; 1024]);
        for asked in input.at_profiles() {
            stack.run(|| assert!(library::batch(&input.request.fleet, asked, &[], &mut output, &mut found) >= 0));
        }
    }),
    ("pages", |input, stack| {
        let mut output = vec![0; MOST_PAGES * PAGE];
        for asked in input.at_profiles() {
            stack.run(|| assert!(library::pages(&input.request.fleet, asked, &mut output) > 0));
        }
    }),
    ("register", |input, stack| {
        let (mut nodes, mut holders) = ([0; LABELS], [0; LABELS]);
        stack.run(|| assert!(library::register(&input.request.fleet, &mut nodes, &mut holders) > 0));
    }),
    ("swap", |input, stack| {
        let (mut buffer, mut register) = (input.request.fleet.clone(), input.register.clone());
        let used = buffer.len();
        for (i, tree) in input.trees.iter().enumerate() {
            stack.run(|| assert!(library::swap(&mut buffer, used, i + 1, tree, &mut register.nodes, &mut register.holders) > 0));
        }
    }),
    ("start +", |input, stack| {
        let mut output = [0; 16];
        for asked in input.at_profiles() {
            stack.run(|| assert!(library::start_with_register(&input.request.fleet, input.register(), asked, &mut output) >= 0));
        }
    }),
    ("step +", |input, stack| {
        let (mut output, fleet) = ([0; 16], &input.request.fleet);
        for (asked, form) in input.at_profiles().into_iter().flat_map(|asked| input.forms.iter().map(move |form| (asked, form))) {
            stack.run(|| assert!(library::step_with_register(fleet, input.register(), asked, form, &mut output) >= 0));
        }
    }),
    ("batch +", |input, stack| {
        let (mut output, mut found, fleet) = ([0; 16 * 1024], [0; 1024], &input.request.fleet);
        for asked in input.at_profiles() {
            stack.run(|| assert!(library::batch_with_register(fleet, input.register(), asked, &[], &mut output, &mut found) >= 0));
        }
    }),
];

/// Tables, Markdown as in docs/BENCHMARKS.md.
pub fn run() {
    all_calls();
    form_by_size();
}

fn all_calls() {
    let example = model::parse_fleet(include_str!("../../examples/document-01.txt"));
    let document = Request::new("document 01", example, 2, 3);
    let inputs: Vec<Input> = [document, requests::nineteen(200, 6, 8)].into_iter().chain(requests::hard()).map(input).collect();
    println!("Bytes of stack, the most of each kind of call; patterns are the first {MOST_FORMS} forms of each list, a batch has up to 1,024;");
    println!("list calls are made at each profile, + is one with a register\n");
    println!("| {:<37} |{}", "", CALLS.map(|(name, _)| format!(" {name:>8} |")).concat());
    println!("|{}|{}", "-".repeat(39), "---------:|".repeat(CALLS.len()));
    let mut most = [0; CALLS.len()];
    for input in &inputs {
        let used = CALLS.map(|(_, calls)| {
            let mut stack = Stack::painted(BYTES);
            calls(input, &mut stack);
            stack.used()
        });
        most.iter_mut().zip(used).for_each(|(most, used)| *most = used.max(*most));
        row(&input.request.name, used);
    }
    row("the most", most);
}

fn row(name: &str, bytes: [usize; CALLS.len()]) {
    println!("| {name:<37} |{}", bytes.map(|bytes| format!(" {bytes:>8} |")).concat());
}

fn form_by_size() {
    println!("\nBytes of stack that a form takes, the least and the most of all shapes of so many nodes\n");
    println!("| {:>5} | {:>6} | {:>5} | {:>5} |", "nodes", "shapes", "least", "most");
    println!("|------:|-------:|------:|------:|");
    let stack = &mut Stack::painted(BYTES);
    for nodes in shapes::SIZES {
        let trees = shapes::all(nodes).into_iter().map(|shape| shape.tree).filter(|tree| tree.len() == nodes);
        let taken: Vec<usize> = trees.map(|tree| taken_by_form(stack, &tree)).collect();
        let (least, most) = (taken.iter().min().unwrap(), taken.iter().max().unwrap());
        println!("| {nodes:>5} | {:>6} | {least:>5} | {most:>5} |", taken.len());
    }
}

fn taken_by_form(stack: &mut Stack, tree: &[u16]) -> usize {
    let mut output = [0; 256];
    stack.taken(|| assert!(library::form(tree, &mut output) > 0))
}
