//! Makes the calls of a benchmark's script on objects with counted references. It knows no refusals, and `end` only pops the
//! epoch, so it answers `ok` where yak tells what was moved.
use std::cell::RefCell;
use std::io::{Read, Write};
use std::rc::Rc;

#[derive(Clone)]
struct Object(Rc<RefCell<Vec<Option<Object>>>>);

fn object(fields: usize) -> Object {
    Object(Rc::new(RefCell::new(vec![None; fields])))
}

fn main() {
    let mut text = String::new();
    std::io::stdin().read_to_string(&mut text).unwrap();
    let mut stack = vec![Some(object(16))];
    let mut depth = 0;
    let mut out = String::new();
    for (i, line) in text.lines().enumerate().skip(1) {
        let mut words = line.split_ascii_whitespace().skip(1);
        let command = words.next().unwrap();
        let mut number = || words.next().unwrap().parse::<usize>().unwrap();
        match command {
            "new" => {
                let fields = number();
                stack.push(Some(object(fields)));
            }
            "store" => {
                let (s, f, x) = (number(), number(), number());
                let value = stack[x].clone();
                stack[s].as_ref().unwrap().0.borrow_mut()[f] = value;
            }
            "pop" => drop(stack.pop()),
            "begin" => depth += 1,
            "end" => depth -= 1,
            _ => panic!("line {}: {command}", i + 1),
        }
        out.push_str(&format!("{} ok\n", i + 1));
    }
    assert!(depth == 0);
    std::io::stdout().write_all(out.as_bytes()).unwrap();
}
