// Two clients and a server in one process play the trial program's input of document 01 and print its nine lines.
// Build and run: sh examples/rust.sh
mod cop {
    // include/cop.h says what each number is, and what the caller owes.
    #[repr(C)]
    pub struct Said {
        pub what: u32,
        pub number: u32,
        pub first: u32,
        pub second: i32,
    }

    #[repr(C)]
    pub struct Operation {
        count: u32,
        kind: u8,
        cell: u8,
        amount: u8,
        last: u8,
    }

    #[repr(C)]
    pub struct Cells {
        values: [u8; 16],
        temps: [i8; 16],
    }

    #[repr(C)]
    pub struct Replica {
        number: u8,
        keys: [u8; 256],
        count: u32,
        current: Operation,
        confirmed: u32,
        held: u32,
        chain: [u8; 1056],
        statuses: [u8; 32],
        cells: Cells,
        halt: u8,
    }

    #[repr(C)]
    pub struct Server {
        placed: u32,
        passed: u32,
        counts: [u32; 8],
        items: [u8; 1312],
        statuses: [u8; 32],
        digests: [u8; 1024],
        tags: [u8; 1024],
    }

    #[repr(C)]
    pub struct Opened {
        pub replica: Replica,
        pub said: Said,
    }

    use std::mem::size_of;
    const _: () = assert!(
        size_of::<Replica>() == 1404 && size_of::<Server>() == 3432 && size_of::<Opened>() == 1420
    );

    mod c {
        use super::*;
        extern "C" {
            pub fn cop_open(number: u8, keys: *const u8, keys_n: usize) -> Opened;
            pub fn cop_invoke(
                r: *mut Replica,
                kind: u8,
                cell: u8,
                amount: u8,
                last: u8,
                out: *mut u8,
                out_n: usize,
            ) -> Said;
            pub fn cop_receive(
                r: *mut Replica,
                m: *const u8,
                m_n: usize,
                out: *mut u8,
                out_n: usize,
            ) -> Said;
            pub fn cop_fresh_server() -> Server;
            pub fn cop_serve(
                s: *mut Server,
                line: u8,
                m: *const u8,
                m_n: usize,
                out: *mut u8,
                out_n: usize,
            ) -> Said;
        }
    }

    // Rust's own references give what each call asks of its pointers.
    pub fn open(number: u8, keys: &[u8]) -> Opened {
        unsafe { c::cop_open(number, keys.as_ptr(), keys.len()) }
    }
    pub fn invoke(
        r: &mut Replica,
        kind: u8,
        cell: u8,
        amount: u8,
        last: u8,
        out: &mut [u8],
    ) -> Said {
        unsafe { c::cop_invoke(r, kind, cell, amount, last, out.as_mut_ptr(), out.len()) }
    }
    pub fn receive(r: &mut Replica, m: &[u8], out: &mut [u8]) -> Said {
        unsafe { c::cop_receive(r, m.as_ptr(), m.len(), out.as_mut_ptr(), out.len()) }
    }
    pub fn fresh_server() -> Server {
        unsafe { c::cop_fresh_server() }
    }
    pub fn serve(s: &mut Server, line: u8, m: &[u8], out: &mut [u8]) -> Said {
        unsafe { c::cop_serve(s, line, m.as_ptr(), m.len(), out.as_mut_ptr(), out.len()) }
    }
}

use cop::Said;
use std::collections::VecDeque;

const HALTED: u32 = 1;
const OPENED: u32 = 2;
const INVOKED: u32 = 3;
const RESPONDED: u32 = 4;
const ABORTED: u32 = 5;
const CONFIRMED: u32 = 6;
const PLACED: u32 = 7;
const BROADCAST: u32 = 8;

struct World {
    vans: Vec<cop::Replica>, // client 1 first
    server: cop::Server,
    lines: Vec<VecDeque<Vec<u8>>>, // from the server to each client
}

impl World {
    // The server takes a message of a client at once; what it writes goes to the line ends.
    fn serve(&mut self, van: usize, m: &[u8]) -> Said {
        let mut out = [0u8; 2560];
        let s = cop::serve(&mut self.server, van as u8, m, &mut out);
        match s.what {
            PLACED => self.lines[van - 1].push_back(out[..3 + 41 * out[2] as usize].to_vec()),
            BROADCAST => {
                for b in out.chunks(80).take(s.first as usize) {
                    self.lines.iter_mut().for_each(|l| l.push_back(b.to_vec()));
                }
            }
            _ => {}
        }
        s
    }

    fn invoke(&mut self, van: usize, kind: u8, cell: u8, amount: u8) -> Said {
        let mut out = [0u8; 43];
        // the last byte: 0 in every kind but 5
        let s = cop::invoke(&mut self.vans[van - 1], kind, cell, amount, 0, &mut out);
        if s.what == INVOKED {
            self.serve(van, &out)
        } else {
            s
        }
    }

    fn deliver(&mut self, van: usize) -> Option<Said> {
        let mut out = [0u8; 80];
        let s = cop::receive(
            &mut self.vans[van - 1],
            self.lines[van - 1].front()?,
            &mut out,
        );
        if s.number == 0 {
            self.lines[van - 1].pop_front();
        }
        if s.what == RESPONDED || s.what == ABORTED {
            self.serve(van, &out);
        }
        Some(s)
    }
}

fn text(s: Option<Said>) -> String {
    match s {
        None => "empty".to_string(),
        Some(s) => match s.what {
            PLACED => format!("placed {}", s.first),
            RESPONDED => format!("answer {} {}", s.first, s.second),
            ABORTED => format!("aside {}", s.first),
            CONFIRMED => format!("confirm {} {}", s.first, s.second),
            HALTED => format!("halt {}", s.number),
            _ => format!("no {}", s.number),
        },
    }
}

fn main() {
    let input = [
        "I 1 4 0 7",
        "D 1",
        "D 1",
        "D 2",
        "I 2 1 0 3",
        "I 1 2 0 5",
        "D 1",
        "I 1 2 0 4",
        "D 1",
    ];
    let keys: Vec<u8> = (0..256).map(|i| (i / 32 + 1) as u8).collect(); // van j's key is 32 bytes of value j; real ones are random
    let open = |number| {
        let o = cop::open(number, &keys);
        assert_eq!(o.said.what, OPENED);
        o.replica
    };
    let mut world = World {
        vans: vec![open(1), open(2)],
        server: cop::fresh_server(),
        lines: vec![VecDeque::new(); 2],
    };
    for (i, line) in input.iter().enumerate() {
        let n: Vec<u8> = line
            .split(' ')
            .skip(1)
            .map(|w| w.parse().unwrap())
            .collect();
        let van = n[0] as usize;
        let said = if line.starts_with('I') {
            Some(world.invoke(van, n[1], n[2], n[3]))
        } else {
            world.deliver(van)
        };
        println!("{} {} {}", i + 1, van, text(said));
    }
}
