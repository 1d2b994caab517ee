//! The stack that calls take, by painting: they run on memory of ours whose bytes are set beforehand, and those from the lowest changed one
//! up are what they took. The frame that makes the call, some tens of bytes, is counted too.

use std::arch::asm;

/// Two, since what a call writes may be of the one colour by chance.
const PAINTS: [u8; 2] = [0xa5, 0x5a];

pub struct Stack {
    bytes: Vec<u8>,
    paint: u8,
}

impl Stack {
    /// Of so many bytes, which have to be more than any call takes.
    pub fn painted(bytes: usize) -> Stack {
        let paint = PAINTS[0];
        Stack { bytes: vec![paint; bytes], paint }
    }

    pub fn run(&mut self, mut call: impl FnMut()) {
        let mut call: &mut dyn FnMut() = &mut call;
        let top = self.bytes.as_mut_ptr_range().end as usize & !15;
        // Safe: the memory is ours and larger than any call needs (if not, `used` says so afterwards); r12 is kept by whoever is called.
        unsafe {
            asm!(
                "xchg rsp, r12",
                "call {enter}",
                "mov rsp, r12",
                enter = sym enter,
                in("rdi") &mut call,
                inout("r12") top => _,
                clobber_abi("C"),
            );
        }
    }

    /// The most bytes that a call has taken.
    pub fn used(&self) -> usize {
        assert_eq!(self.bytes[0], self.paint, "the memory is too small");
        self.bytes.len() - self.bytes.iter().position(|&byte| byte != self.paint).unwrap_or(self.bytes.len())
    }

    /// The bytes that this call takes; it is made once on each paint.
    pub fn taken(&mut self, mut call: impl FnMut()) -> usize {
        let on = |paint| {
            self.paint = paint;
            self.bytes.fill(paint);
            self.run(&mut call);
            self.used()
        };
        PAINTS.map(on).into_iter().max().expect("two paints")
    }
}

extern "C" fn enter(call: &mut &mut dyn FnMut()) {
    call()
}
