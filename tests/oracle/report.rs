//! One line a comparison, and the count of those that hold.

#[derive(Default)]
pub struct Report {
    pub passed: u64,
    pub failed: u64,
}

/// What a comparison hands each case to.
pub type Cases<'a> = &'a mut dyn FnMut(bool, &dyn Fn() -> String);

/// How many differences of one comparison are shown.
const SHOWN: u64 = 5;

impl Report {
    /// Runs one comparison. `body` gets a function to hand each case to: whether it agrees, and how
    /// to describe it where it does not.
    pub fn compare(&mut self, name: &str, body: impl FnOnce(&mut dyn FnMut(bool, &dyn Fn() -> String))) {
        let mut compared = 0u64;
        let mut differ = 0u64;
        body(&mut |agrees, describe| {
            compared += 1;
            if !agrees {
                differ += 1;
                if differ <= SHOWN {
                    println!("  {name}: {}", describe());
                }
            }
        });
        println!("{name}: {compared} compared, {differ} differ");
        if differ == 0 && compared > 0 {
            self.passed += 1;
        } else {
            self.failed += 1;
        }
    }

    /// The last line, and the end of the program.
    pub fn end(self) -> ! {
        println!("{} passed, {} failed", self.passed, self.failed);
        std::process::exit((self.failed > 0) as i32)
    }
}

/// NaN is compared as NaN, other floats by bits.
pub fn same(a: f64, b: f64) -> bool {
    a.to_bits() == b.to_bits() || (a.is_nan() && b.is_nan())
}
