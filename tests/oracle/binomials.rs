//! Binomial coefficients as whole numbers of any size: in words of 64 bits, the lowest first and the highest not 0.

/// m over 1, times m - 1 over 2, and so on: each division leaves no rest.
fn binomial(m: u64, w: u64) -> Vec<u64> {
    let mut n = vec![1];
    for i in 0..w {
        let mut carry = 0;
        for word in &mut n {
            carry += *word as u128 * (m - i) as u128;
            *word = carry as u64;
            carry >>= 64;
        }
        n.push(carry as u64);
        let mut rest = 0;
        for word in n.iter_mut().rev() {
            let part = (rest as u128) << 64 | *word as u128;
            *word = (part / (i + 1) as u128) as u64;
            rest = (part % (i + 1) as u128) as u64;
        }
        assert_eq!(rest, 0, "{m} over {w}");
        cut(&mut n);
    }
    n
}

fn cut(n: &mut Vec<u64>) {
    while n.last() == Some(&0) {
        n.pop();
    }
}

/// The whole number that a float is, where it is one above 0.
fn whole(x: f64) -> Option<Vec<u64>> {
    if !(x >= 1.0 && x.is_finite()) {
        return None;
    }
    let power = (x.to_bits() >> 52) as i32 - 1075;
    let fraction = x.to_bits() << 12 >> 12 | 1 << 52;
    if power < 0 {
        return (fraction.trailing_zeros() as i32 >= -power).then(|| vec![fraction >> -power]);
    }
    let mut n = vec![0; power as usize / 64];
    let wide = (fraction as u128) << (power % 64);
    n.extend([wide as u64, (wide >> 64) as u64]);
    cut(&mut n);
    Some(n)
}

/// Document 02, order 6: does the float equal the whole-number binomial exactly? Those for w ≤ 0 and m < w count as exact.
pub fn exact(x: f64, m: i64, w: i64) -> bool {
    w <= 0 || m < w || whole(x) == Some(binomial(m as u64, w as u64))
}
