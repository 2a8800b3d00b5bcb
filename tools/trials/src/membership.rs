//! Whether a point lies in a zonotope with a box around it, decided exactly.

use peer::step::dot;

use crate::fraction::{sum, Fraction};

/// Whether `point` is the sum of the generators times numbers in [-1,1] and an offset within the radii.
///
/// It is exactly if no direction separates it. The width h(d) = Σ|d·g| + Σ|d_j|·r_j and d·point are
/// both linear in d on each cone cut out by the hyperplanes d·g = 0 and d_j = 0, so the edges of the
/// cones suffice; an edge is orthogonal to n-1 independent vectors among generators and axes.
pub fn contains(generators: &[Vec<i128>], radii: &[i128], point: &[Fraction]) -> bool {
    let n = radii.len();
    let axis = |j: usize| (0..n).map(|i| i128::from(i == j)).collect::<Vec<i128>>();
    let vectors: Vec<Vec<i128>> = generators.iter().cloned().chain((0..n).map(axis)).collect();
    let mut empty_product = vec![0; 1 << n];
    empty_product[0] = 1;
    all_edges(n, &vectors, &empty_product, n - 1, &mut |direction| {
        let generators: i128 = generators.iter().map(|g| dot(direction, g).abs()).sum();
        let box_width: i128 = direction.iter().zip(radii).map(|(d, r)| d.abs() * r).sum();
        let along = sum(direction.iter().zip(point).map(|(d, x)| &Fraction::from(*d) * x));
        along.abs() <= Fraction::from(generators + box_width)
    })
}

/// Whether `test` holds of every direction orthogonal to the vectors multiplied so far and `missing`
/// more of `vectors`. A product of k vectors has a k×k minor at each set of k coordinates, written as
/// a bit mask. With spans within limits all minors and widths stay below 2^124.
fn all_edges(
    n: usize,
    vectors: &[Vec<i128>],
    product: &[i128],
    missing: usize,
    test: &mut impl FnMut(&[i128]) -> bool,
) -> bool {
    if product.iter().all(|minor| *minor == 0) {
        return true;
    }
    if missing == 0 {
        let all = (1 << n) - 1;
        let sign = |j: usize| if j % 2 == 1 { -1 } else { 1 };
        let direction: Vec<i128> = (0..n).map(|j| sign(j) * product[all ^ (1 << j)]).collect();
        return test(&direction);
    }
    (0..vectors.len()).all(|first| {
        let next = exterior_product(n, product, &vectors[first]);
        all_edges(n, &vectors[first + 1..], &next, missing - 1, test)
    })
}

fn exterior_product(n: usize, product: &[i128], vector: &[i128]) -> Vec<i128> {
    let mut next = vec![0; 1 << n];
    for (mask, minor) in product.iter().enumerate().filter(|(_, minor)| **minor != 0) {
        for (j, v) in vector.iter().enumerate().filter(|(j, _)| mask & (1 << j) == 0) {
            let passed = (mask >> j).count_ones();
            let sign = if passed % 2 == 0 { 1 } else { -1 };
            next[mask | (1 << j)] += sign * minor * v;
        }
    }
    next
}

#[cfg(test)]
mod tests {
    use super::*;
    use crate::random::Random;

    fn point(numbers: &[i128], shift: usize) -> Vec<Fraction> {
        numbers.iter().map(|v| Fraction::new(*v, shift)).collect()
    }

    #[test]
    fn corners_and_just_outside() {
        let generators = [vec![2, 1], vec![1, -3]];
        assert!(contains(&generators, &[0, 0], &point(&[3, -2], 0)));
        assert!(!contains(&generators, &[0, 0], &point(&[3 * 64 + 1, -2 * 64], 6)));
        assert!(contains(&generators, &[1, 0], &point(&[4, -2], 0)));
        assert!(!contains(&generators, &[1, 0], &point(&[4 * 64, -2 * 64 + 1], 6)));
        assert!(!contains(&generators, &[0, 0], &point(&[3, 3], 0)), "in the box but not in the zonotope");
    }

    #[test]
    fn flat_sets() {
        assert!(contains(&[], &[0], &point(&[0], 0)));
        assert!(!contains(&[], &[0], &point(&[1], 9)));
        assert!(contains(&[vec![4, 2, -2]], &[0, 0, 0], &point(&[2, 1, -1], 0)));
        assert!(!contains(&[vec![4, 2, -2]], &[0, 0, 0], &point(&[2, 1, 1], 0)));
        assert!(!contains(&[vec![4, 2, -2], vec![2, 1, -1]], &[0, 0, 0], &point(&[7, 3, -3], 0)));
    }

    /// Points made from numbers are inside; made larger than the set's reach in a direction, outside.
    #[test]
    fn random_points() {
        let mut random = Random::new(2);
        for _ in 0..150 {
            let n = 1 + random.below(4);
            let count = random.below(6);
            let mut vector = |limit: i128| (0..n).map(|_| random.between(-limit, limit)).collect::<Vec<_>>();
            let generators: Vec<Vec<i128>> = (0..count).map(|_| vector(50)).collect();
            let direction = vector(9);
            let radii: Vec<i128> = vector(5).into_iter().map(|r| r.max(0)).collect();
            let numbers: Vec<i128> = (0..count).map(|_| random.between(-8, 8)).collect();
            let inside: Vec<i128> = (0..n)
                .map(|i| {
                    let generated: i128 = generators.iter().zip(&numbers).map(|(g, b)| g[i] * b).sum();
                    generated + random.between(-8 * radii[i], 8 * radii[i])
                })
                .collect();
            assert!(contains(&generators, &radii, &point(&inside, 3)));
            let mut corner = vec![0; n];
            for g in &generators {
                let sign = if dot(&direction, g) < 0 { -1 } else { 1 };
                (0..n).for_each(|i| corner[i] += sign * g[i]);
            }
            (0..n).for_each(|i| corner[i] += direction[i].signum() * radii[i]);
            assert!(contains(&generators, &radii, &point(&corner, 0)));
            let beyond: Vec<i128> = (0..n).map(|i| 64 * corner[i] + direction[i].signum()).collect();
            let moved = direction.iter().any(|d| *d != 0);
            assert_eq!(contains(&generators, &radii, &point(&beyond, 6)), !moved);
        }
    }
}
