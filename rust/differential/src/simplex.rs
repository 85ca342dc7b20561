//! An exact simplex method for the question whether a net can refuse a step.
//!
//! The places that fit a log are a cone: the numbers x >= 0 with one inequality
//! for each allowed step. Over this cone a linear objective is either unbounded,
//! along a ray, or at most 0, by multipliers of the inequalities.

use crate::rng::Rng;

/// What is known of the largest value of an objective over a cone.
#[derive(Clone, Debug, PartialEq, Eq)]
pub enum Solution {
    /// It is unbounded: a member of the cone with a positive value.
    Ray(Vec<i128>),
    /// It is 0: the objective is at most the sum of these multiples of the
    /// constraints, divided by `scale`, in each number.
    Multipliers {
        /// What the multiples are divided by, above 0.
        scale: i128,
        /// A multiple for each constraint, 0 or more.
        multiples: Vec<i128>,
    },
}

/// A linear equation between one basic variable and all free ones:
/// scale × basic + sum of coefficient × free = 0, with scale above 0.
struct Equation {
    scale: i128,
    coefficients: Vec<i128>,
}

impl Equation {
    /// Divides by the largest common factor. That is allowed because all
    /// equations are homogeneous, and it keeps the numbers small.
    fn reduce(&mut self) {
        let factor = self
            .coefficients
            .iter()
            .fold(self.scale, |factor, &number| common_factor(factor, number));
        self.scale /= factor;
        for number in &mut self.coefficients {
            *number /= factor;
        }
    }

    /// Replaces the free variable of this column by its value in `pivot`, whose
    /// basic variable takes its column. Nothing when numbers get too large.
    fn substitute(&mut self, column: usize, pivot: &Equation) -> Option<()> {
        let own = self.coefficients[column];
        if own == 0 {
            return Some(());
        }
        // The pivot equation, solved for the free variable, has this scale.
        let factor = pivot.coefficients[column];
        self.scale = self.scale.checked_mul(factor)?;
        for (i, number) in self.coefficients.iter_mut().enumerate() {
            *number = if i == column {
                own.checked_mul(pivot.scale)?.checked_neg()?
            } else {
                let kept = number.checked_mul(factor)?;
                kept.checked_sub(own.checked_mul(pivot.coefficients[i])?)?
            };
        }
        self.reduce();
        Some(())
    }
}

/// Maximises `objective` over the numbers x >= 0 for which each constraint,
/// times x, is at most 0. Which of several solutions is found is random. Nothing
/// when numbers get too large on the way.
pub fn solve(rng: &mut Rng, constraints: &[Vec<i128>], objective: &[i128]) -> Option<Solution> {
    let size = objective.len();
    // Variables are the numbers x, then what each constraint has left. At first
    // the former are free. By Bland's rule, always the first variable that will
    // do is taken, in any fixed order: so the method ends.
    let everything: Vec<usize> = (0..size + constraints.len()).collect();
    let rank = rng.shuffled(&everything);
    let mut free: Vec<usize> = (0..size).collect();
    let mut basic: Vec<usize> = (size..size + constraints.len()).collect();
    let mut equations: Vec<Equation> = constraints
        .iter()
        .map(|constraint| Equation {
            scale: 1,
            coefficients: constraint.clone(),
        })
        .collect();
    let mut value = Equation {
        scale: 1,
        coefficients: objective.iter().map(|number| -number).collect(),
    };

    loop {
        let entering = (0..size)
            .filter(|&column| value.coefficients[column] < 0)
            .min_by_key(|&column| rank[free[column]]);
        let Some(column) = entering else {
            let mut multiples = vec![0; constraints.len()];
            for (&variable, &number) in free.iter().zip(&value.coefficients) {
                if variable >= size {
                    multiples[variable - size] = number;
                }
            }
            let scale = value.scale;
            return Some(Solution::Multipliers { scale, multiples });
        };

        // All constraints are tight, so each one that would be broken stops the
        // entering variable at 0.
        let leaving = (0..basic.len())
            .filter(|&line| equations[line].coefficients[column] > 0)
            .min_by_key(|&line| rank[basic[line]]);
        let Some(line) = leaving else {
            return ray(size, free[column], column, &basic, &equations);
        };

        let mut pivot = Equation {
            scale: equations[line].scale,
            coefficients: equations[line].coefficients.clone(),
        };
        for (other, equation) in equations.iter_mut().enumerate() {
            if other != line {
                equation.substitute(column, &pivot)?;
            }
        }
        value.substitute(column, &pivot)?;
        std::mem::swap(&mut pivot.scale, &mut pivot.coefficients[column]);
        equations[line] = pivot;
        std::mem::swap(&mut free[column], &mut basic[line]);
    }
}

/// The direction in which only one free variable grows, in whole numbers.
fn ray(
    size: usize,
    entering: usize,
    column: usize,
    basic: &[usize],
    equations: &[Equation],
) -> Option<Solution> {
    // scale × basic = -coefficient × entering.
    let moving = || {
        basic
            .iter()
            .zip(equations)
            .filter(|(&variable, _)| variable < size)
            .map(|(&variable, equation)| (variable, equation.scale, -equation.coefficients[column]))
    };
    let mut denominator: i128 = 1;
    for (_, scale, number) in moving() {
        let own = scale / common_factor(scale, number);
        denominator = denominator.checked_mul(own / common_factor(denominator, own))?;
    }
    let mut ray = vec![0; size];
    if entering < size {
        ray[entering] = denominator;
    }
    for (variable, scale, number) in moving() {
        ray[variable] = number.checked_mul(denominator)? / scale;
    }
    Some(Solution::Ray(ray))
}

/// The largest common factor of two numbers, of which the first is above 0.
fn common_factor(a: i128, b: i128) -> i128 {
    let (mut a, mut b) = (a, b.abs());
    while b != 0 {
        (a, b) = (b, a % b);
    }
    a
}

#[cfg(test)]
mod tests {
    use super::{solve, Solution};
    use crate::rng::Rng;

    fn product(a: &[i128], b: &[i128]) -> i128 {
        a.iter().zip(b).map(|(a, b)| a * b).sum()
    }

    /// Every solution is what it says, and both kinds occur.
    #[test]
    fn solutions_are_right() {
        let mut rng = Rng::new(1);
        let mut rays = 0;
        for _ in 0..2_000 {
            let size = rng.within(1..=5);
            let mut numbers =
                || -> Vec<i128> { (0..size).map(|_| rng.within(0..=8) as i128 - 4).collect() };
            let objective = numbers();
            let constraints: Vec<Vec<i128>> = (0..size + 2).map(|_| numbers()).collect();
            match solve(&mut rng, &constraints, &objective).expect("small numbers") {
                Solution::Ray(ray) => {
                    assert!(ray.iter().all(|&number| number >= 0));
                    assert!(product(&ray, &objective) > 0);
                    for constraint in &constraints {
                        assert!(product(&ray, constraint) <= 0);
                    }
                    rays += 1;
                }
                Solution::Multipliers { scale, multiples } => {
                    assert!(scale > 0);
                    assert!(multiples.iter().all(|&multiple| multiple >= 0));
                    for i in 0..size {
                        let column: Vec<i128> = constraints.iter().map(|c| c[i]).collect();
                        assert!(product(&multiples, &column) >= scale * objective[i]);
                    }
                }
            }
        }
        assert!((200..1_800).contains(&rays), "{rays} rays");
    }
}
