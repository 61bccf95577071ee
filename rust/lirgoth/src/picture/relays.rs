//! How the load on the relays is drawn: an office is the larger the more routes it relays.

use super::ring::RADIUS;
use agreement::Load;

/// Radius of the widest relay's circle: between two such neighbours in the ring more than two fifths
/// of the way are seen as the link, and in a ring of eight the links past a circle stay clear of it.
const WIDEST: f64 = 44.0;

/// Radii of the offices' circles. What a circle's area has over that of an office that relays
/// nothing goes with the number of its routes, since areas are what the eye compares.
pub fn radii(load: &Load) -> [f64; 8] {
    let most = load.routes.into_iter().max().unwrap_or(0);
    load.routes.map(|routes| match most {
        0 => RADIUS,
        _ => {
            let part = routes as f64 / most as f64;
            (RADIUS * RADIUS + part * (WIDEST * WIDEST - RADIUS * RADIUS)).sqrt()
        }
    })
}

#[cfg(test)]
mod tests {
    use super::*;

    #[test]
    fn the_widest_relay_is_the_largest_and_areas_go_with_the_load() {
        let radii = radii(&Load {
            routes: [0, 25, 50, 75, 100, 0, 0, 0],
        });
        assert_eq!((radii[0], radii[4]), (RADIUS, WIDEST));
        let areas = radii.map(|radius| radius * radius);
        let steps: Vec<f64> = areas[..5].windows(2).map(|two| two[1] - two[0]).collect();
        assert!(steps
            .iter()
            .all(|step| (step - steps[0]).abs() < 1e-6 && *step > 0.0));
        assert_eq!(super::radii(&Load { routes: [0; 8] }), [RADIUS; 8]);
    }
}
