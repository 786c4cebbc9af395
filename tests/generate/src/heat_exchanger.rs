//! One realistic part: the lattice of a heat exchanger, as an implicit function.
//!
//! Two networks of octagonal tubes run through a block, the second shifted by
//! half a cell against the first, so that two fluids pass each other without
//! mixing. The field is negative inside the material.

use crate::graph::{Function, Graph, Reference, input};
use crate::kinds::*;

const S: u8 = 1;
const V: u8 = 2;
const M: u8 = 3;

const CELL: u16 = 1;
const TUBE: u16 = 2;
const WALL: u16 = 3;
const BLOCK: u16 = 4;
const NETWORK: u16 = 5;
const EXCHANGER: u16 = 6;

pub fn graph() -> Graph {
    let functions = vec![cell(), tube(), wall(), block(), network(), exchanger()];
    Graph { functions }
}

/// cell(p, size): the coordinate inside a periodic cell, from -size/2 to size/2.
fn cell() -> Function {
    let mut f = Function::new(CELL, &[S, S]);
    let (p, size) = (input(0), input(1));
    let half = f.constant(&[0.5]);
    let remainder = f.node(FMOD, S, &[p, size]);
    let positive = f.node(ADDITION, S, &[remainder, size]);
    let inside = f.node(FMOD, S, &[positive, size]);
    let middle = f.node(MULTIPLICATION, S, &[size, half]);
    let centred = f.node(SUBTRACTION, S, &[inside, middle]);
    f.output(S, centred);
    f
}

/// tube(u, v, radius): the distance to an octagonal tube along the third axis.
fn tube() -> Function {
    let mut f = Function::new(TUBE, &[S, S, S]);
    let diagonal = f.constant(&[std::f64::consts::FRAC_1_SQRT_2]);
    let u = f.node(ABS, S, &[input(0)]);
    let v = f.node(ABS, S, &[input(1)]);
    let square = f.node(MAX, S, &[u, v]);
    let sum = f.node(ADDITION, S, &[u, v]);
    let diamond = f.node(MULTIPLICATION, S, &[sum, diagonal]);
    let octagon = f.node(MAX, S, &[square, diamond]);
    let distance = f.node(SUBTRACTION, S, &[octagon, input(2)]);
    f.output(S, distance);
    f
}

/// wall(distance, thickness): a wall of this thickness around a surface.
fn wall() -> Function {
    let mut f = Function::new(WALL, &[S, S]);
    let half = f.constant(&[0.5]);
    let from_surface = f.node(ABS, S, &[input(0)]);
    let half_thickness = f.node(MULTIPLICATION, S, &[input(1), half]);
    let distance = f.node(SUBTRACTION, S, &[from_surface, half_thickness]);
    f.output(S, distance);
    f
}

/// block(point, low, high): the distance to a block between two corners.
fn block() -> Function {
    let mut f = Function::new(BLOCK, &[V, V, V]);
    let (point, low, high) = (input(0), input(1), input(2));
    let below = f.node(SUBTRACTION, V, &[low, point]);
    let above = f.node(SUBTRACTION, V, &[point, high]);
    let outside = f.node(MAX, V, &[below, above]);
    let axes = f.node(DECOMPOSEVECTOR, 0, &[outside]);
    let xy = f.node(MAX, S, &[axes, axes.port(1)]);
    let distance = f.node(MAX, S, &[xy, axes.port(2)]);
    f.output(S, distance);
    f
}

/// network(point, size, radius): tubes along all three axes, one of each in every cell.
fn network() -> Function {
    let mut f = Function::new(NETWORK, &[V, S, S]);
    let (point, size, radius) = (input(0), input(1), input(2));
    let axes = f.node(DECOMPOSEVECTOR, 0, &[point]);
    let x = f.call(CELL, &[axes, size]);
    let y = f.call(CELL, &[axes.port(1), size]);
    let z = f.call(CELL, &[axes.port(2), size]);
    let along_x = f.call(TUBE, &[y, z, radius]);
    let along_y = f.call(TUBE, &[z, x, radius]);
    let along_z = f.call(TUBE, &[x, y, radius]);
    let two = f.node(MIN, S, &[along_x, along_y]);
    let all = f.node(MIN, S, &[two, along_z]);
    f.output(S, all);
    f
}

/// exchanger(point, placement): the part, and which fluid is at the point:
/// 1 the warm one, -1 the cold one, 0 neither.
fn exchanger() -> Function {
    let mut f = Function::new(EXCHANGER, &[V, M]);
    let local = f.node(MATVECMULTIPLICATION, 0, &[input(1), input(0)]);
    let axes = f.node(DECOMPOSEVECTOR, 0, &[local]);
    let height = axes.port(2);

    let size = f.constant(&[8.0]);
    let zero = f.constant(&[0.0]);
    let one = f.constant(&[1.0]);
    let minus_one = f.constant(&[-1.0]);

    // The tubes grow with the height, between two radii.
    let slope = f.constant(&[0.01]);
    let least = f.constant(&[1.25]);
    let most = f.constant(&[1.75]);
    let growth = f.node(MULTIPLICATION, S, &[height, slope]);
    let wanted = f.node(ADDITION, S, &[growth, least]);
    let radius = f.node(CLAMP, S, &[wanted, least, most]);

    // Walls are thicker near the ends, where the pipes are joined.
    let low_end = f.constant(&[6.0]);
    let high_end = f.constant(&[74.0]);
    let thin = f.constant(&[0.5]);
    let thick = f.constant(&[0.9]);
    let above_low = f.node(SELECT, S, &[height, low_end, thick, thin]);
    let thickness = f.node(SELECT, S, &[high_end, height, thick, above_low]);

    // The two networks.
    let half_cell = f.constant(&[4.0, 4.0, 4.0]);
    let shifted = f.node(ADDITION, V, &[local, half_cell]);
    let warm = f.call(NETWORK, &[local, size, radius]);
    let cold = f.call(NETWORK, &[shifted, size, radius]);
    let warm_wall = f.call(WALL, &[warm, thickness]);
    let cold_wall = f.call(WALL, &[cold, thickness]);
    let walls = f.node(MIN, S, &[warm_wall, cold_wall]);

    // Thin bars along a finer grid hold the networks together.
    let fine = f.constant(&[4.0]);
    let bar = f.constant(&[0.2]);
    let bars = f.call(NETWORK, &[local, fine, bar]);
    let inside_any = f.node(MIN, S, &[warm, cold]);
    let fluid_free = f.node(SUBTRACTION, S, &[zero, inside_any]);
    let free_bars = f.node(MAX, S, &[bars, fluid_free]);
    let lattice = f.node(MIN, S, &[walls, free_bars]);

    // The block, its shell, and a flange at each end.
    let low = f.constant(&[0.0, 0.0, 0.0]);
    let high = f.constant(&[40.0, 40.0, 80.0]);
    let outer = f.call(BLOCK, &[local, low, high]);
    let shell_thickness = f.constant(&[2.0]);
    let shell = f.call(WALL, &[outer, shell_thickness]);
    let openings = f.node(MAX, S, &[shell, fluid_free]);
    let inside = f.node(MAX, S, &[outer, lattice]);
    let body = f.node(MIN, S, &[openings, inside]);
    let flange = |f: &mut Function, from: f64, to: f64| -> Reference {
        let low = f.constant(&[-4.0, -4.0, from]);
        let high = f.constant(&[44.0, 44.0, to]);
        let plate = f.call(BLOCK, &[local, low, high]);
        f.node(MAX, S, &[plate, fluid_free])
    };
    let bottom = flange(&mut f, -2.0, 1.0);
    let top = flange(&mut f, 79.0, 82.0);
    let flanges = f.node(MIN, S, &[bottom, top]);
    let part = f.node(MIN, S, &[body, flanges]);

    let cold_side = f.node(SELECT, S, &[cold, zero, minus_one, zero]);
    let side = f.node(SELECT, S, &[warm, zero, one, cold_side]);
    let fluid = f.node(SELECT, S, &[outer, zero, side, zero]);
    f.output(S, part);
    f.output(S, fluid);
    f
}
