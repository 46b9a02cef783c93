//! Stand-ins for what the published module takes from `threecrate_core`, `nalgebra` and `crate::parallel`:
//! just the operations that it uses, each f32 operation rounded once, in the order of the scope.

use std::ops::{Add, AddAssign, Div, Mul, Sub};

#[derive(Clone, Copy, Debug, PartialEq)]
pub struct Vector3<T = f32> {
    pub x: T,
    pub y: T,
    pub z: T,
}

impl Vector3 {
    pub fn new(x: f32, y: f32, z: f32) -> Self {
        Self { x, y, z }
    }

    pub fn magnitude(&self) -> f32 {
        ((self.x * self.x + self.y * self.y) + self.z * self.z).sqrt()
    }

    pub fn cross(&self, other: &Self) -> Self {
        Self {
            x: self.y * other.z - self.z * other.y,
            y: self.z * other.x - self.x * other.z,
            z: self.x * other.y - self.y * other.x,
        }
    }

    pub fn normalize(&self) -> Self {
        *self / self.magnitude()
    }

    pub fn transpose(&self) -> RowVector3 {
        RowVector3(*self)
    }
}

impl Add for Vector3 {
    type Output = Self;
    fn add(self, other: Self) -> Self {
        Self::new(self.x + other.x, self.y + other.y, self.z + other.z)
    }
}

impl Mul<f32> for Vector3 {
    type Output = Self;
    fn mul(self, by: f32) -> Self {
        Self::new(self.x * by, self.y * by, self.z * by)
    }
}

impl Div<f32> for Vector3 {
    type Output = Self;
    fn div(self, by: f32) -> Self {
        Self::new(self.x / by, self.y / by, self.z / by)
    }
}

/// A point; `coords` are its parts, which are also read as fields of the point itself.
#[derive(Clone, Copy, Debug, PartialEq)]
pub struct Point3f {
    pub coords: Vector3,
}

impl Point3f {
    pub fn new(x: f32, y: f32, z: f32) -> Self {
        Vector3::new(x, y, z).into()
    }

    pub fn origin() -> Self {
        Self::new(0.0, 0.0, 0.0)
    }
}

impl From<Vector3> for Point3f {
    fn from(coords: Vector3) -> Self {
        Self { coords }
    }
}

impl std::ops::Deref for Point3f {
    type Target = Vector3;
    fn deref(&self) -> &Vector3 {
        &self.coords
    }
}

impl std::ops::DerefMut for Point3f {
    fn deref_mut(&mut self) -> &mut Vector3 {
        &mut self.coords
    }
}

impl Sub for &Point3f {
    type Output = Vector3;
    fn sub(self, other: &Point3f) -> Vector3 {
        Vector3::new(self.x - other.x, self.y - other.y, self.z - other.z)
    }
}

impl Sub for Point3f {
    type Output = Vector3;
    fn sub(self, other: Point3f) -> Vector3 {
        &self - &other
    }
}

impl Sub<Point3f> for &Point3f {
    type Output = Vector3;
    fn sub(self, other: Point3f) -> Vector3 {
        self - &other
    }
}

#[derive(Clone, Copy, Debug, PartialEq)]
pub struct NormalPoint3f {
    pub position: Point3f,
    pub normal: Vector3,
}

#[derive(Clone, Debug)]
pub struct PointCloud<T> {
    pub points: Vec<T>,
}

impl<T> PointCloud<T> {
    pub fn is_empty(&self) -> bool {
        self.points.is_empty()
    }
}

#[derive(Clone, Debug)]
pub struct TriangleMesh {
    pub vertices: Vec<Point3f>,
    pub faces: Vec<[usize; 3]>,
    pub normals: Option<Vec<Vector3>>,
}

impl TriangleMesh {
    pub fn from_vertices_and_faces(vertices: Vec<Point3f>, faces: Vec<[usize; 3]>) -> Self {
        Self { vertices, faces, normals: None }
    }

    pub fn set_normals(&mut self, normals: Vec<Vector3>) {
        if normals.len() == self.vertices.len() {
            self.normals = Some(normals);
        }
    }
}

#[derive(Clone, Debug, PartialEq, Eq)]
pub enum Error {
    InvalidData(String),
    Algorithm(String),
}

pub type Result<T> = std::result::Result<T, Error>;

// Below: what `estimate_simple_normals` needs to compile. `reconstruct` alone calls it, and nothing here calls that.

pub struct RowVector3(Vector3);
pub struct Matrix3;
pub struct Eigen {
    pub eigenvalues: Matrix3,
    pub eigenvectors: Matrix3,
}

impl Mul<RowVector3> for Vector3 {
    type Output = Matrix3;
    fn mul(self, row: RowVector3) -> Matrix3 {
        let _ = row.0;
        unreachable!("normals are never estimated here")
    }
}

impl AddAssign for Matrix3 {
    fn add_assign(&mut self, _: Self) {}
}

impl Matrix3 {
    pub fn zeros() -> Self {
        Self
    }

    pub fn symmetric_eigen(self) -> Eigen {
        unreachable!("normals are never estimated here")
    }

    pub fn imin(&self) -> usize {
        0
    }

    pub fn column(&self, _: usize) -> Self {
        Self
    }

    pub fn clone_owned(&self) -> Vector3 {
        unreachable!("normals are never estimated here")
    }
}

pub mod parallel {
    pub mod point_cloud {
        use crate::Point3f;

        pub fn parallel_compute_normals<F>(_: &[Point3f], _: f32, _: F) -> Vec<Point3f>
        where
            F: Fn(&Point3f, &[Point3f], f32) -> Point3f,
        {
            unreachable!("normals are never estimated here")
        }
    }
}
