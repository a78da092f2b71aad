/// The rules by which a tile is judged.
#[derive(Clone, Copy, Debug, Default, PartialEq, Eq, Hash)]
#[repr(u32)]
pub enum Profile {
    /// The rings of each polygon neither cross nor touch, and its holes lie where they should.
    #[default]
    Polygon = 0,
    /// The polygons of one feature don't cross, touch or lie in each other either, but for a polygon in another's hole.
    /// For a tile that is made for it this can take a time that grows as the square of its size: judge tiles of others by
    /// [`check_quickly`](crate::check_quickly) and [`faults_quickly`](crate::faults_quickly). [`mend`](crate::mend) can take as
    /// long, and has no quick form: bound the tile's length.
    Feature = 1,
}
